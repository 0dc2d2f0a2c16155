//! Octants as a converter calls them: values that are easily got wrong.

use bounds::{calculate_octants, Octants, Refusal, Vec3};

#[test]
fn pointers_of_empty_lists_are_addresses_too() {
    let mut octants = Octants::default();
    (octants.items[0], octants.items[2], octants.items[7]) = (vec![5], vec![6, 7], vec![9]);
    let bytes = octants.write(0x1000).expect("a low address");
    let pointers = bytes[32..96].chunks_exact(8).map(|p| u64::from_le_bytes(p.try_into().expect("eight")));
    assert!(pointers.eq([0x1060, 0x1064, 0x1064, 0x106C, 0x106C, 0x106C, 0x106C, 0x106C]));
    let last = u64::MAX - 96 - 16;
    assert_eq!(octants.write(last).map(|bytes| bytes.len()), Ok(144));
    assert_eq!(octants.write(last + 1), Err(Refusal::Address));
}

#[test]
fn equal_infinities_do_not_shadow_and_equal_zeros_do() {
    let far = Vec3::new(f32::INFINITY, 0.0, 0.0);
    let both = calculate_octants(&[far, far]).expect("two vertices");
    assert!(both.items.iter().all(|list| *list == [0, 1]));
    let zeros = calculate_octants(&[Vec3::ZERO, -Vec3::ZERO]).expect("two vertices");
    assert!(zeros.items.iter().all(|list| *list == [0]));
}
