//! The owned tree: it is the lent form's, and nothing of it can be mixed up.

use bounds::bvh::{build_bvh, records_len, tree_header, work_len};
use bounds::tree::Addresses;
use bounds::{Bvh, BvhItem, Refusal, Tree, Vec3};

/// A row of boxes along x, 1 wide and 2 apart; every fifth is absent.
fn row(n: usize) -> Vec<BvhItem> {
    let at = |i: usize| BvhItem::new(Vec3::new(2.0 * i as f32, 0.0, 0.0), Vec3::new(2.0 * i as f32 + 1.0, 1.0, 1.0));
    (0..n).map(|i| if i % 5 == 4 { BvhItem::ABSENT } else { at(i) }).collect()
}

fn by_comparing_all(items: &[BvhItem], min: Vec3, max: Vec3) -> Vec<usize> {
    (0..items.len()).filter(|&i| items[i].present != 0 && items[i].meets(min, max)).collect()
}

#[test]
fn the_owned_form_is_the_lent_one() {
    for (n, threshold) in [(0, 1), (1, 1), (5, 1), (5, 2), (70, 1), (70, 4), (400, 1), (400, 127)] {
        let items = row(n);
        let tree = Tree::build(&items, threshold).expect("within the limits");
        let (mut nodes, mut trees) = (vec![7; records_len(n)], vec![7; records_len(n)]);
        let (mut order, mut work) = (vec![7; n], vec![7; work_len(n)]);
        let built =
            build_bvh(&items, threshold, &mut nodes, &mut trees, &mut order, &mut work).expect("within the limits");
        assert_eq!(*tree.built(), built);
        assert!(nodes.starts_with(tree.node_bytes()) && trees.starts_with(tree.tree_bytes()));
        assert_eq!(tree.order(), &order[..built.items_count as usize]);
        assert_eq!(tree.node_bytes().len(), 16 * built.nodes_capacity as usize);
        let mut header = [0; 128];
        tree_header(&mut header, &built.bvh(1, 2)).expect("few trees");
        assert_eq!(tree.header(Addresses { nodes: 1, trees: 2 }), header);
        assert_eq!((tree.nodes().len(), tree.trees().len()), (built.nodes_count as usize, built.trees_count as usize));
    }
}

/// Fifteen signalling NaNs, each with bits of its own: a word that is computed with, or that stands elsewhere, shows.
#[test]
fn a_header_copies_the_bits_of_every_float() {
    let word = |point: usize, axis: usize| 0x7F80_0001 + (0x10 * point + axis) as u32;
    let point = |i| Vec3::new(f32::from_bits(word(i, 0)), f32::from_bits(word(i, 1)), f32::from_bits(word(i, 2)));
    let [bb_min, bb_max, bb_center, quantum_inverse, quantum] = [0, 1, 2, 3, 4].map(point);
    let mut out = [0; 128];
    tree_header(&mut out, &Bvh { bb_min, bb_max, bb_center, quantum_inverse, quantum, ..Bvh::default() })
        .expect("no tree, 128 bytes");
    for (i, bytes) in out[32..112].chunks_exact(16).enumerate() {
        let words = [word(i, 0), word(i, 1), word(i, 2), 0xFFC0_0000];
        assert_eq!(bytes, words.map(u32::to_le_bytes).concat(), "point {i}");
    }
}

#[test]
fn queries_answer_list_places_at_every_threshold() {
    let items = row(90);
    for threshold in [1, 2, 3, 8, 127, 32_767] {
        let tree = Tree::build(&items, threshold).expect("90 boxes");
        assert_eq!(tree.premises(), Ok(()));
        for k in 0..100 {
            let (min, max) = (Vec3::new(1.9 * k as f32, 0.5, 0.5), Vec3::new(1.9 * k as f32 + 9.0, 0.5, 0.5));
            let mut places = tree.query(min, max);
            places.sort();
            assert_eq!(places, by_comparing_all(&items, min, max), "threshold {threshold}, query {k}");
            let candidates = tree.candidates(min, max);
            assert!(places.iter().all(|place| candidates.places.contains(place)));
            assert!(candidates.reads <= tree.nodes().len() + tree.trees().len());
        }
    }
}

#[test]
fn each_present_item_is_held_by_one_leaf() {
    for threshold in [1, 4] {
        let tree = Tree::build(&row(63), threshold).expect("63 boxes");
        let mut held: Vec<usize> = tree.nodes().flat_map(|node| tree.held(&node)).collect();
        held.sort();
        assert!(held.into_iter().eq((0..63).filter(|i| i % 5 != 4)));
    }
}

#[test]
fn a_record_of_another_tree_holds_nothing_that_is_not_there() {
    let (small, large) = (Tree::build(&row(3), 2).expect("3 boxes"), Tree::build(&row(90), 2).expect("90 boxes"));
    for node in large.nodes() {
        assert!(small.held(&node).iter().all(|&place| place < 3));
    }
}

#[test]
fn refusals_say_what_to_change() {
    let words = Tree::build(&row(2), 0).expect_err("no threshold").to_string();
    assert_eq!(words, "refused 3: the threshold is outside 1 to 32,767; choose one within");
    assert_eq!(Tree::build(&row(2), 32_768), Err(Refusal::Threshold));
    for refusal in Refusal::ALL {
        let words = refusal.to_string();
        assert!(words.starts_with(&format!("refused {}: ", refusal.number())) && words.contains(';'), "{words}");
    }
}
