//! A build as a converter calls it: the values that the scope document lists, and its refusals.

use bounds::bvh::{records_len, work_len, RECORD};
use bounds::{build_bvh, BuiltTree, BvhItem, Refusal, Vec3};

struct Tree {
    built: BuiltTree,
    nodes: Vec<u8>,
    trees: Vec<u8>,
    order: Vec<u16>,
}

impl Tree {
    /// First node, and one past the last, of each range.
    fn ranges(&self) -> Vec<(i16, i16)> {
        let ends = |r: &[u8]| (i16::from_le_bytes([r[12], r[13]]), i16::from_le_bytes([r[14], r[15]]));
        self.trees.chunks_exact(RECORD).take(self.built.trees_count as usize).map(ends).collect()
    }
}

fn build(items: &[BvhItem], threshold: u32) -> Result<Tree, Refusal> {
    let n = items.len();
    let (mut nodes, mut trees) = (vec![0xA5; records_len(n)], vec![0xA5; records_len(n)]);
    let (mut order, mut work) = (vec![0xA5A5; n], vec![0xA5A5_A5A5; work_len(n)]);
    match build_bvh(items, threshold, &mut nodes, &mut trees, &mut order, &mut work) {
        Ok(built) => Ok(Tree { built, nodes, trees, order }),
        Err(refusal) => {
            let untouched = |bytes: &[u8]| bytes.iter().all(|&b| b == 0xA5);
            assert!(untouched(&nodes) && untouched(&trees) && order.iter().all(|&p| p == 0xA5A5), "{refusal}");
            Err(refusal)
        }
    }
}

/// Boxes of which no two are alike.
fn row(n: usize) -> Vec<BvhItem> {
    let at = |i: f32| BvhItem::new(Vec3::new(i, 0.0, 0.0), Vec3::new(i + 0.5, 1.0, 1.0));
    (0..n).map(|i| at(i as f32)).collect()
}

#[test]
fn boxes_64_make_127_nodes_in_one_range() {
    let tree = build(&row(64), 1).expect("64 boxes");
    assert_eq!((tree.built.nodes_count, tree.built.nodes_capacity), (127, 129));
    assert_eq!(tree.ranges(), [(0, 127)]);
    assert!(tree.order.iter().copied().eq(0..64));
}

#[test]
fn boxes_65_make_129_nodes_and_node_0_is_in_no_range() {
    let tree = build(&row(65), 1).expect("65 boxes");
    assert_eq!(tree.built.nodes_count, 129);
    let ranges = tree.ranges();
    assert!(ranges.len() > 1);
    assert!(ranges.iter().all(|&(first, last)| first > 0 && last - first <= 127));
    assert_eq!(ranges[0].0, 1);
    assert!(ranges.windows(2).all(|pair| pair[0].1 <= pair[1].0));
    assert_eq!(ranges.last().map(|r| r.1), Some(129));
}

#[test]
fn boxes_16384_pass_and_16385_are_refused() {
    let tree = build(&row(16_384), 1).expect("16,384 boxes");
    assert_eq!((tree.built.nodes_count, tree.built.items_count), (32_767, 16_384));
    assert_eq!(build(&row(16_385), 1).err(), Some(Refusal::TooManyNodes));
    assert!(build(&row(16_385), 4).is_ok());
}

#[test]
fn two_boxes_have_the_bytes_of_the_listing() {
    let left = BvhItem::new(Vec3::new(-1.0, -1.0, -1.0), Vec3::new(-0.5, 1.0, 1.0));
    let right = BvhItem::new(Vec3::new(0.5, -1.0, -1.0), Vec3::new(1.0, 1.0, 1.0));
    let tree = build(&[left, right], 1).expect("two boxes");
    let record = |r: [i16; 8]| r.map(i16::to_le_bytes).concat();
    let expected = [
        [-32767, -32767, -32767, 32767, 32767, 32767, 3, 0],
        [16383, -32767, -32767, 32767, 32767, 32767, 1, 1],
        [-32767, -32767, -32767, -16383, 32767, 32767, 0, 1],
        [0, 0, 0, 0, 0, 0, 1, 0],
        [0, 0, 0, 0, 0, 0, 1, 0],
    ];
    assert_eq!(tree.nodes, expected.map(record).concat());
    assert_eq!(tree.trees[..16], record([-32767, -32767, -32767, 32767, 32767, 32767, 0, 3]));
    assert!(tree.trees[16..].iter().all(|&b| b == 0xA5), "what lies behind the records is unchanged");
    assert_eq!(tree.order, [0, 1]);
}

#[test]
fn absent_entries_count_for_the_padding_and_keep_their_places() {
    let mut items = row(3);
    items.insert(1, BvhItem { present: 0, ..items[0] });
    items[0].present = u32::MAX;
    let tree = build(&items, 1).expect("three boxes");
    assert_eq!((tree.built.nodes_count, tree.built.nodes_capacity, tree.built.items_count), (5, 9, 3));
    assert_eq!(tree.order, [0, 2, 3, 0xA5A5]);
}

#[test]
fn a_list_without_a_present_entry_is_one_empty_leaf() {
    for items in [vec![], vec![BvhItem::ABSENT; 5]] {
        let tree = build(&items, 2).expect("no boxes");
        assert_eq!((tree.built.nodes_count, tree.built.trees_count, tree.built.items_count), (1, 1, 0));
        assert_eq!(
            tree.nodes[..16],
            [32766i16, 32766, 32766, -32766, -32766, -32766, 0, 0].map(i16::to_le_bytes).concat()
        );
    }
}

#[test]
fn a_copied_nan_keeps_its_bits() {
    let nan = f32::from_bits(0xFFA5_A5A5); // signalling
    let item = BvhItem::new(Vec3::new(nan, 0.0, 0.0), Vec3::new(1.0, nan, 1.0));
    let tree = build(&[item], 1).expect("one box");
    assert_eq!((tree.built.bb_min.x.to_bits(), tree.built.bb_max.y.to_bits()), (0xFFA5_A5A5, 0xFFA5_A5A5));
    assert!(tree.built.quantum.x.is_nan());
}

#[test]
fn refusals_come_in_their_order() {
    let refused = |n: usize, threshold: u32, short: [usize; 4]| {
        let (mut nodes, mut trees) = (vec![7; records_len(n) - short[0]], vec![7; records_len(n) - short[1]]);
        let (mut order, mut work) = (vec![7; n - short[2]], vec![0; work_len(n) - short[3]]);
        let answer = build_bvh(&row(n), threshold, &mut nodes, &mut trees, &mut order, &mut work);
        let untouched = |bytes: &[u8]| bytes.iter().all(|&b| b == 7);
        assert!(answer.is_ok() || untouched(&nodes) && untouched(&trees) && order.iter().all(|&p| p == 7));
        answer.err().map(Refusal::number)
    };
    assert_eq!(refused(32_768, 0, [1; 4]), Some(1));
    assert_eq!(refused(32_767, 0, [1; 4]), Some(3));
    assert_eq!(refused(16_385, 32_768, [1; 4]), Some(3));
    assert_eq!(refused(16_385, u32::MAX, [0; 4]), Some(3));
    for at in 0..4 {
        let mut short = [0; 4];
        short[at] = 1;
        assert_eq!(refused(16_385, 1, short), Some(2), "buffer {at}");
        assert_eq!(refused(1, 1, short), Some(2), "buffer {at}");
    }
    assert_eq!(refused(16_385, 1, [0; 4]), Some(4));
    assert_eq!(refused(32_767, 32_767, [0; 4]), None);
}

#[test]
fn a_work_buffer_of_any_length_is_answered() {
    let items = row(2);
    for len in 0..=work_len(2) + 3 {
        let (mut nodes, mut trees, mut order) = ([0; 80], [0; 80], [0; 2]);
        let answer = build_bvh(&items, 1, &mut nodes, &mut trees, &mut order, &mut vec![0; len]);
        assert_eq!(answer.is_ok(), len >= work_len(2), "{len} words");
    }
}
