//! A composite as a converter calls it: its limits, and a walk over its tree.

use bounds::bvh::{records_len, work_len};
use bounds::composite::{child_boxes, composite_tree};
use bounds::walk::walk;
use bounds::{Child, Composite, Mat4, Refusal, Vec3};

/// A unit cube, so far away on x.
fn cube(away: f32) -> Child {
    let mut transform = Mat4::identity();
    transform.0[12] = away;
    Child::new(Vec3::ZERO, Vec3::new(1.0, 1.0, 1.0), 0.04, transform)
}

fn row(n: usize) -> Vec<Child> {
    (0..n).map(|i| cube(4.0 * i as f32)).collect()
}

#[test]
fn five_children_have_no_tree_and_an_absent_sixth_makes_one() {
    let mut children = row(5);
    assert_eq!(Composite::prepare(&children).expect("five children").tree, None);
    children.push(Child::ABSENT);
    let tree = Composite::prepare(&children).expect("six children").tree.expect("a tree");
    assert_eq!((tree.built.nodes_count, tree.built.nodes_capacity, tree.built.items_count), (9, 13, 5));
    assert_eq!(tree.order, [0, 1, 2, 3, 4]);
}

#[test]
fn a_walk_hands_out_the_places_of_children() {
    let mut children = row(100);
    children[7] = Child::ABSENT;
    let tree = Composite::prepare(&children).expect("100 children").tree.expect("a tree");
    let (low, high) = (Vec3::new(20.5, 0.5, 0.5), Vec3::new(40.5, 0.5, 0.5));
    let mut out = vec![0; 100];
    let counts =
        walk(low, high, tree.built.bb_center, tree.built.quantum_inverse, &tree.records(), &mut out).expect("a walk");
    let mut places = out[..counts.handed].to_vec();
    places.sort();
    assert_eq!(places, [5, 6, 8, 9, 10]);
}

#[test]
fn the_lent_form_is_the_owned_one() {
    for n in [0, 5, 6, 70] {
        let children = row(n);
        let (mut boxes, mut nodes, mut trees) = (vec![7; 32 * n], vec![7; records_len(n)], vec![7; records_len(n)]);
        let (mut order, mut work) = (vec![7; n], vec![7; work_len(n)]);
        child_boxes(&children, &mut boxes).expect("within the limits");
        let lent = composite_tree(&children, &mut nodes, &mut trees, &mut order, &mut work).expect("within the limits");
        let owned = Composite::prepare(&children).expect("within the limits");
        assert_eq!(boxes, owned.child_boxes);
        assert_eq!(lent, owned.tree.as_ref().map(|tree| tree.built));
        let Some(tree) = owned.tree else {
            assert!(n < 6 && nodes.iter().chain(&trees).all(|&byte| byte == 7), "{n} children: nothing is written");
            continue;
        };
        assert!(nodes.starts_with(&tree.node_bytes) && trees.starts_with(&tree.tree_bytes));
        assert_eq!(order, tree.order);
    }
}

#[test]
fn children_are_limited() {
    assert!(Composite::prepare(&row(16_384)).is_ok_and(|made| made.tree.is_some()));
    assert_eq!(Composite::prepare(&row(16_385)), Err(Refusal::TooManyNodes));
    let absent = vec![Child::ABSENT; 32_768];
    assert!(Composite::prepare(&absent[1..]).is_ok_and(|made| made.child_boxes == [0; 32 * 32_767]));
    assert_eq!(Composite::prepare(&absent), Err(Refusal::ListTooLong));
}
