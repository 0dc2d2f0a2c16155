//! What may be used from several threads: every value can be sent and shared, and threads that query one tree get what one
//! thread gets.

mod common;

use bounds::composite::CompositeTree;
use bounds::prepare::{Bound, Frame, Prepare, Quantised, Values};
use bounds::tree::{Addresses, Found, TreeBytes, TreeRecords};
use bounds::walk::{Counts, Records, Refused};
use bounds::*;
use common::{children, row, strip};
use std::thread;

const fn shared<T: Send + Sync + 'static>() {}

const _: () = {
    shared::<Tree>();
    shared::<TreeRecords>();
    shared::<TreeBytes>();
    shared::<PreparedTree>();
    shared::<CompositeTree>();
    shared::<Found>();
    shared::<Found<prepare::PolygonPlace>>();
    shared::<Geometry>();
    shared::<Prepared>();
    shared::<Prepare>();
    shared::<Composite>();
    shared::<Error>();
    shared::<Refusal>();
    shared::<Refused>();
    shared::<premises::Broken>();
    shared::<(Bound, Frame, Quantised, Values, Counts, Addresses)>();
    shared::<(Records, Bvh, BuiltTree, BvhItem, BvhNode, BvhTree, Child, Octants)>();
    shared::<(Vec3, Vec4, Mat4, Polygon, BoundMaterial, BoundVertex, ShrinkBound, Shrunk)>();
};

const THREADS: usize = 4;

/// What each thread answers, all at once, and that it is what this one does.
fn alike<A: PartialEq + Send + std::fmt::Debug>(answer: impl Fn() -> A + Sync) {
    let expected = answer();
    thread::scope(|scope| {
        let threads: Vec<_> = (0..THREADS).map(|_| scope.spawn(&answer)).collect();
        for thread in threads {
            assert_eq!(thread.join().expect("it ends"), expected);
        }
    });
}

fn wheels() -> impl Iterator<Item = (Vec3, Vec3)> {
    let at = |k: usize| Vec3::new((k * 37 % 1000) as f32, 0.25, 0.25);
    (0..400).map(at).map(|min| (min, Vec3::new(min.x + 3.0, 0.75, 3.0)))
}

#[test]
fn threads_that_query_one_tree_get_what_one_gets() {
    let tree = Tree::build(&row(500), 4).expect("500 boxes");
    let prepared = strip(8, 900).prepare().expect("900 triangles").bvh.expect("a tree");
    let composite = Composite::prepare(&children(500)).expect("500 children").tree.expect("a tree");
    let found = |of: &[usize]| of.to_vec();
    alike(|| {
        let mut buffer = Found::default();
        wheels().map(|(min, max)| found(tree.query_into(min, max, &mut buffer))).collect::<Vec<_>>()
    });
    alike(|| {
        let mut buffer = Found::default();
        wheels().map(|(min, max)| prepared.query_into(min, max, &mut buffer).to_vec()).collect::<Vec<_>>()
    });
    alike(|| {
        let mut buffer = Found::default();
        wheels().map(|(min, max)| found(composite.candidates_into(min, max, &mut buffer))).collect::<Vec<_>>()
    });
}

#[test]
fn threads_that_build_and_prepare_get_what_one_gets() {
    alike(|| Tree::build(&row(300), 1).expect("300 boxes"));
    alike(|| strip(8, 200).prepare().expect("200 triangles"));
    alike(|| strip(4, 40).prepare().expect("40 triangles"));
}

/// A buffer that is used again is not allocated again.
#[test]
fn a_buffer_stays_where_it_is() {
    let tree = Tree::build(&row(500), 4).expect("500 boxes");
    let mut found = Found::default();
    tree.query_into(Vec3::ZERO, Vec3::ZERO, &mut found);
    let before = (found.places.as_ptr(), found.places.capacity());
    let mut most = 0;
    for (min, max) in wheels().chain([(Vec3::new(-1e9, -1e9, -1e9), Vec3::new(1e9, 1e9, 1e9))]) {
        most = most.max(tree.query_into(min, max, &mut found).len());
    }
    assert_eq!(most, 400, "all of them in the end");
    assert_eq!((found.places.as_ptr(), found.places.capacity()), before);
}
