//! Every value of 01's "Values to check" and those in its text, answered by the reference.

use oracle::polygon::{Materials, Polygon};
use oracle::{composite, float, geometry, math, on_large_stack, polygon, tree, Aabb, Refused};

fn triangle(area: u32, v: [u16; 3], links: [i16; 3]) -> Polygon {
    Polygon::Triangle { material: 0, area: f32::from_bits(area), v, links }
}

/// Boxes of which no two are alike.
fn row(n: usize) -> Vec<Option<Aabb>> {
    let at = |i: usize| Aabb { min: [i as f32, 0.0, 0.0], max: [i as f32 + 0.5, 1.0, 1.0] };
    (0..n).map(|i| Some(at(i))).collect()
}

#[test]
#[cfg_attr(not(reference), ignore = "the reference is not here: set REFERENCE")]
fn node_and_vertex_values() {
    assert_eq!(float::to_short(40000.0), -25536);
    assert_eq!(float::to_short(f32::INFINITY), -1);
    assert_eq!(float::to_short(f32::NAN), 0);
    assert_eq!(float::vertex_value(40000.0), 32767);
    assert_eq!(float::vertex_value(-0.9), 0);
}

#[test]
#[cfg_attr(not(reference), ignore = "the reference is not here: set REFERENCE")]
fn square_root() {
    assert_eq!(math::length([1.0, 1.0, 0.0]).to_bits(), 0x3FB5_04F3);
}

#[test]
#[cfg_attr(not(reference), ignore = "the reference is not here: set REFERENCE")]
fn folds_keep_the_later_value() {
    let fold = |xs: &[f32]| xs.iter().fold(f32::MAX, |a, &b| float::vmin(a, b));
    assert_eq!(fold(&[1.0, f32::NAN, 3.0]), 3.0);
    assert!(fold(&[1.0, f32::NAN]).is_nan());
    assert_eq!(float::vmin(0.0, -0.0).to_bits(), 0x8000_0000);
    assert_eq!(float::vmax(-0.0, 0.0).to_bits(), 0);
}

#[test]
#[cfg_attr(not(reference), ignore = "the reference is not here: set REFERENCE")]
fn nan_sorts_below_all_else() {
    use std::cmp::Ordering::*;
    assert_eq!(float::cmp_f32(f32::NAN, f32::NEG_INFINITY), Less);
    assert_eq!(float::cmp_f32(f32::NEG_INFINITY, f32::NAN), Greater);
    assert_eq!(float::cmp_f32(f32::NAN, -f32::NAN), Equal);
    assert_eq!(float::cmp_f32(-0.0, 0.0), Equal);
}

#[test]
#[cfg_attr(not(reference), ignore = "the reference is not here: set REFERENCE")]
fn triangle_bytes() {
    let bytes = [0, 0, 0x80, 0x3F, 1, 0, 2, 0, 3, 0, 0xFF, 0xFF, 0xFF, 0xFF, 0xFF, 0xFF];
    for area in [0x3F80_0000, 0x3F80_0005] {
        assert_eq!(polygon::to_bytes(triangle(area, [1, 2, 3], [-1; 3])), bytes);
    }
    assert_eq!(polygon::read(&bytes), Ok(triangle(0x3F80_0000, [1, 2, 3], [-1; 3])));
    assert_eq!(polygon::read(&bytes[..15]), Err(Refused(5)));
    for kind in [5, 6, 7] {
        let mut unknown = bytes;
        unknown[0] = kind;
        assert_eq!(polygon::read(&unknown), Err(Refused(6)));
    }
}

#[test]
#[cfg_attr(not(reference), ignore = "the reference is not here: set REFERENCE")]
fn links() {
    let linked = |vs: &[[u16; 3]]| -> Vec<[i16; 3]> {
        let polygons: Vec<_> = vs.iter().map(|&v| triangle(0, v, [0; 3])).collect();
        let link = |p: &Polygon| match *p {
            Polygon::Triangle { links, .. } => links,
            _ => unreachable!("only triangles went in"),
        };
        polygon::edges(&polygons).expect("a short list").iter().map(link).collect()
    };
    assert_eq!(linked(&[[0, 1, 2], [2, 1, 3], [1, 2, 4]]), [[-1, 1, -1], [0, -1, -1], [0, -1, -1]]);
    // A vertex twice in one triangle: a side may link to its own triangle.
    assert_eq!(linked(&[[0, 0, 1]]), [[-1, 0, 0]]);
    assert_eq!(linked(&[[0, 0, 0], [0, 1, 2]]), [[0, 0, 0], [-1, -1, -1]]);
    assert_eq!(linked(&[[0, 0, 1], [0, 1, 2]]), [[-1, 0, 0], [0, -1, -1]]);
}

#[test]
#[cfg_attr(not(reference), ignore = "the reference is not here: set REFERENCE")]
fn octants() {
    let lists = geometry::octants(&[[0.0; 3], [1.0; 3], [1.0; 3]]).expect("three vertices");
    assert_eq!(lists[0], [1]);
    assert_eq!(lists[7], [0]);
    assert_eq!(lists[1], [0, 1]);
    let all: usize = lists.iter().map(Vec::len).sum();
    let bytes = geometry::octant_bytes(&lists, 0x5000_0000).expect("a low address");
    assert_eq!(bytes.len(), 128 + 4 * all);
    assert_eq!(bytes[..8], [1, 0, 0, 0, 2, 0, 0, 0]);
    assert_eq!(bytes[32..48], [0x60, 0, 0, 0x50, 0, 0, 0, 0, 0x64, 0, 0, 0x50, 0, 0, 0, 0]);
    let last = u64::MAX - 96 - 4 * all as u64;
    assert!(geometry::octant_bytes(&lists, last).is_ok());
    assert_eq!(geometry::octant_bytes(&lists, last + 1), Err(Refused(12)));
}

#[test]
#[cfg_attr(not(reference), ignore = "the reference is not here: set REFERENCE")]
fn materials() {
    let made = polygon::materials(&[2, 0, 2, 9], &[(1, 0), (2, 0), (1, 0)]);
    assert_eq!(made, Ok(Materials { list: vec![(1, 0), (0, 0)], indices: vec![0, 0, 0, 1] }));
}

#[test]
#[cfg_attr(not(reference), ignore = "the reference is not here: set REFERENCE")]
fn ranges_and_the_node_limit() {
    on_large_stack(|| {
        let build = |n: usize| tree::build(&row(n), 1);
        let b = build(64).expect("64 boxes");
        assert_eq!((b.nodes_count, b.nodes.len(), b.trees.len()), (127, 129, 1));
        let b = build(65).expect("65 boxes");
        assert_eq!(b.nodes_count, 129);
        assert!(b.trees.len() > 1 && b.trees.iter().all(|t| t.node_index1 > 0), "node 0 is in no range");
        let b = build(16_384).expect("16,384 boxes");
        assert_eq!(b.nodes_count, 32_767);
        assert_eq!(build(16_385).err(), Some(Refused(4)));
        assert_eq!(build(32_768).err(), Some(Refused(1)));
        assert_eq!(tree::build(&row(3), 0).err(), Some(Refused(3)));
        assert_eq!(tree::build(&row(3), 32_768).err(), Some(Refused(3)));
    });
}

const LISTING: &str = "\
nodes 3 5
node 0 -32767 -32767 -32767 32767 32767 32767 3 0
node 1 16383 -32767 -32767 32767 32767 32767 1 1
node 2 -32767 -32767 -32767 -16383 32767 32767 0 1
tree 0 -32767 -32767 -32767 32767 32767 32767 0 3
";

/// Child box records, as the program `boxes` reads them; w is ignored.
fn records(boxes: &[Aabb]) -> Vec<u8> {
    let child = |&aabb: &Aabb| Some(composite::Child { aabb, margin: 0.04, transform: geometry::IDENTITY });
    composite::child_boxes(&boxes.iter().map(child).collect::<Vec<_>>()).expect("a short list")
}

#[test]
#[cfg_attr(not(reference), ignore = "the reference is not here: set REFERENCE")]
fn listing_of_two_boxes() {
    let (left, right) = (
        Aabb { min: [-1.0, -1.0, -1.0], max: [-0.5, 1.0, 1.0] },
        Aabb { min: [0.5, -1.0, -1.0], max: [1.0, 1.0, 1.0] },
    );
    let input = records(&[left, right]);
    assert_eq!(tree::boxes(&input), LISTING);
    assert_eq!(tree::boxes(&input[..63]), "refused 13\n");
    assert_eq!(tree::boxes(&vec![0; 8_193]), "refused 1\n");
    let built = tree::build(&[Some(left), Some(right)], 1).expect("two boxes");
    assert_eq!(built.listing(), LISTING);
    assert_eq!(built.order, [0, 1]);
    assert_eq!(built.node_bytes.len(), 80);
    assert_eq!(built.node_bytes[48..64], [0, 0, 0, 0, 0, 0, 0, 0, 0, 0, 0, 0, 1, 0, 0, 0], "padding");
}
