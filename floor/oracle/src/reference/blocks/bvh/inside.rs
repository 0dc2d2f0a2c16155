//! The builder's private steps, and its results as values of the oracle.

use super::super::inside::{bytes, bytes_at, place};
use super::super::{base::RawBytes, bounds::inside::v};
use super::*;
use ::bounds::tree::TreeRecords;
use ::bounds::{BuiltTree, BvhItem as Entry};
use std::cmp::Ordering;

#[inline]
pub fn to_short(x: f32) -> i16 {
    super::to_short(x)
}
#[inline]
pub fn cmp_f32(a: f32, b: f32) -> Ordering {
    super::cmp_f32(a, b)
}
#[inline]
pub fn cmp_vec3(a: Vec3, b: Vec3) -> Ordering {
    super::cmp_vec3(a, b)
}

fn list(items: &[Entry]) -> Vec<Option<BvhItem>> {
    let item = |(index, e): (usize, &Entry)| (e.present != 0).then(|| BvhItem { min: v(e.min), max: v(e.max), index });
    items.iter().enumerate().map(item).collect()
}

pub fn builder(items: &[Entry], threshold: usize) -> Box<dyn FnMut() -> usize + Send> {
    let items = list(items);
    Box::new(move || build_bvh(&mut Graph::new(), &items, threshold).bvh.nodes_count as usize)
}

pub fn build(items: &[Entry], threshold: usize) -> TreeRecords {
    let mut g = Graph::new();
    let built = build_bvh(&mut g, &list(items), threshold);
    let tree = read_out(&g, &built.bvh, built.item_order);
    // At threshold 1 a leaf names an item by its place in the list, else in the order.
    let items_count = if threshold == 1 { items.len() } else { tree.items_count };
    TreeRecords { items_count, ..tree }
}

/// A tree that stands in `g`. The order is not kept there; the caller has it.
pub fn read_out(g: &Graph, bvh: &Bvh, order: Vec<usize>) -> TreeRecords {
    let (nodes, trees) = (bvh.nodes.expect("always made"), bvh.trees.expect("always made"));
    assert_eq!(g.get::<StructArray<BvhNode>>(nodes).items.len(), bvh.nodes_capacity as usize);
    let xyz = |v: Vec4| ::bounds::Vec3 { x: v.x, y: v.y, z: v.z };
    let built = BuiltTree {
        nodes_count: bvh.nodes_count,
        nodes_capacity: bvh.nodes_capacity,
        trees_count: g.get::<StructArray<BvhTree>>(trees).items.len() as u32,
        items_count: order.len() as u32,
        bb_min: xyz(bvh.bb_min),
        bb_max: xyz(bvh.bb_max),
        bb_center: xyz(bvh.bb_center),
        quantum_inverse: xyz(bvh.quantum_inverse),
        quantum: xyz(bvh.quantum),
    };
    let items_count = order.len();
    let order = order.into_iter().map(|place| place as u16).collect();
    TreeRecords { built, node_bytes: bytes(g, nodes), tree_bytes: bytes(g, trees), order, items_count }
}

pub fn header(h: &::bounds::Bvh) -> Result<[u8; 128]> {
    let mut g = Graph::new();
    let mut at = |address: u64| {
        let id = g.add(RawBytes { data: Vec::new(), section: Section::System });
        place(&mut g, id, address);
        Some(id)
    };
    let (nodes, trees) = (at(h.nodes_address), at(h.trees_address));
    let w = |p: ::bounds::Vec3| Vec4::new(p.x, p.y, p.z, cs_nan());
    let bvh = Bvh {
        nodes,
        nodes_count: h.nodes_count,
        nodes_capacity: h.nodes_capacity,
        bb_min: w(h.bb_min),
        bb_max: w(h.bb_max),
        bb_center: w(h.bb_center),
        quantum_inverse: w(h.quantum_inverse),
        quantum: w(h.quantum),
        trees,
        trees_count: h.trees_count as usize,
    };
    Ok(bytes_at(&g, &bvh, 0)?.try_into().expect("128 bytes"))
}
