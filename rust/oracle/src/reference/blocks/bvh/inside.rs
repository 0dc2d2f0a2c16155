//! The builder's private steps, and its results as values of the oracle.

use super::super::inside::{bytes, bytes_at, place};
use super::super::{base::RawBytes, bounds::inside::v};
use super::*;
use crate::tree::{Built, Header, Node, Tree};
use crate::Aabb;
use std::cmp::Ordering;

#[inline]
pub fn to_short(x: f32) -> i16 {
    super::to_short(x)
}
#[inline]
pub fn cmp_f32(a: f32, b: f32) -> Ordering {
    super::cmp_f32(a, b)
}
#[inline]
pub fn cmp_vec3(a: Vec3, b: Vec3) -> Ordering {
    super::cmp_vec3(a, b)
}

fn list(items: &[Option<Aabb>]) -> Vec<Option<BvhItem>> {
    let item = |(index, item): (usize, &Option<Aabb>)| item.map(|b| BvhItem { min: v(b.min), max: v(b.max), index });
    items.iter().enumerate().map(item).collect()
}

pub fn builder(items: &[Option<Aabb>], threshold: usize) -> Box<dyn FnMut() -> usize + Send> {
    let items = list(items);
    Box::new(move || build_bvh(&mut Graph::new(), &items, threshold).bvh.nodes_count as usize)
}

pub fn build(items: &[Option<Aabb>], threshold: usize) -> Built {
    let mut g = Graph::new();
    let built = build_bvh(&mut g, &list(items), threshold);
    read_out(&g, &built.bvh, built.item_order)
}

/// A tree that stands in `g`. The order is not kept there; the caller has it.
pub fn read_out(g: &Graph, bvh: &Bvh, order: Vec<usize>) -> Built {
    let (nodes, trees) = (bvh.nodes.expect("always made"), bvh.trees.expect("always made"));
    let node = |n: &BvhNode| Node { min: n.min, max: n.max, item_id: n.item_id, item_count: n.item_count };
    let tree = |t: &BvhTree| Tree { min: t.min, max: t.max, node_index1: t.node_index1, node_index2: t.node_index2 };
    let v4 = |v: Vec4| [v.x, v.y, v.z, v.w];
    let records: Vec<Node> = g.get::<StructArray<BvhNode>>(nodes).items.iter().map(node).collect();
    assert_eq!(records.len(), bvh.nodes_capacity as usize);
    Built {
        nodes: records,
        nodes_count: bvh.nodes_count as usize,
        node_bytes: bytes(g, nodes),
        trees: g.get::<StructArray<BvhTree>>(trees).items.iter().map(tree).collect(),
        tree_bytes: bytes(g, trees),
        order,
        min: v4(bvh.bb_min),
        max: v4(bvh.bb_max),
        cen: v4(bvh.bb_center),
        inverse: v4(bvh.quantum_inverse),
        quantum: v4(bvh.quantum),
    }
}

pub fn header(h: &Header) -> Result<[u8; 128]> {
    let mut g = Graph::new();
    let mut at = |address: u64| {
        let id = g.add(RawBytes { data: Vec::new(), section: Section::System });
        place(&mut g, id, address);
        Some(id)
    };
    let (nodes, trees) = (at(h.nodes_address), at(h.trees_address));
    let w = |p: crate::Vec3| Vec4::new(p[0], p[1], p[2], cs_nan());
    let bvh = Bvh {
        nodes,
        nodes_count: h.nodes_count,
        nodes_capacity: h.nodes_capacity,
        bb_min: w(h.min),
        bb_max: w(h.max),
        bb_center: w(h.cen),
        quantum_inverse: w(h.inverse),
        quantum: w(h.quantum),
        trees,
        trees_count: h.trees_count,
    };
    Ok(bytes_at(&g, &bvh, 0)?.try_into().expect("128 bytes"))
}

fn record(r: impl Pod) -> [u8; 16] {
    let mut w = Writer::new(0, 0);
    r.write(&mut w);
    w.into_inner().try_into().expect("16 bytes")
}

pub fn node_bytes(n: Node) -> [u8; 16] {
    record(BvhNode { min: n.min, max: n.max, item_id: n.item_id, item_count: n.item_count })
}

pub fn tree_bytes(t: Tree) -> [u8; 16] {
    record(BvhTree { min: t.min, max: t.max, node_index1: t.node_index1, node_index2: t.node_index2 })
}
