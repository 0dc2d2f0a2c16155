//! The tree over boxes: `build_bvh`, its records, its header, and what the program `boxes` prints.

#[cfg(reference)]
use crate::{at_most, reference::blocks::bvh::inside};
use crate::{Aabb, Refused, Vec3, Vec4};
use std::fmt::Write;

/// The most entries of a list, and the most nodes of a tree.
pub const LIMIT: usize = 32_767;

#[derive(Clone, Copy, Debug, PartialEq, Eq)]
pub struct Node {
    pub min: [i16; 3],
    pub max: [i16; 3],
    pub item_id: i16,
    pub item_count: i16,
}

#[derive(Clone, Copy, Debug, PartialEq, Eq)]
pub struct Tree {
    pub min: [i16; 3],
    pub max: [i16; 3],
    pub node_index1: i16,
    pub node_index2: i16,
}

/// A finished tree. `nodes` has the padding too; `nodes_count` leaves it out.
#[derive(Clone, Debug)]
pub struct Built {
    pub nodes: Vec<Node>,
    pub nodes_count: usize,
    pub node_bytes: Vec<u8>,
    pub trees: Vec<Tree>,
    pub tree_bytes: Vec<u8>,
    pub order: Vec<usize>,
    pub min: Vec4,
    pub max: Vec4,
    pub cen: Vec4,
    pub inverse: Vec4,
    pub quantum: Vec4,
}

/// What the header holds. The fourth component of each vector is always the bits FFC00000.
#[derive(Clone, Copy, Debug)]
pub struct Header {
    pub nodes_address: u64,
    pub nodes_count: u32,
    pub nodes_capacity: u32,
    pub min: Vec3,
    pub max: Vec3,
    pub cen: Vec3,
    pub inverse: Vec3,
    pub quantum: Vec3,
    pub trees_address: u64,
    pub trees_count: usize,
}

impl Built {
    pub fn header(&self, nodes_address: u64, trees_address: u64) -> Header {
        let xyz = |v: Vec4| [v[0], v[1], v[2]];
        Header {
            nodes_address,
            nodes_count: self.nodes_count as u32,
            nodes_capacity: self.nodes.len() as u32,
            min: xyz(self.min),
            max: xyz(self.max),
            cen: xyz(self.cen),
            inverse: xyz(self.inverse),
            quantum: xyz(self.quantum),
            trees_address,
            trees_count: self.trees.len(),
        }
    }

    /// The lines of the program `boxes`.
    pub fn listing(&self) -> String {
        let mut out = format!("nodes {} {}\n", self.nodes_count, self.nodes.len());
        let mut line = |name: &str, at: usize, min: [i16; 3], max: [i16; 3], a: i16, b: i16| {
            let [x, y, z] = min;
            let [u, v, w] = max;
            writeln!(out, "{name} {at} {x} {y} {z} {u} {v} {w} {a} {b}").expect("a string takes every line");
        };
        for (i, n) in self.nodes[..self.nodes_count].iter().enumerate() {
            line("node", i, n.min, n.max, n.item_id, n.item_count);
        }
        for (i, t) in self.trees.iter().enumerate() {
            line("tree", i, t.min, t.max, t.node_index1, t.node_index2);
        }
        out
    }
}

answers! {
    /// bvh.rs, `build_bvh`, an item's index being its place in the list. Refusals 1, 3, 4.
    fn build(items: &[Option<Aabb>], threshold: usize) -> Result<Built, Refused> {
        at_most(items.len(), LIMIT)?;
        if !(1..=LIMIT).contains(&threshold) {
            return Err(Refused(3));
        }
        let built = inside::build(items, threshold);
        if built.nodes_count > LIMIT { Err(Refused(4)) } else { Ok(built) }
    }

    /// `build_bvh` alone, to be timed: each call builds the tree and answers its number of nodes. Nothing is refused.
    fn builder(items: &[Option<Aabb>], threshold: usize) -> Box<dyn FnMut() -> usize + Send> {
        inside::builder(items, threshold)
    }

    /// bvh.rs, `Bvh::write`. Refusal 1, which is the reference's own error.
    fn header(header: &Header) -> Result<[u8; 128], Refused> { inside::header(header).map_err(|_| Refused(1)) }

    /// bvh.rs, the Pod form of a node.
    fn node_bytes(node: Node) -> [u8; 16] { inside::node_bytes(node) }

    /// bvh.rs, the Pod form of a tree.
    fn tree_bytes(tree: Tree) -> [u8; 16] { inside::tree_bytes(tree) }

    /// What the program `boxes` prints for its standard input. Refusals 1, 13, and 4.
    fn boxes(input: &[u8]) -> String {
        match listed(input) {
            Ok(built) => built.listing(),
            Err(Refused(number)) => format!("refused {number}\n"),
        }
    }
}

#[cfg(reference)]
fn listed(input: &[u8]) -> Result<Built, Refused> {
    at_most(input.len(), 8_192)?;
    if !input.len().is_multiple_of(32) {
        return Err(Refused(13));
    }
    let corner = |b: &[u8]| std::array::from_fn(|i| f32::from_le_bytes(b[4 * i..4 * i + 4].try_into().expect("four")));
    let items: Vec<_> = input.chunks_exact(32).map(|b| Some(Aabb { min: corner(b), max: corner(&b[16..]) })).collect();
    build(&items, 1)
}
