//! The tree over boxes: `build_bvh`, its records, its header, and what the program `boxes` prints.

use crate::Refusal;
#[cfg(reference)]
use crate::Vec3;
#[cfg(reference)]
use crate::{at_most, reference::blocks::bvh::inside};
use bounds::tree::TreeRecords;
use bounds::{Bvh, BvhItem};
use std::fmt::Write;

/// The most entries of a list, and the most nodes of a tree.
pub const LIMIT: usize = 32_767;

/// Refusal 4, where there are too many nodes.
#[cfg(reference)]
pub(crate) fn within(tree: TreeRecords) -> Result<TreeRecords, Refusal> {
    if tree.built.nodes_count as usize > LIMIT {
        Err(Refusal::TooManyNodes)
    } else {
        Ok(tree)
    }
}

/// The lines of the program `boxes`.
pub fn listing(tree: &TreeRecords) -> String {
    let mut out = format!("nodes {} {}\n", tree.built.nodes_count, tree.built.nodes_capacity);
    let mut line = |name: &str, at: usize, min: [i16; 3], max: [i16; 3], a: i16, b: i16| {
        let [x, y, z] = min;
        let [u, v, w] = max;
        writeln!(out, "{name} {at} {x} {y} {z} {u} {v} {w} {a} {b}").expect("a string takes every line");
    };
    for (i, n) in tree.nodes().enumerate() {
        line("node", i, n.min, n.max, n.item_id, n.item_count);
    }
    for (i, t) in tree.trees().enumerate() {
        line("tree", i, t.min, t.max, t.node_index1, t.node_index2);
    }
    out
}

answers! {
    /// bvh.rs, `build_bvh`, an item's index being its place in the list. Refusals 1, 3, 4.
    fn build(items: &[BvhItem], threshold: u32) -> Result<TreeRecords, Refusal> {
        at_most(items.len(), LIMIT)?;
        if !(1..=LIMIT as u32).contains(&threshold) {
            return Err(Refusal::Threshold);
        }
        within(inside::build(items, threshold as usize))
    }

    /// `build_bvh` alone, to be timed: each call builds the tree and answers its number of nodes. Nothing is refused.
    fn builder(items: &[BvhItem], threshold: u32) -> Box<dyn FnMut() -> usize + Send> {
        inside::builder(items, threshold as usize)
    }

    /// bvh.rs, `Bvh::write`. Refusal 1, which is the reference's own error.
    fn header(header: &Bvh) -> Result<[u8; 128], Refusal> { inside::header(header).map_err(|_| Refusal::ListTooLong) }

    /// What the program `boxes` prints for its standard input. Refusals 1, 13, and 4.
    fn boxes(input: &[u8]) -> String {
        match listed(input) {
            Ok(tree) => listing(&tree),
            Err(refusal) => format!("refused {}\n", refusal.number()),
        }
    }
}

#[cfg(reference)]
fn listed(input: &[u8]) -> Result<TreeRecords, Refusal> {
    at_most(input.len(), 8_192)?;
    if !input.len().is_multiple_of(32) {
        return Err(Refusal::RaggedInput);
    }
    let corner = |b: &[u8]| -> Vec3 {
        std::array::from_fn(|i| f32::from_le_bytes(b[4 * i..4 * i + 4].try_into().expect("four"))).into()
    };
    let items: Vec<_> = input.chunks_exact(32).map(|b| BvhItem::new(corner(b), corner(&b[16..]))).collect();
    build(&items, 1)
}
