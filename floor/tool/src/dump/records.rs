//! The bytes of a tree as a builder holds them: header, node and tree records, order list.

use bounds::bvh::{HEADER, RECORD};
use bounds::tree::{Addresses, TreeRecords};
use bounds::{BvhNode, BvhTree, Refusal, Vec3};

/// Where a header is thought to lie; its records lie behind it.
const BASE: u64 = 0x5000_0000;

/// The bytes of a tree. The order list is kept as numbers, two bytes each in its file.
#[derive(Clone, Debug, PartialEq)]
pub struct Records {
    pub header: [u8; HEADER],
    pub nodes: Vec<u8>,
    pub trees: Vec<u8>,
    pub order: Vec<u16>,
}

impl Records {
    /// What the library made.
    pub fn of(tree: &TreeRecords) -> Result<Records, Refusal> {
        let nodes = BASE + HEADER as u64;
        let header = tree.header(Addresses { nodes, trees: nodes + tree.node_bytes.len() as u64 })?;
        let (nodes, trees, order) = (tree.node_bytes.clone(), tree.tree_bytes.clone(), tree.order.clone());
        Ok(Records { header, nodes, trees, order })
    }

    /// A number of four bytes of the header.
    pub fn header_word(&self, at: usize) -> u32 {
        u32::from_le_bytes(std::array::from_fn(|k| self.header[at + k]))
    }

    /// Three floats of the header.
    pub fn header_point(&self, at: usize) -> Vec3 {
        let float = |k: usize| f32::from_bits(self.header_word(at + 4 * k));
        Vec3::new(float(0), float(1), float(2))
    }

    /// Nodes without the padding, as the header counts them.
    pub fn node_count(&self) -> usize {
        self.header_word(8) as usize
    }

    /// Node records, with the padding.
    pub fn capacity(&self) -> usize {
        self.nodes.len() / RECORD
    }

    /// Tree records.
    pub fn tree_count(&self) -> usize {
        self.trees.len() / RECORD
    }

    /// What a walk subtracts.
    pub fn centre(&self) -> Vec3 {
        self.header_point(64)
    }

    /// What a walk multiplies by.
    pub fn inverse(&self) -> Vec3 {
        self.header_point(80)
    }

    /// The unit of record values.
    pub fn quantum(&self) -> Vec3 {
        self.header_point(96)
    }

    /// The place that a record's value stands for, on an axis. Within half a quantum of 0 it is 0.
    pub fn stands_for(&self, axis: usize, value: i16) -> f64 {
        let pick = |v: Vec3| [v.x, v.y, v.z][axis] as f64;
        let (quantum, place) = (pick(self.quantum()), pick(self.centre()) + value as f64 * pick(self.quantum()));
        if place.abs() < 0.5 * quantum {
            0.0
        } else {
            place
        }
    }

    /// A node's record, padding too.
    pub fn node(&self, k: usize) -> Option<BvhNode> {
        Some(BvhNode::read(record(&self.nodes, k)?))
    }

    /// A tree's record.
    pub fn tree(&self, k: usize) -> Option<BvhTree> {
        Some(BvhTree::read(record(&self.trees, k)?))
    }
}

/// A record by its number; damaged records name numbers of any size.
fn record(bytes: &[u8], k: usize) -> Option<&[u8; RECORD]> {
    let start = k.checked_mul(RECORD)?;
    bytes.get(start..start.checked_add(RECORD)?)?.try_into().ok()
}
