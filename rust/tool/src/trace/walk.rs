//! Rules W1 to W7: a walk over a dump's bytes, record by record, so that each reading can be told.

use super::scale::corner;
use crate::dump::Dump;
use bounds::premises::Axis;
use bounds::{BvhNode, Vec3};

/// A query in units of the records: least and greatest on each axis.
#[derive(Clone, Copy, Debug, PartialEq, Eq)]
pub struct Span {
    pub min: [i16; 3],
    pub max: [i16; 3],
}

/// Why a record misses: the first axis on which one's least is above the other's greatest.
#[derive(Clone, Copy, Debug, PartialEq, Eq)]
pub struct Miss {
    pub axis: Axis,
    /// The record's min is above the query's max; else its max is below the query's min.
    pub record_above: bool,
    pub record: i16,
    pub query: i16,
}

/// A record that was read.
#[derive(Clone, Copy, Debug, PartialEq, Eq)]
pub enum Reading {
    Tree {
        tree: usize,
        miss: Option<Miss>,
    },
    /// Where a count-0 node misses, `passes` further nodes are not read; a leaf that meets hands out `hands` positions.
    Node {
        node: usize,
        miss: Option<Miss>,
        passes: usize,
        hands: usize,
    },
}

/// Damaged records can make a walk read more than there is room to tell; a build's are far below.
const MOST_READINGS: usize = 1 << 20;

/// All readings of a walk, and what was handed out.
pub struct Walked {
    pub span: Span,
    pub readings: Vec<Reading>,
    pub positions: Vec<usize>,
}

/// The query in units of the records (W1).
pub fn span(dump: &Dump, min: Vec3, max: Vec3) -> Span {
    let (cen, inverse) = (dump.records.centre(), dump.records.inverse());
    let one = |v: Vec3| {
        let each = |v: f32, cen: f32, inverse: f32| corner((v - cen) * inverse);
        [each(v.x, cen.x, inverse.x), each(v.y, cen.y, inverse.y), each(v.z, cen.z, inverse.z)]
    };
    Span { min: one(min), max: one(max) }
}

/// W2 on records.
pub fn miss(min: [i16; 3], max: [i16; 3], span: &Span) -> Option<Miss> {
    crate::field::AXES.into_iter().find_map(|axis| {
        let k = axis as usize;
        if min[k] > span.max[k] {
            Some(Miss { axis, record_above: true, record: min[k], query: span.max[k] })
        } else if span.min[k] > max[k] {
            Some(Miss { axis, record_above: false, record: max[k], query: span.min[k] })
        } else {
            None
        }
    })
}

/// Walks. Records that a walk would refuse end it: the library has said so before.
pub fn walk(dump: &Dump, min: Vec3, max: Vec3) -> Walked {
    let span = span(dump, min, max);
    let mut walked = Walked { span, readings: Vec::new(), positions: Vec::new() };
    for tree in 0..dump.records.tree_count() {
        let Some(record) = dump.records.tree(tree) else { break };
        if walked.readings.len() >= MOST_READINGS {
            break;
        }
        let miss = miss(record.min, record.max, &span);
        walked.readings.push(Reading::Tree { tree, miss });
        if miss.is_none() {
            walked.range(dump, record.node_index1 as usize, record.node_index2 as usize);
        }
    }
    walked
}

impl Walked {
    /// The nodes of a range (W5).
    fn range(&mut self, dump: &Dump, first: usize, last: usize) {
        let mut at = first;
        while at < last && self.readings.len() < MOST_READINGS {
            let Some(node) = dump.records.node(at) else { return };
            let miss = miss(node.min, node.max, &self.span);
            let over = if node.item_count == 0 && miss.is_some() { (node.item_id.max(1)) as usize } else { 1 };
            let hands = if miss.is_none() { self.hand_out(&node) } else { 0 };
            self.readings.push(Reading::Node { node: at, miss, passes: over - 1, hands });
            at += over;
        }
    }

    /// W7.
    fn hand_out(&mut self, leaf: &BvhNode) -> usize {
        let (first, count) = (leaf.item_id.max(0) as usize, leaf.item_count.max(0) as usize);
        self.positions.extend(first..first + count);
        count
    }
}
