//! A build, step by step: rules T1 to T9 over the parts that say each, and what its records hold (R10 to R14).

use crate::fold::{self, words, Words};
use crate::grow;
use crate::points::vec3;
use crate::scale::{Quantised, Scale};
use crate::split::{self, Split};
use bounds::premises::{Axis, Corner};
use bounds::tree::TreeRecords;
use bounds::{BuiltTree, BvhItem, Vec3};
use std::cell::RefCell;
use std::collections::HashMap;
use std::rc::Rc;

/// Most nodes of a range (R14).
const RANGE_LIMIT: usize = 127;

/// A node: what it got is not kept, since that could be as many lists as levels; [`Trace::got`] goes there again.
#[derive(Clone, Debug)]
pub struct Node {
    pub parent: Option<usize>,
    /// The two children, in their order.
    pub children: Option<[usize; 2]>,
    /// How many items it got.
    pub items: usize,
    /// Nodes of its subtree, itself included.
    pub size: usize,
    pub bounds: Words,
    /// Of a leaf: the first position.
    pub first: usize,
}

/// The build of a list.
pub struct Trace<'a> {
    pub items: &'a [BvhItem],
    pub threshold: usize,
    /// T9: the present places, rising.
    pub present: Vec<usize>,
    /// T1 over all.
    pub all: Words,
    pub scales: [Scale; 3],
    /// R10: in preorder.
    pub nodes: Vec<Node>,
    /// R14: first node and one past the last.
    pub ranges: Vec<(usize, usize)>,
    /// R13.
    pub order: Vec<usize>,
    /// The leaf that holds each place.
    pub leaves: Vec<Option<usize>>,
    /// What some nodes got: who asks for a node asks for its neighbours next.
    known: RefCell<HashMap<usize, Rc<Vec<usize>>>>,
}

/// So many lists are kept at a time.
const KEPT: usize = 64;

impl<'a> Trace<'a> {
    /// Follows the build of a list that the library built: the threshold is 1 at least.
    pub fn of(items: &'a [BvhItem], threshold: usize) -> Trace<'a> {
        let present: Vec<usize> = (0..items.len()).filter(|&place| items[place].present != 0).collect();
        let all = fold::fold(items, &present);
        let scales = std::array::from_fn(|axis| Scale::of(f32::from_bits(all[axis]), f32::from_bits(all[axis + 3])));
        let grown = grow::grow(items, threshold.max(1), &present);
        let ranges = ranges(&grown.nodes);
        Trace {
            items,
            threshold,
            present,
            all,
            scales,
            nodes: grown.nodes,
            ranges,
            order: grown.order,
            leaves: grown.leaves,
            known: RefCell::default(),
        }
    }

    /// From the root to a node, the node last.
    pub fn path(&self, node: usize) -> Vec<usize> {
        let mut path: Vec<usize> = std::iter::successors(Some(node), |&k| self.nodes[k].parent).collect();
        path.reverse();
        path
    }

    /// The places that a node got, in the order in which it got them: by the splits from the nearest node above it of which
    /// they are known.
    pub fn got(&self, node: usize) -> Rc<Vec<usize>> {
        let mut below = Vec::new();
        let mut at = node;
        let from = loop {
            if let Some(known) = self.known.borrow().get(&at) {
                break known.clone();
            }
            let Some(parent) = self.nodes[at].parent else { break Rc::new(self.present.clone()) };
            below.push((parent, at));
            at = parent;
        };
        let got =
            below.into_iter().rev().fold(from, |got, (parent, child)| Rc::new(self.child_of(&got, parent, child)));
        let mut known = self.known.borrow_mut();
        if known.len() >= KEPT {
            known.clear();
        }
        known.insert(node, got.clone());
        got
    }

    /// Of what a node got, what one of its children gets.
    fn child_of(&self, got: &[usize], parent: usize, child: usize) -> Vec<usize> {
        let second = self.nodes[parent].children.is_some_and(|[_, second]| second == child);
        let [one, two] = split::split(self.items, got).children();
        if second {
            two
        } else {
            one
        }
    }

    /// The split of an inner node.
    pub fn split(&self, node: usize) -> Option<Split> {
        self.nodes[node].children.map(|_| split::split(self.items, &self.got(node)))
    }

    /// A value of a node's box on its way to its record.
    pub fn quantised(&self, node: usize, corner: Corner, axis: Axis) -> Quantised {
        let word = self.nodes[node].bounds[3 * corner as usize + axis as usize];
        self.scales[axis as usize].quantise(f32::from_bits(word))
    }

    /// R11: a node's id and count.
    pub fn id_and_count(&self, node: usize) -> (i16, i16) {
        let at = &self.nodes[node];
        match at.children {
            Some(_) => (at.size as i16, 0),
            None => (at.first as i16, at.items as i16),
        }
    }

    /// R12: node records with the padding.
    pub fn capacity(&self) -> usize {
        if self.threshold == 1 {
            self.nodes.len().max(2 * self.items.len() + 1)
        } else {
            self.nodes.len()
        }
    }

    /// R3: a node's box as records hold it.
    fn shorts(&self, node: usize) -> [i16; 6] {
        let all = self.nodes[node].bounds;
        std::array::from_fn(|value| self.scales[value % 3].quantise(f32::from_bits(all[value])).short)
    }

    /// R4 and R12: the eight numbers of a node's record, behind the nodes those of the padding; none behind that.
    pub fn node_record(&self, k: usize) -> Option<[i16; 8]> {
        if k >= self.nodes.len() {
            return (k < self.capacity()).then_some([0, 0, 0, 0, 0, 0, 1, 0]);
        }
        let (id, count) = self.id_and_count(k);
        Some(record(self.shorts(k), id, count))
    }

    /// R5: the eight numbers of a tree's record.
    pub fn tree_record(&self, k: usize) -> Option<[i16; 8]> {
        let &(first, last) = self.ranges.get(k)?;
        Some(record(self.shorts(first), first as i16, last as i16))
    }

    /// T1 over all: the least corner.
    pub fn least(&self) -> Vec3 {
        vec3(std::array::from_fn(|axis| f32::from_bits(self.all[axis])))
    }

    /// T1 over all: the greatest corner.
    pub fn greatest(&self) -> Vec3 {
        vec3(std::array::from_fn(|axis| f32::from_bits(self.all[axis + 3])))
    }

    /// T2 on each axis.
    pub fn centre(&self) -> Vec3 {
        vec3(self.scales.map(|scale| scale.cen))
    }

    /// The values and bytes of the whole build.
    pub fn records(&self) -> TreeRecords {
        let bytes = |record: [i16; 8]| record.map(i16::to_le_bytes).concat();
        TreeRecords {
            built: BuiltTree {
                nodes_count: self.nodes.len() as u32,
                nodes_capacity: self.capacity() as u32,
                trees_count: self.ranges.len() as u32,
                items_count: self.present.len() as u32,
                bb_min: self.least(),
                bb_max: self.greatest(),
                bb_center: self.centre(),
                quantum_inverse: vec3(self.scales.map(|scale| scale.inverse)),
                quantum: vec3(self.scales.map(|scale| scale.quantum)),
            },
            node_bytes: (0..).map_while(|k| self.node_record(k)).flat_map(bytes).collect(),
            tree_bytes: (0..).map_while(|k| self.tree_record(k)).flat_map(bytes).collect(),
            order: self.order.iter().map(|&place| place as u16).collect(),
            items_count: if self.threshold == 1 { self.items.len() } else { self.present.len() },
        }
    }

    /// The item that a node's value comes from, where it is an item's.
    pub fn source(&self, node: usize, corner: Corner, axis: Axis) -> Option<usize> {
        let got = self.got(node);
        fold::winner(self.items, &got, 3 * corner as usize + axis as usize).map(|at| got[at])
    }

    /// The six values of an item.
    pub fn floats(&self, place: usize) -> [f32; 6] {
        words(&self.items[place]).map(f32::from_bits)
    }
}

fn record([a, b, c, d, e, f]: [i16; 6], first: i16, second: i16) -> [i16; 8] {
    [a, b, c, d, e, f, first, second]
}

/// R14: from the root, a part over 127 nodes is replaced by its two children's parts.
fn ranges(nodes: &[Node]) -> Vec<(usize, usize)> {
    let mut ranges = Vec::new();
    let mut parts = vec![0];
    while let Some(at) = parts.pop() {
        match nodes[at].children {
            Some([first, second]) if nodes[at].size > RANGE_LIMIT => parts.extend([second, first]),
            _ => ranges.push((at, at + nodes[at].size)),
        }
    }
    ranges
}
