//! The build again, in plain Rust and step by step, so that each step can be shown. Records come from the proved library;
//! this must reach the same bytes, and what does not is not explained.

pub mod fold;
mod grow;
pub mod mesh;
pub mod scale;
pub mod split;
pub mod walk;

use crate::boxes::words;
use crate::dump::Records;
use crate::field::{Field, InHeader, InRecord, Point};
use bounds::premises::{Axis, Corner};
use bounds::BvhItem;
use fold::Words;
use scale::{Quantised, Scale};
use split::Split;
use std::cell::RefCell;
use std::collections::HashMap;
use std::rc::Rc;

/// Most nodes of a range (R14).
const RANGE_LIMIT: usize = 127;

/// A node: what it got is not kept, since that could be as many lists as levels; [`Trace::got`] goes there again.
#[derive(Clone, Debug)]
pub struct Node {
    pub parent: Option<usize>,
    /// The two children, in their order.
    pub children: Option<[usize; 2]>,
    /// How many items it got.
    pub items: usize,
    /// Nodes of its subtree, itself included.
    pub size: usize,
    pub bounds: Words,
    /// Of a leaf: the first position.
    pub first: usize,
}

/// The build of a list.
pub struct Trace<'a> {
    pub items: &'a [BvhItem],
    pub threshold: usize,
    /// T9: the present places, rising.
    pub present: Vec<usize>,
    /// T1 over all.
    pub all: Words,
    pub scales: [Scale; 3],
    /// R10: in preorder.
    pub nodes: Vec<Node>,
    /// R14: first node and one past the last.
    pub ranges: Vec<(usize, usize)>,
    /// R13.
    pub order: Vec<usize>,
    /// The leaf that holds each place.
    pub leaves: Vec<Option<usize>>,
    /// What some nodes got: who asks for a node asks for its neighbours next.
    known: RefCell<HashMap<usize, Rc<Vec<usize>>>>,
}

/// So many lists are kept at a time.
const KEPT: usize = 64;

impl<'a> Trace<'a> {
    /// Follows the build of a list that the library built: the threshold is 1 at least.
    pub fn of(items: &'a [BvhItem], threshold: usize) -> Trace<'a> {
        let present: Vec<usize> = (0..items.len()).filter(|&place| items[place].present != 0).collect();
        let all = fold::fold(items, &present);
        let scales = std::array::from_fn(|axis| Scale::of(f32::from_bits(all[axis]), f32::from_bits(all[axis + 3])));
        let grown = grow::grow(items, threshold.max(1), &present);
        let ranges = ranges(&grown.nodes);
        Trace {
            items,
            threshold,
            present,
            all,
            scales,
            nodes: grown.nodes,
            ranges,
            order: grown.order,
            leaves: grown.leaves,
            known: RefCell::default(),
        }
    }

    /// From the root to a node, the node last.
    pub fn path(&self, node: usize) -> Vec<usize> {
        let mut path: Vec<usize> = std::iter::successors(Some(node), |&k| self.nodes[k].parent).collect();
        path.reverse();
        path
    }

    /// The places that a node got, in the order in which it got them: by the splits from the nearest node above it of which
    /// they are known.
    pub fn got(&self, node: usize) -> Rc<Vec<usize>> {
        let mut below = Vec::new();
        let mut at = node;
        let from = loop {
            if let Some(known) = self.known.borrow().get(&at) {
                break known.clone();
            }
            let Some(parent) = self.nodes[at].parent else { break Rc::new(self.present.clone()) };
            below.push((parent, at));
            at = parent;
        };
        let got =
            below.into_iter().rev().fold(from, |got, (parent, child)| Rc::new(self.child_of(&got, parent, child)));
        let mut known = self.known.borrow_mut();
        if known.len() >= KEPT {
            known.clear();
        }
        known.insert(node, got.clone());
        got
    }

    /// Of what a node got, what one of its children gets.
    fn child_of(&self, got: &[usize], parent: usize, child: usize) -> Vec<usize> {
        let second = self.nodes[parent].children.is_some_and(|[_, second]| second == child);
        let [one, two] = split::split(self.items, got).children();
        if second {
            two
        } else {
            one
        }
    }

    /// The split of an inner node.
    pub fn split(&self, node: usize) -> Option<Split> {
        self.nodes[node].children.map(|_| split::split(self.items, &self.got(node)))
    }

    /// A value of a node's box on its way to its record.
    pub fn quantised(&self, node: usize, corner: Corner, axis: Axis) -> Quantised {
        let word = self.nodes[node].bounds[3 * corner as usize + axis as usize];
        self.scales[axis as usize].quantise(f32::from_bits(word))
    }

    /// R11: a node's id and count.
    pub fn id_and_count(&self, node: usize) -> (i16, i16) {
        let at = &self.nodes[node];
        match at.children {
            Some(_) => (at.size as i16, 0),
            None => (at.first as i16, at.items as i16),
        }
    }

    /// R12: node records with the padding.
    pub fn capacity(&self) -> usize {
        if self.threshold == 1 {
            self.nodes.len().max(2 * self.items.len() + 1)
        } else {
            self.nodes.len()
        }
    }

    /// The bytes of a field as the trace makes them; none for an address, which no input gives, or a field that is not
    /// there.
    pub fn bytes(&self, field: Field) -> Option<Vec<u8>> {
        let short = |n: i16| Some(n.to_le_bytes().to_vec());
        match field {
            Field::Header(at) => self.header_bytes(at),
            Field::Node(k, at) if k >= self.nodes.len() => {
                let padding = i16::from(at == InRecord::First);
                (k < self.capacity()).then(|| padding.to_le_bytes().to_vec())
            }
            Field::Node(k, InRecord::Box(corner, axis)) => short(self.quantised(k, corner, axis).short),
            Field::Node(k, InRecord::First) => short(self.id_and_count(k).0),
            Field::Node(k, InRecord::Second) => short(self.id_and_count(k).1),
            Field::Tree(k, at) => {
                let &(first, last) = self.ranges.get(k)?;
                short(match at {
                    InRecord::Box(corner, axis) => self.quantised(first, corner, axis).short,
                    InRecord::First => first as i16,
                    InRecord::Second => last as i16,
                })
            }
            Field::Order(k) => self.order.get(k).map(|&place| (place as u16).to_le_bytes().to_vec()),
        }
    }

    fn header_bytes(&self, at: InHeader) -> Option<Vec<u8>> {
        let word = |word: u32| word.to_le_bytes().to_vec();
        let trees = (self.ranges.len() as u16).to_le_bytes().to_vec();
        Some(match at {
            InHeader::NodeAddress | InHeader::TreeAddress => return None,
            InHeader::NodeCount => word(self.nodes.len() as u32),
            InHeader::NodeCapacity => word(self.capacity() as u32),
            InHeader::Zeros => vec![0; 16],
            InHeader::LastZeros => vec![0; 4],
            InHeader::Point(point, axis) => word(self.point(point, axis as usize)),
            InHeader::Filling(_) => word(0xFFC0_0000),
            InHeader::TreeCount | InHeader::TreeCountAgain => trees,
        })
    }

    /// A word of the header's five points.
    pub fn point(&self, point: Point, axis: usize) -> u32 {
        let scale = &self.scales[axis];
        match point {
            Point::Min => self.all[axis],
            Point::Max => self.all[axis + 3],
            Point::Cen => scale.cen.to_bits(),
            Point::Inverse => scale.inverse.to_bits(),
            Point::Quantum => scale.quantum.to_bits(),
        }
    }

    /// Whether the trace reaches a field's bytes; an address is given, and of a made NaN any bits will do.
    pub fn reaches(&self, field: Field, records: &Records) -> bool {
        let (Some(found), made) = (field.raw(records), self.bytes(field)) else { return false };
        let nan = |raw: &[u8]| raw.len() == 4 && f32::from_le_bytes([raw[0], raw[1], raw[2], raw[3]]).is_nan();
        match made {
            None => field.is_given(),
            Some(made) => made == found || field.is_made() && nan(&made) && nan(&found),
        }
    }

    /// The item that a node's value comes from, where it is an item's.
    pub fn source(&self, node: usize, corner: Corner, axis: Axis) -> Option<usize> {
        let got = self.got(node);
        fold::winner(self.items, &got, 3 * corner as usize + axis as usize).map(|at| got[at])
    }

    /// The six values of an item.
    pub fn floats(&self, place: usize) -> [f32; 6] {
        words(&self.items[place]).map(f32::from_bits)
    }
}

/// R14: from the root, a part over 127 nodes is replaced by its two children's parts.
fn ranges(nodes: &[Node]) -> Vec<(usize, usize)> {
    let mut ranges = Vec::new();
    let mut parts = vec![0];
    while let Some(at) = parts.pop() {
        match nodes[at].children {
            Some([first, second]) if nodes[at].size > RANGE_LIMIT => parts.extend([second, first]),
            _ => ranges.push((at, at + nodes[at].size)),
        }
    }
    ranges
}
