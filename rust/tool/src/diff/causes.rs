//! The first cause of each field that differs.

use super::input::Change;
use super::matching::Matching;
use super::{words, Side};
use crate::dump::Dump;
use crate::field::{Field, InHeader, InRecord, AXES};
use crate::number::plural;
use crate::rules::Rule::{self, *};
use bounds::premises::Axis;
use std::collections::BTreeMap;

/// Causes that are told of with their values.
pub const TOLD: usize = 8;

/// Why a field differs, first things first.
#[derive(Clone, Copy, Debug, PartialEq, Eq, PartialOrd, Ord)]
pub enum Cause {
    /// A dump's bytes are not what its input gives.
    Bytes,
    /// The threshold.
    Threshold,
    /// Which entries there are.
    List,
    /// The box of all on an axis.
    Scale(usize),
    /// The split at a node of a.
    Split(usize),
    /// The boxes' own values, one of six, in a node that has the same boxes.
    Own(usize),
    /// The same boxes in the same leaves, in another order.
    Order,
    /// None of these: said as such, and never met on random pairs.
    Unknown,
}

/// A cause with the fields that it explains, and what there is to say of it.
pub struct Caused {
    pub cause: Cause,
    pub title: String,
    pub rules: Vec<Rule>,
    pub fields: Vec<Field>,
    pub lines: Vec<String>,
}

/// The causes of the fields that differ, in their order.
pub fn causes(sides: &[Side; 2], fields: &[Field], changes: &[Change]) -> Vec<Caused> {
    let finder = Finder::of(sides);
    let mut grouped: BTreeMap<Cause, Vec<Field>> = BTreeMap::new();
    for &field in fields {
        grouped.entry(finder.cause(field)).or_default().push(field);
    }
    let told = grouped.into_iter().enumerate().map(|(at, (cause, fields))| {
        // Each split is gone to from the root: of thousands only the first are.
        let lines = if at < TOLD { finder.lines(changes, cause) } else { Vec::new() };
        Caused { cause, title: cause.title("box"), rules: cause.rules(), fields, lines }
    });
    told.collect()
}

/// Finds the cause of a field.
pub struct Finder<'a> {
    sides: &'a [Side<'a>; 2],
    matching: Matching,
    first_of_all: Option<usize>,
}

impl<'a> Finder<'a> {
    pub fn of(sides: &'a [Side<'a>; 2]) -> Finder<'a> {
        let matching = Matching::of(&sides[0].trace, &sides[1].trace);
        Finder { sides, first_of_all: matching.first_of_all(), matching }
    }

    /// The dumps that are compared.
    pub fn dumps(&self) -> [&'a Dump; 2] {
        [self.sides[0].dump, self.sides[1].dump]
    }

    /// A cause in words.
    pub fn lines(&self, changes: &[Change], cause: Cause) -> Vec<String> {
        words::lines(self.sides, &self.matching, changes, cause)
    }

    pub fn cause(&self, field: Field) -> Cause {
        if self.sides.iter().any(|side| side.account.differs(field)) {
            return Cause::Bytes;
        }
        match field {
            Field::Header(InHeader::Point(_, axis)) => Cause::Scale(axis as usize),
            Field::Header(_) => self.shape(0),
            Field::Node(k, at) => self.record(k, k, at),
            Field::Tree(k, at) => {
                let first = |side: &Side| side.trace.ranges.get(k).map(|range| range.0);
                match (first(&self.sides[0]), first(&self.sides[1])) {
                    (Some(a), Some(b)) => self.record(a, b, at),
                    _ => self.shape(0),
                }
            }
            Field::Order(k) => match self.shape(self.leaf_at(k)) {
                Cause::Unknown => Cause::Order,
                other => other,
            },
        }
    }

    /// The leaf of a at a position.
    fn leaf_at(&self, position: usize) -> usize {
        let trace = &self.sides[0].trace;
        trace.order.get(position).and_then(|&place| trace.leaves[place]).unwrap_or(0)
    }

    /// A field of the records of node `a` in the one and node `b` in the other.
    fn record(&self, a: usize, b: usize, at: InRecord) -> Cause {
        let nodes = [self.sides[0].trace.nodes.get(a), self.sides[1].trace.nodes.get(b)];
        let ([Some(one), Some(two)], InRecord::Box(corner, axis)) = (nodes, at) else { return self.shape(a) };
        if self.matching.partner[0][a] != Some(b) {
            return self.shape(a);
        }
        let value = 3 * corner as usize + axis as usize;
        if one.bounds[value] != two.bounds[value] {
            return Cause::Own(value);
        }
        if self.scale_differs(axis) {
            Cause::Scale(axis as usize)
        } else {
            Cause::Unknown
        }
    }

    fn scale_differs(&self, axis: Axis) -> bool {
        let scale = |side: &Side| {
            let scale = &side.trace.scales[axis as usize];
            (scale.cen.to_bits(), scale.inverse.to_bits())
        };
        scale(&self.sides[0]) != scale(&self.sides[1])
    }

    /// Why the trees have another shape at a node of a.
    fn shape(&self, node: usize) -> Cause {
        if !self.matching.same_items || self.sides[0].dump.entries != self.sides[1].dump.entries {
            return Cause::List;
        }
        let [a, b] = &self.matching.first_split;
        let above = a.get(node).copied().flatten();
        // A node of a that is not there, or has nothing above it that differs, moved with one before it.
        let other = b.get(node).copied().flatten().and_then(|split| self.matching.partner[1][split]);
        if self.sides[0].dump.threshold != self.sides[1].dump.threshold {
            return Cause::Threshold;
        }
        above.or(other).or(self.first_of_all).map_or(Cause::Unknown, Cause::Split)
    }
}

impl Cause {
    /// Its rules.
    pub fn rules(self) -> Vec<Rule> {
        match self {
            Cause::Bytes => vec![],
            Cause::Threshold => vec![T8, R11, R12, R13],
            Cause::List => vec![T9, R12, R13],
            Cause::Scale(_) => vec![T1, F3, T2],
            Cause::Split(_) => vec![T4, T5, T6, T7],
            Cause::Own(_) => vec![T1, F3],
            Cause::Order => vec![T6, F2, R13],
            Cause::Unknown => vec![],
        }
    }

    /// What it is, in words.
    pub fn title(self, noun: &str) -> String {
        let nouns = plural(noun);
        match self {
            Cause::Bytes => "bytes that are not what their input gives".into(),
            Cause::Threshold => "the threshold".into(),
            Cause::List => format!("which {nouns} the list has"),
            Cause::Scale(axis) => format!("the box of all, axis {}", AXES[axis]),
            Cause::Split(node) => format!("the split at node {node}"),
            Cause::Own(value) => format!("the {nouns}' own {}", crate::explain::value_name(value)),
            Cause::Order => format!("the same {nouns} of a leaf in another order"),
            Cause::Unknown => "no cause is known".into(),
        }
    }
}
