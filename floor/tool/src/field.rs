//! The fields of header, node records, tree records and order list: their names, bytes, values and rules. Those of a
//! prepared mesh are in [`mesh`].

pub mod mesh;

use crate::dump::Records;
use crate::number;
use crate::rules::Rule::{self, *};
use bounds::premises::{Axis, Corner};
use std::fmt;
use std::hash::Hash;
use std::ops::Range;

pub const AXES: [Axis; 3] = [Axis::X, Axis::Y, Axis::Z];
pub const CORNERS: [Corner; 2] = [Corner::Min, Corner::Max];

/// A point of the header.
#[derive(Clone, Copy, Debug, PartialEq, Eq, Hash)]
pub enum Point {
    Min,
    Max,
    Cen,
    Inverse,
    Quantum,
}

pub const POINTS: [Point; 5] = [Point::Min, Point::Max, Point::Cen, Point::Inverse, Point::Quantum];

/// A field of the header. The fourth coordinate of each point is a filling.
#[derive(Clone, Copy, Debug, PartialEq, Eq, Hash)]
pub enum InHeader {
    NodeAddress,
    NodeCount,
    NodeCapacity,
    Zeros,
    Point(Point, Axis),
    Filling(Point),
    TreeAddress,
    TreeCount,
    TreeCountAgain,
    LastZeros,
}

/// A field of a node's or a tree's record: its box, then two numbers (a node's id and count, a tree's first and last).
#[derive(Clone, Copy, Debug, PartialEq, Eq, Hash)]
pub enum InRecord {
    Box(Corner, Axis),
    First,
    Second,
}

/// A field of a dump.
#[derive(Clone, Copy, Debug, PartialEq, Eq, Hash)]
pub enum Field {
    Header(InHeader),
    Node(usize, InRecord),
    Tree(usize, InRecord),
    Order(usize),
}

/// A field of a tree's records or of a prepared mesh: both are compared, shown and explained alike.
pub trait Recorded: Copy + Eq + Hash + fmt::Display {
    /// What has such fields.
    type Of<'r>: Copy;

    /// Every field, in the order in which they are shown.
    fn all(of: Self::Of<'_>) -> Vec<Self>;

    /// Its raw bytes, where it is there.
    fn raw(self, of: Self::Of<'_>) -> Option<Vec<u8>>;

    /// The value of its bytes.
    fn value_of(self, raw: &[u8]) -> Value;

    /// An address follows from no input: who writes the header gives it.
    fn is_given(self) -> bool;

    /// Whether a NaN in it was made by arithmetic, so that its bits are free.
    fn is_made(self, of: Self::Of<'_>) -> bool;

    /// Its value, where it is there.
    fn value(self, of: Self::Of<'_>) -> Option<Value> {
        Some(self.value_of(&self.raw(of)?))
    }

    /// Whether its bytes are those of a NaN.
    fn is_nan(self, raw: &[u8]) -> bool {
        matches!(self.value_of(raw), Value::Word(word) if f32::from_bits(word).is_nan())
    }

    /// Whether two have the same in it: the same bytes, or each some NaN that arithmetic made.
    fn same(self, a: Self::Of<'_>, b: Self::Of<'_>) -> bool {
        let made = self.is_made(a) && self.is_made(b);
        match (self.raw(a), self.raw(b)) {
            (Some(a), Some(b)) => a == b || made && self.is_nan(&a) && self.is_nan(&b),
            (a, b) => a == b,
        }
    }
}

/// A field's value.
#[derive(Clone, Copy, Debug, PartialEq, Eq)]
pub enum Value {
    Zeros(bool),
    Address(u64),
    Number(u32),
    Short(i16),
    Word(u32),
    /// A polygon's kind.
    Kind(u8),
    /// A polygon's vertex; of a triangle's bit 15 is a flag.
    Corner(u16),
    Material(u32, u32),
    /// An axis of a file.
    Letter(char),
}

/// The kinds of polygons by their numbers.
pub const KINDS: [&str; 5] = ["triangle", "sphere", "capsule", "box", "cylinder"];

impl InHeader {
    /// Every field, in the order of its bytes.
    pub fn all() -> Vec<InHeader> {
        use InHeader::*;
        let points = POINTS.into_iter().flat_map(|p| AXES.map(|axis| Point(p, axis)).into_iter().chain([Filling(p)]));
        let first = [NodeAddress, NodeCount, NodeCapacity, Zeros];
        first.into_iter().chain(points).chain([TreeAddress, TreeCount, TreeCountAgain, LastZeros]).collect()
    }

    fn bytes(self) -> Range<usize> {
        let point = |p: Point, k: usize| 32 + 16 * p as usize + 4 * k..32 + 16 * p as usize + 4 * k + 4;
        match self {
            InHeader::NodeAddress => 0..8,
            InHeader::NodeCount => 8..12,
            InHeader::NodeCapacity => 12..16,
            InHeader::Zeros => 16..32,
            InHeader::Point(p, axis) => point(p, axis as usize),
            InHeader::Filling(p) => point(p, 3),
            InHeader::TreeAddress => 112..120,
            InHeader::TreeCount => 120..122,
            InHeader::TreeCountAgain => 122..124,
            InHeader::LastZeros => 124..128,
        }
    }

    fn rules(self) -> &'static [Rule] {
        match self {
            InHeader::NodeAddress | InHeader::TreeAddress | InHeader::Zeros | InHeader::LastZeros => &[R6],
            InHeader::NodeCount => &[R6, R10, T8],
            InHeader::NodeCapacity => &[R6, R12],
            InHeader::Point(Point::Min | Point::Max, _) => &[T1, F4, R7],
            InHeader::Point(..) => &[T2, R7],
            InHeader::Filling(_) => &[R7],
            InHeader::TreeCount | InHeader::TreeCountAgain => &[R6, R14],
        }
    }
}

impl InRecord {
    /// Every field, in the order of its bytes.
    pub fn all() -> Vec<InRecord> {
        let boxes = CORNERS.into_iter().flat_map(|corner| AXES.map(|axis| InRecord::Box(corner, axis)));
        boxes.chain([InRecord::First, InRecord::Second]).collect()
    }

    /// Which of a record's eight numbers it is.
    pub fn number(self) -> usize {
        match self {
            InRecord::Box(corner, axis) => 3 * corner as usize + axis as usize,
            InRecord::First => 6,
            InRecord::Second => 7,
        }
    }

    fn bytes(self) -> Range<usize> {
        2 * self.number()..2 * self.number() + 2
    }
}

impl Field {
    /// Its bytes within its record, header or list.
    pub fn bytes(self) -> Range<usize> {
        match self {
            Field::Header(field) => field.bytes(),
            Field::Node(_, field) | Field::Tree(_, field) => field.bytes(),
            Field::Order(k) => k.saturating_mul(2)..k.saturating_mul(2).saturating_add(2),
        }
    }

    /// What it is a field of: `header`, `node 9`.
    pub fn part(self) -> String {
        match self {
            Field::Header(_) => "header".into(),
            Field::Node(k, _) => format!("node {k}"),
            Field::Tree(k, _) => format!("tree {k}"),
            Field::Order(_) => "order".into(),
        }
    }

    /// Its name within that: `min.x`, `id`.
    pub fn name(self) -> String {
        match self {
            Field::Header(field) => field.to_string(),
            Field::Node(_, InRecord::First) => "id".into(),
            Field::Node(_, InRecord::Second) => "count".into(),
            Field::Tree(_, InRecord::First) => "first".into(),
            Field::Tree(_, InRecord::Second) => "last".into(),
            Field::Node(_, InRecord::Box(corner, axis)) | Field::Tree(_, InRecord::Box(corner, axis)) => {
                format!("{corner}.{axis}")
            }
            Field::Order(k) => k.to_string(),
        }
    }

    /// The place that a value of a record's box stands for. Padding stands for none.
    pub fn stands_for(self, records: &Records) -> Option<String> {
        match (self, self.value(records)?) {
            (Field::Node(k, _), _) if k >= records.node_count() => None,
            (Field::Node(_, InRecord::Box(_, axis)) | Field::Tree(_, InRecord::Box(_, axis)), Value::Short(value)) => {
                Some(number::place(records.stands_for(axis as usize, value)))
            }
            _ => None,
        }
    }

    /// The rules that made it, by the tables of docs/RULES.md. Padding has one rule.
    pub fn rules(self, nodes: usize) -> &'static [Rule] {
        match self {
            Field::Header(field) => field.rules(),
            Field::Node(k, _) if k >= nodes => &[R12],
            Field::Node(_, InRecord::Box(..)) => &[T1, F3, T2, F8, R3],
            Field::Node(..) => &[R11, T8],
            Field::Tree(_, InRecord::Box(..)) => &[T1, T2, R3],
            Field::Tree(..) => &[R14, R10],
            Field::Order(_) => &[R13],
        }
    }

    /// The field of a name: `node 9 min.x`, `tree 0 last`, `header cen.x`, `order 5`.
    pub fn parse(words: &[String]) -> Option<Field> {
        let number = |word: &str| word.parse::<usize>().ok();
        let record = |k: &str, of: fn(usize, InRecord) -> Field, name: &str| {
            let k = number(k)?;
            InRecord::all().into_iter().map(|at| of(k, at)).find(|field| field.name() == name)
        };
        match words.iter().map(String::as_str).collect::<Vec<_>>()[..] {
            ["header", name] => InHeader::all().into_iter().map(Field::Header).find(|field| field.name() == name),
            ["node", k, name] => record(k, Field::Node, name),
            ["tree", k, name] => record(k, Field::Tree, name),
            ["order", k] => Some(Field::Order(number(k)?)),
            _ => None,
        }
    }
}

impl Recorded for Field {
    type Of<'r> = &'r Records;

    fn all(records: &Records) -> Vec<Field> {
        let header = InHeader::all().into_iter().map(Field::Header);
        let nodes = (0..records.capacity()).flat_map(|k| InRecord::all().into_iter().map(move |f| Field::Node(k, f)));
        let trees = (0..records.tree_count()).flat_map(|k| InRecord::all().into_iter().map(move |f| Field::Tree(k, f)));
        header.chain(nodes).chain(trees).chain((0..records.order.len()).map(Field::Order)).collect()
    }

    fn raw(self, records: &Records) -> Option<Vec<u8>> {
        let part = match self {
            Field::Header(_) => &records.header[..],
            Field::Node(k, _) => records.nodes.get(k.checked_mul(16)?..)?.get(..16)?,
            Field::Tree(k, _) => records.trees.get(k.checked_mul(16)?..)?.get(..16)?,
            Field::Order(k) => return records.order.get(k).map(|place| place.to_le_bytes().to_vec()),
        };
        Some(part[self.bytes()].to_vec())
    }

    fn value_of(self, raw: &[u8]) -> Value {
        let number = raw.iter().rev().fold(0u64, |sum, &byte| sum << 8 | byte as u64);
        match self {
            Field::Header(InHeader::NodeAddress | InHeader::TreeAddress) => Value::Address(number),
            Field::Header(InHeader::Zeros | InHeader::LastZeros) => Value::Zeros(raw.iter().all(|&byte| byte == 0)),
            Field::Header(InHeader::Point(..) | InHeader::Filling(_)) => Value::Word(number as u32),
            Field::Header(_) | Field::Order(_) => Value::Number(number as u32),
            Field::Node(..) | Field::Tree(..) => Value::Short(number as u16 as i16),
        }
    }

    fn is_given(self) -> bool {
        matches!(self, Field::Header(InHeader::NodeAddress | InHeader::TreeAddress))
    }

    fn is_made(self, _: &Records) -> bool {
        matches!(self, Field::Header(InHeader::Point(Point::Cen | Point::Inverse | Point::Quantum, _)))
    }
}

impl fmt::Display for Field {
    fn fmt(&self, f: &mut fmt::Formatter) -> fmt::Result {
        write!(f, "{} {}", self.part(), self.name())
    }
}

impl fmt::Display for Point {
    fn fmt(&self, f: &mut fmt::Formatter) -> fmt::Result {
        f.write_str(["min", "max", "cen", "inverse", "quantum"][*self as usize])
    }
}

impl fmt::Display for InHeader {
    fn fmt(&self, f: &mut fmt::Formatter) -> fmt::Result {
        match self {
            InHeader::NodeAddress => f.write_str("node_address"),
            InHeader::NodeCount => f.write_str("node_count"),
            InHeader::NodeCapacity => f.write_str("node_capacity"),
            InHeader::Zeros => f.write_str("zeros"),
            InHeader::Point(point, axis) => write!(f, "{point}.{axis}"),
            InHeader::Filling(point) => write!(f, "{point}.w"),
            InHeader::TreeAddress => f.write_str("tree_address"),
            InHeader::TreeCount => f.write_str("tree_count"),
            InHeader::TreeCountAgain => f.write_str("tree_count2"),
            InHeader::LastZeros => f.write_str("zeros2"),
        }
    }
}

impl fmt::Display for Value {
    fn fmt(&self, f: &mut fmt::Formatter) -> fmt::Result {
        match self {
            Value::Zeros(true) => f.pad("0"),
            Value::Zeros(false) => f.pad("not all 0"),
            Value::Address(address) => f.pad(&format!("0x{address:X}")),
            Value::Number(number) => f.pad(&number.to_string()),
            Value::Short(short) => f.pad(&short.to_string()),
            Value::Word(word) => f.pad(&number::both(*word)),
            Value::Kind(kind) => f.pad(&format!("{kind} ({})", KINDS.get(*kind as usize).unwrap_or(&"none"))),
            Value::Corner(corner) if *corner > 0x7FFF => f.pad(&format!("{} + {}", corner & 0x7FFF, 0x8000)),
            Value::Corner(corner) => f.pad(&corner.to_string()),
            Value::Material(first, second) => f.pad(&format!("({first:08X}, {second:08X})")),
            Value::Letter(letter) => f.pad(&letter.to_string()),
        }
    }
}

#[cfg(test)]
mod tests {
    use super::*;
    use crate::boxes::{Boxes, Form};
    use crate::dump::Dump;

    #[test]
    fn every_field_has_a_name_that_leads_back_and_the_bytes_are_covered_once() {
        let boxes =
            Boxes::of_bytes("t", b"0 0 0 1 1 1\n2 0 0 3 1 1\nabsent\n", Some(Form::Text)).expect("three entries");
        let records = Dump::build("t", boxes, 1).expect("a tree").0.records;
        let fields = Field::all(&records);
        assert_eq!(fields.len(), 28 + 8 * 7 + 8 + 2);
        let mut covered = 0;
        for field in fields {
            let words: Vec<String> = field.to_string().split(' ').map(String::from).collect();
            assert_eq!(Field::parse(&words), Some(field), "{field}");
            covered += field.raw(&records).expect("it is there").len();
        }
        assert_eq!(covered, 128 + records.nodes.len() + records.trees.len() + 2 * records.order.len());
    }
}
