//! What differs between two inputs.

use crate::boxes::words;
use crate::dump::Dump;
use crate::explain::value_name;
use crate::number::{both, float};
use bounds::BvhItem;
use std::fmt;

/// A difference of two inputs.
#[derive(Clone, Copy, Debug, PartialEq, Eq)]
pub enum Change {
    Threshold(u32, u32),
    Entries(usize, usize),
    /// Whether the entry at a place is present, in a and in b.
    Presence(usize, bool, bool),
    /// One of the six values of the box at a place.
    Word {
        place: usize,
        value: usize,
        a: u32,
        b: u32,
    },
}

/// Every difference of the two inputs, entry by entry of those that both have.
pub fn changes(a: &Dump, b: &Dump) -> Vec<Change> {
    let mut changes = Vec::new();
    if a.threshold != b.threshold {
        changes.push(Change::Threshold(a.threshold, b.threshold));
    }
    if a.entries != b.entries {
        changes.push(Change::Entries(a.entries, b.entries));
    }
    let items = |dump: &Dump| dump.boxes.as_ref().map_or(Vec::new(), |boxes| boxes.items.clone());
    for (place, (one, two)) in items(a).iter().zip(&items(b)).enumerate() {
        changes.extend(entry_changes(place, one, two));
    }
    changes
}

fn entry_changes(place: usize, a: &BvhItem, b: &BvhItem) -> Vec<Change> {
    let (here, there) = (a.present != 0, b.present != 0);
    if here != there {
        return vec![Change::Presence(place, here, there)];
    }
    let (x, y) = (words(a), words(b));
    let differ = (0..6).filter(|&value| here && x[value] != y[value]);
    differ.map(|value| Change::Word { place, value, a: x[value], b: y[value] }).collect()
}

impl Change {
    /// What it is of, in few words: `box 2 min.x`.
    pub fn of(&self) -> String {
        match self {
            Change::Threshold(..) => "the threshold".into(),
            Change::Entries(..) => "the number of entries".into(),
            Change::Presence(place, ..) => format!("box {place}"),
            Change::Word { place, value, .. } => format!("box {place} {}", value_name(*value)),
        }
    }
}

impl Change {
    /// The change, short enough to be read aloud: `box 2 min.x 4.0 -> NaN`.
    pub fn short(&self) -> String {
        match *self {
            Change::Word { a, b, .. } => {
                format!("{} {} -> {}", self.of(), float(f32::from_bits(a)), float(f32::from_bits(b)))
            }
            _ => self.to_string(),
        }
    }
}

impl fmt::Display for Change {
    fn fmt(&self, f: &mut fmt::Formatter) -> fmt::Result {
        let presence = |here: bool| if here { "present" } else { "absent" };
        match *self {
            Change::Threshold(a, b) => write!(f, "threshold {a} -> {b}"),
            Change::Entries(a, b) => write!(f, "{a} -> {b} entries"),
            Change::Presence(place, a, b) => write!(f, "box {place} {} -> {}", presence(a), presence(b)),
            Change::Word { a, b, .. } => write!(f, "{}  {} -> {}", self.of(), both(a), both(b)),
        }
    }
}
