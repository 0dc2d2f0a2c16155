//! Which boxes a query at their own place finds, in a and in b. One that has moved is asked for where each has it.

use super::Side;
use crate::explain::query::first_miss;
use crate::field::{AXES, CORNERS};
use crate::number::{float, place};
use crate::rules::Rule::*;
use crate::trace::walk::{walk, Reading};
use bounds::Vec3;

/// What became of a box.
#[derive(Clone, Copy, Debug, PartialEq, Eq)]
pub enum Verdict {
    /// Found in both.
    Found,
    /// Found in a, not in b.
    Lost,
    /// Found in b, not in a.
    Gained,
    /// Found in neither.
    Missed,
    /// One of the lists does not have it.
    OnlyIn(char),
    /// A walk over the records of one side is refused: they are damaged.
    Refused(char),
}

/// A box in both dumps.
#[derive(Clone, Debug)]
pub struct Row {
    pub place: usize,
    pub leaves: [Option<usize>; 2],
    /// On the axis that differs most: the leaf's values in b, what they stand for, and the box itself.
    pub axis: usize,
    pub record: String,
    pub stands_for: String,
    pub is: String,
    pub verdict: Verdict,
    /// Why it is lost, and what else is handed out where it is.
    pub why: String,
}

/// A row for each place that either list has present.
pub fn rows(sides: &[Side; 2]) -> Vec<Row> {
    let asker = Asker { sides, axis: axis(sides), leaves: [0, 1].map(|side: usize| sides[side].dump.leaves()) };
    let most = sides[0].trace.items.len().max(sides[1].trace.items.len());
    let there = |place: usize| [0, 1].map(|side: usize| present(&sides[side], place));
    let places = (0..most).filter(|&place| there(place) != [false, false]);
    places.map(|place| asker.row(place, there(place))).collect()
}

/// Two dumps, the axis to be shown, and the leaf of each place by the records of each.
struct Asker<'a> {
    sides: &'a [Side<'a>; 2],
    axis: usize,
    leaves: [Vec<Option<usize>>; 2],
}

fn present(side: &Side, place: usize) -> bool {
    side.trace.items.get(place).is_some_and(|item| item.present != 0)
}

/// The first axis of another scale, else of a changed box, else x.
fn axis(sides: &[Side; 2]) -> usize {
    let [a, b] = [&sides[0].trace, &sides[1].trace];
    let scale = |axis: &usize| a.all[*axis] != b.all[*axis] || a.all[axis + 3] != b.all[axis + 3];
    let pairs = || a.items.iter().zip(b.items);
    let own = |axis: &usize| {
        pairs().any(|(one, two)| {
            let (x, y) = (crate::boxes::words(one), crate::boxes::words(two));
            x[*axis] != y[*axis] || x[axis + 3] != y[axis + 3]
        })
    };
    (0..3).find(scale).or((0..3).find(own)).unwrap_or(0)
}

/// A box that a query can be made of.
fn askable(side: &Side, place: usize) -> Option<(Vec3, Vec3)> {
    let item = side.trace.items.get(place).filter(|item| item.present != 0)?;
    let whole = crate::boxes::words(item).iter().all(|&word| !f32::from_bits(word).is_nan());
    whole.then_some((item.min, item.max))
}

/// Where each side is asked for a box: at its own place; one with a NaN has none, and is asked for where the other has it.
fn asked_at(sides: &[Side; 2], place: usize) -> [Option<(Vec3, Vec3)>; 2] {
    let [a, b] = [askable(&sides[0], place), askable(&sides[1], place)];
    [a.or(b), b.or(a)]
}

impl Asker<'_> {
    /// A box in both dumps, by the records of each.
    fn row(&self, place: usize, there: [bool; 2]) -> Row {
        let asked = asked_at(self.sides, place);
        let places = [0, 1].map(|side: usize| handed(&self.sides[side], asked[side]));
        let verdict = verdict(there, [0, 1].map(|side: usize| places[side].as_ref().map(|all| all.contains(&place))));
        let leaves = [0, 1].map(|side: usize| self.leaves[side].get(place).copied().flatten());
        let mut row = Row {
            place,
            leaves,
            axis: self.axis,
            record: String::new(),
            stands_for: String::new(),
            is: String::new(),
            verdict,
            why: String::new(),
        };
        row.why = match verdict {
            Verdict::Found | Verdict::Gained => with_it(&self.sides[1], asked[1], place, &places[1]),
            Verdict::Lost | Verdict::Missed => by_what(&self.sides[1], asked[1], leaves[1]),
            Verdict::OnlyIn(_) | Verdict::Refused(_) => String::new(),
        };
        if let Some(leaf) = leaves[1] {
            show_leaf(&self.sides[1], self.axis, leaf, place, &mut row);
        }
        row
    }
}

/// The places that a walk hands out: none where it is refused, and nothing where nothing can be asked.
fn handed(side: &Side, asked: Option<(Vec3, Vec3)>) -> Option<Vec<usize>> {
    let Some((min, max)) = asked else { return Some(Vec::new()) };
    let found = side.dump.walk(min, max).ok()?;
    Some(found.positions.iter().filter_map(|&position| side.dump.place(position as usize)).collect())
}

/// From where a box is present, and where it is found or the walk refused.
fn verdict(there: [bool; 2], found: [Option<bool>; 2]) -> Verdict {
    match (there, found) {
        ([true, false], _) => Verdict::OnlyIn('a'),
        ([false, true], _) => Verdict::OnlyIn('b'),
        (_, [None, _]) => Verdict::Refused('a'),
        (_, [_, None]) => Verdict::Refused('b'),
        (_, [Some(true), Some(true)]) => Verdict::Found,
        (_, [Some(true), Some(false)]) => Verdict::Lost,
        (_, [Some(false), Some(true)]) => Verdict::Gained,
        (_, [Some(false), Some(false)]) => Verdict::Missed,
    }
}

/// The leaf's values in b on the axis, what they stand for, and the box itself.
fn show_leaf(side: &Side, axis: usize, leaf: usize, at: usize, row: &mut Row) {
    let Some(node) = side.dump.records.node(leaf) else { return };
    let (low, high) = (node.min[axis], node.max[axis]);
    let stands = |value: i16| place(side.dump.records.stands_for(axis, value));
    let floats = side.trace.floats(at);
    row.record = format!("{low}..{high}");
    row.stands_for = if low > high { "inside out".into() } else { format!("{}..{}", stands(low), stands(high)) };
    row.is = format!("{}..{}", float(floats[axis]), float(floats[axis + 3]));
}

/// What is handed out with a box and does not meet the query.
fn with_it(side: &Side, asked: Option<(Vec3, Vec3)>, place: usize, handed: &Option<Vec<usize>>) -> String {
    let Some((min, max)) = asked else { return String::new() };
    let stray =
        |&&other: &&usize| other != place && side.trace.items.get(other).is_some_and(|item| !item.meets(min, max));
    let with: Vec<usize> = handed.iter().flatten().filter(stray).copied().collect();
    match with.is_empty() {
        true => String::new(),
        false => format!("and {} {} with it", side.noun, crate::number::some(&with)),
    }
}

/// The record on the way to a leaf that misses.
fn by_what(side: &Side, asked: Option<(Vec3, Vec3)>, leaf: Option<usize>) -> String {
    let Some((min, max)) = asked else { return format!("a NaN meets no query ({W2})") };
    let Some(leaf) = leaf else { return "in no leaf".into() };
    let odd = odd_values(side, leaf);
    match first_miss(side.dump, &walk(side.dump, min, max), leaf) {
        Some(Reading::Node { node, .. }) if node == leaf => format!("by its own record{odd}"),
        Some(Reading::Node { node, .. }) => format!("by node {node} above it{odd}"),
        Some(Reading::Tree { tree, .. }) => format!("by tree {tree}{odd}"),
        None => String::new(),
    }
}

/// What is odd about a leaf's values: wraps and NaN. Of bytes that the input does not give nothing is known.
fn odd_values(side: &Side, leaf: usize) -> String {
    if !side.account.differing.is_empty() {
        return String::new();
    }
    let value = |corner, axis| {
        let q = side.trace.quantised(leaf, corner, axis);
        match (q.wrapped(), q.product.is_nan()) {
            (true, _) => Some(format!("; {corner}.{axis} wraps {} -> {} ({F8})", q.whole, q.short)),
            (_, true) => Some(format!("; {corner}.{axis} NaN -> 0 ({F8})")),
            _ => None,
        }
    };
    CORNERS.into_iter().flat_map(|corner| AXES.map(|axis| value(corner, axis))).flatten().next().unwrap_or_default()
}
