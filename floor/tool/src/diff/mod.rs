//! Two dumps compared: what differs in their inputs, which fields differ and by which first cause, and which boxes a query
//! no longer finds. Nodes are matched by their items, not by their numbers.

mod causes;
mod found;
mod input;
mod matching;
pub mod mesh;
mod report;
mod words;

use crate::account::{account, differing, only, traced, Account};
use crate::dump::Dump;
use crate::failure::Failure;
use crate::field::{Field, Recorded};
use bounds::premises::{ordinary, Broken};
pub use causes::{Cause, Caused};
pub use found::{Row, Verdict};
pub use input::Change;
use plain::tree::Trace;

/// A dump with what its input gives.
pub struct Side<'a> {
    pub dump: &'a Dump,
    pub account: Account,
    pub trace: Trace<'a>,
    pub broken: Option<Broken>,
    /// What the tree is over: boxes, or a mesh's polygons by the numbers that they were given.
    pub noun: &'static str,
}

/// All that is to be said of two dumps.
pub struct Comparison<'a> {
    pub a: &'a Dump,
    pub b: &'a Dump,
    /// Fields that differ, of all that either has.
    pub fields: Vec<Field>,
    pub total: usize,
    /// What can be said only with both inputs.
    pub known: Option<Known<'a>>,
}

/// What the inputs tell.
pub struct Known<'a> {
    pub sides: [Side<'a>; 2],
    pub changes: Vec<Change>,
    pub causes: Vec<Caused>,
    /// Fields of equal bytes that stand for other places: with what they stand for in each.
    pub elsewhere: Vec<(Field, String, String)>,
    pub rows: Vec<Row>,
}

impl<'a> Side<'a> {
    fn of(dump: &'a Dump) -> Result<Side<'a>, Failure> {
        let account = account(dump)?;
        let trace = traced(dump, &account)?;
        Ok(Side { dump, broken: ordinary(trace.items).err(), account, trace, noun: "box" })
    }
}

/// Compares two dumps.
pub fn compare<'a>(a: &'a Dump, b: &'a Dump) -> Result<Comparison<'a>, Failure> {
    let fields = differing(&a.records, &b.records);
    let total = total::<Field>(&a.records, &b.records);
    let known = match (&a.boxes, &b.boxes) {
        (Some(_), Some(_)) => Some(known(a, b, &fields)?),
        _ => None,
    };
    Ok(Comparison { a, b, fields, total, known })
}

/// How many fields either has.
fn total<F: Recorded>(a: F::Of<'_>, b: F::Of<'_>) -> usize {
    F::all(a).len() + only::<F>(b, a).len()
}

fn known<'a>(a: &'a Dump, b: &'a Dump, fields: &[Field]) -> Result<Known<'a>, Failure> {
    let sides = [Side::of(a)?, Side::of(b)?];
    let changes = input::changes(a, b);
    let causes = causes::causes(&sides, fields, &changes);
    let rows = found::rows(&sides);
    Ok(Known { causes, elsewhere: elsewhere(a, b), rows, changes, sides })
}

/// Record values of equal bytes, other than padding, that stand for other places.
fn elsewhere(a: &Dump, b: &Dump) -> Vec<(Field, String, String)> {
    let both = |field: Field| {
        let (in_a, in_b) = (field.stands_for(&a.records)?, field.stands_for(&b.records)?);
        (field.same(&a.records, &b.records) && in_a != in_b).then_some((field, in_a, in_b))
    };
    Field::all(&a.records).into_iter().filter_map(both).collect()
}
