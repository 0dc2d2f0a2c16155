//! Whether the bytes of a dump, or of a prepared mesh, are what its input gives.

use crate::dump::{Dump, Records};
use crate::failure::Failure;
use crate::field::{Field, Recorded, Value};
use crate::number::{counted, cut};
use crate::trace::Fields;
use bounds::Tree;
use plain::tree::Trace;
use std::collections::HashMap;

/// What the library makes of an input, at the dump's addresses, and the fields in which the dump has something else.
pub struct Account<F = Field, R = Records> {
    pub rebuilt: R,
    pub differing: Vec<F>,
    name: String,
    /// Of each of these what is found and what the input gives.
    values: HashMap<F, [Option<Value>; 2]>,
}

/// Builds a dump's input again, with the library.
pub fn account(dump: &Dump) -> Result<Account, Failure> {
    let boxes = dump.input()?;
    let tree = Tree::build(&boxes.items, dump.threshold)
        .map_err(|refusal| Failure::library(refusal, format!("{}: its input is {refusal}", dump.name)))?;
    let mut rebuilt = Records::of(&tree)?;
    for field in Field::all(&dump.records).into_iter().filter(|field| field.is_given()) {
        rebuilt.header[field.bytes()].copy_from_slice(&dump.records.header[field.bytes()]);
    }
    let differing = differing(&rebuilt, &dump.records);
    let values = differing.into_iter().map(|field| (field, [&dump.records, &rebuilt].map(|of| field.value(of))));
    let values = values.collect();
    Ok(Account::of(&dump.name, rebuilt, values))
}

/// The build of a dump's input, step by step, which must come to the library's bytes in every field.
pub fn traced<'a>(dump: &'a Dump, account: &Account) -> Result<Trace<'a>, Failure> {
    Trace::of(&dump.input()?.items, dump.threshold as usize).reaching(&dump.name, &account.rebuilt)
}

/// The fields that two dumps do not share, or have different values in: the longer one's first.
pub fn differing(a: &Records, b: &Records) -> Vec<Field> {
    let size = |of: &Records| of.nodes.len() + of.trees.len() + of.order.len();
    if size(a) >= size(b) {
        unlike(a, b)
    } else {
        unlike(b, a)
    }
}

/// The fields that two do not share, or have different values in: the first one's first. Addresses are given, and may be any.
pub fn unlike<F: Recorded>(a: F::Of<'_>, b: F::Of<'_>) -> Vec<F> {
    let mut fields = F::all(a);
    fields.extend(only::<F>(b, a));
    fields.retain(|field: &F| !field.is_given() && !field.same(a, b));
    fields
}

/// The fields that the other does not have.
pub fn only<F: Recorded>(of: F::Of<'_>, other: F::Of<'_>) -> Vec<F> {
    F::all(of).into_iter().filter(|field| field.raw(other).is_none()).collect()
}

impl<F: Recorded, R> Account<F, R> {
    /// What the library makes of the input of what has this name, and of each field in which that has something else both values.
    pub fn of(name: &str, rebuilt: R, values: Vec<(F, [Option<Value>; 2])>) -> Account<F, R> {
        let differing = values.iter().map(|(field, _)| *field).collect();
        Account { rebuilt, differing, name: name.into(), values: values.into_iter().collect() }
    }

    /// Of a mesh what is its tree's.
    pub fn part<G: Recorded, S>(&self, rebuilt: S, of: impl Fn(F) -> Option<G>) -> Account<G, S> {
        let part = self.differing.iter().filter_map(|field| Some((of(*field)?, self.values[field])));
        Account::of(&self.name, rebuilt, part.collect())
    }

    /// Whether there is something else in a field than the input gives.
    pub fn differs(&self, field: F) -> bool {
        self.values.contains_key(&field)
    }

    /// A field is explained only where its bytes are what the input gives.
    pub fn given(&self, field: F) -> Result<(), Failure> {
        match self.differs(field) {
            true => Err(self.unexplained(field, "what stands there is not explained")),
            false => Ok(()),
        }
    }

    /// What is not explained for what stands in a field.
    pub fn unexplained(&self, field: F, what: &str) -> Failure {
        Failure::Refused(format!("{}: {}; {what}", self.name, self.difference(field)))
    }

    /// One line for bytes that are another input's, or damaged.
    pub fn warning(&self) -> Option<String> {
        const SHOWN: usize = 8;
        let n = self.differing.len();
        let shown = cut(&self.differing, SHOWN, |field| self.difference(*field)).join("; ");
        (n > 0).then(|| format!("{}: {} not as its input gives: {shown}", self.name, counted(n, "field")))
    }

    /// `node 9 min.x is 5, the input gives 19665`.
    fn difference(&self, field: F) -> String {
        let show = |value: Option<Value>| value.map_or("not there".to_string(), |value| value.to_string());
        let [found, given] = self.values.get(&field).copied().unwrap_or_default().map(show);
        format!("{field} is {found}, the input gives {given}")
    }
}
