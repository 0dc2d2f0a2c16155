//! Whether a dump's bytes are what its input gives.

use crate::dump::{Dump, Records};
use crate::failure::Failure;
use crate::field::Field;
use crate::number::counted;
use crate::trace::Trace;
use bounds::Tree;
use std::collections::HashSet;

/// What the library makes of a dump's input, at the dump's addresses, and the fields in which the dump has something else.
pub struct Account {
    pub rebuilt: Records,
    pub differing: Vec<Field>,
    set: HashSet<Field>,
}

/// Builds a dump's input again, with the library.
pub fn account(dump: &Dump) -> Result<Account, Failure> {
    let boxes = dump.input()?;
    let tree = Tree::build(&boxes.items, dump.threshold)
        .map_err(|refusal| Failure::Refused(format!("{}: its input is {refusal}", dump.name)))?;
    let mut rebuilt = Records::of(&tree);
    for field in Field::all(&dump.records).into_iter().filter(|field| field.is_given()) {
        rebuilt.header[field.bytes()].copy_from_slice(&dump.records.header[field.bytes()]);
    }
    let differing = differing(&rebuilt, &dump.records);
    Ok(Account::of(rebuilt, differing))
}

/// The build of a dump's input, step by step, which must come to the library's bytes in every field.
pub fn traced<'a>(dump: &'a Dump, account: &Account) -> Result<Trace<'a>, Failure> {
    let trace = Trace::of(&dump.input()?.items, dump.threshold as usize);
    match Field::all(&account.rebuilt).into_iter().find(|&field| !trace.reaches(field, &account.rebuilt)) {
        None => Ok(trace),
        Some(field) => {
            let words =
                format!("{}: the trace does not reach the library's bytes at {field}; nothing is explained", dump.name);
            Err(Failure::Refused(words))
        }
    }
}

/// The fields that two dumps do not share, or have different values in. Addresses are given, and may be any.
pub fn differing(a: &Records, b: &Records) -> Vec<Field> {
    let longer = if a.nodes.len() + a.trees.len() + a.order.len() >= b.nodes.len() + b.trees.len() + b.order.len() {
        [a, b]
    } else {
        [b, a]
    };
    let mut fields = Field::all(longer[0]);
    fields.extend(Field::all(longer[1]).into_iter().filter(|field| field.raw(longer[0]).is_none()));
    fields.retain(|field| !field.is_given() && !field.same(a, b));
    fields
}

impl Account {
    /// What the library makes of an input, and the fields in which a dump has something else.
    pub fn of(rebuilt: Records, differing: Vec<Field>) -> Account {
        Account { set: differing.iter().copied().collect(), differing, rebuilt }
    }

    /// Whether the dump has something else in a field than its input gives.
    pub fn differs(&self, field: Field) -> bool {
        self.set.contains(&field)
    }

    /// One line for a dump whose bytes are another input's, or damaged.
    pub fn warning(&self, dump: &Dump) -> Option<String> {
        const SHOWN: usize = 8;
        let n = self.differing.len();
        let shown: Vec<String> = self.differing.iter().take(SHOWN).map(|field| self.difference(dump, *field)).collect();
        let more = if n > SHOWN { format!("; and {} more", n - SHOWN) } else { String::new() };
        (n > 0).then(|| {
            let fields = counted(n, "field");
            format!("{}: {fields} not as its input gives: {}{more}", dump.name, shown.join("; "))
        })
    }

    /// `node 9 min.x is 5, the input gives 19665`.
    pub fn difference(&self, dump: &Dump, field: Field) -> String {
        let show = |records| field.value(records).map_or("not there".to_string(), |value| value.to_string());
        format!("{field} is {}, the input gives {}", show(&dump.records), show(&self.rebuilt))
    }
}
