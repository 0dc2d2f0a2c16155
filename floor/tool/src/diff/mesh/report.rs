//! A comparison of two prepared meshes in words, laid out as that of two trees.

use super::elsewhere::Meaning;
use super::input::grouped;
use super::{Change, Changes, Elsewhere, MeshCause, MeshComparison, MeshKnown};
use crate::diff::report::{Nouns, Report, Told, BELOW, SHOWN};
use crate::field::mesh::MeshField;
use crate::json::Json;
use crate::number::{counted, cut};

/// Longer lists are cut, and say so.
const EACH_SHOWN: usize = 3;

impl MeshComparison<'_> {
    pub fn text(&self) -> String {
        self.report().text()
    }

    pub fn json(&self) -> Json {
        self.report().json()
    }

    fn report(&self) -> Report<'_, MeshCause, MeshField> {
        let told = self.known.as_ref().map(MeshKnown::told);
        Report { fields: &self.fields, total: self.total, given: String::new(), told }
    }
}

impl MeshKnown<'_> {
    fn told(&self) -> Told<'_, MeshCause, MeshField> {
        let (input, from) = match &self.changes.given[..] {
            [] if self.changes.is_empty() => ("the inputs are the same".to_string(), None),
            [] => (format!("{} of the input", grouped(&self.changes.made)), None),
            [one] => (one.short(), Some(one.of.to_string())),
            many => (format!("{} of the input ({})", counted(many.len(), "difference"), grouped(many)), None),
        };
        let damaged = self.sides.iter().filter_map(|side| Some((side.folder.name.as_str(), side.account.warning()?)));
        let names = self.elsewhere.iter().map(|at| at.field.to_string()).collect();
        Told {
            input,
            input_lines: self.input_lines(),
            changes: self.changes.all().map(Change::to_string).collect(),
            from,
            damaged: damaged.collect(),
            trees: self.trees.as_ref().map_or(&[], |trees| trees),
            causes: &self.causes,
            elsewhere: (self.elsewhere_lines(), "elsewhere", names),
            rows: &self.rows,
            nouns: Nouns { one: "polygon", column: "given", all: "polygons" },
        }
    }

    fn input_lines(&self) -> String {
        let listed = |changes: &[Change]| cut(changes, SHOWN, Change::to_string).join(BELOW);
        let Changes { given, made } = &self.changes;
        let first = match given.len() {
            0 if made.is_empty() => "the same".into(),
            0 => "what the files have is the same".into(),
            n => format!("{}: {}", counted(n, "difference"), listed(given)),
        };
        let made = match made.len() {
            0 => String::new(),
            n => format!("         and {} made of the vertices: {}\n", counted(n, "value"), listed(made)),
        };
        format!("input    {first}\n{made}")
    }

    fn elsewhere_lines(&self) -> String {
        let lines = |group: Meaning| {
            let of: Vec<&Elsewhere> = self.elsewhere.iter().filter(|at| at.meaning == group).collect();
            let shown = cut(&of, EACH_SHOWN, |at| format!("{} ({} and {})", at.field, at.a, at.b)).join(", ");
            let (fields, name) = (counted(of.len(), "field"), group.name());
            (!of.is_empty()).then(|| format!("{fields} with EQUAL bytes for different {name}: {shown}"))
        };
        let lines: Vec<String> = Meaning::ALL.into_iter().filter_map(lines).collect();
        match lines.is_empty() {
            true => String::new(),
            false => format!("\nnote     {}\n", lines.join(BELOW)),
        }
    }
}
