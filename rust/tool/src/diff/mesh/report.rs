//! A comparison of two prepared meshes as people read it and as programs do: the verdict first.

use super::elsewhere::Meaning;
use super::input::grouped;
use super::{Change, Elsewhere, MeshCaused, MeshComparison, MeshKnown};
use crate::diff::causes::TOLD;
use crate::diff::report::{cause_text, lost_words, premises_words, row_json, table};
use crate::json::Json;
use crate::number::{counted, verb};

/// Longer lists are cut, and say so.
const SHOWN: usize = 8;
const EACH_SHOWN: usize = 3;

impl MeshComparison<'_> {
    pub fn text(&self) -> String {
        let mut text = format!("verdict  {}\n", self.verdict());
        let Some(known) = &self.known else {
            return text + &self.records_line("without both inputs no cause can be named");
        };
        text += &known.input_lines();
        text += &known.premises_line();
        text += &known.bytes_lines();
        text += &self.records_line(&known.causes_words());
        for (cause, number) in known.causes.iter().take(TOLD).zip(1..) {
            text += &cause_text(&cause.title, cause.fields.len(), &cause.rules, &cause.lines, number);
        }
        text += &known.causes_left();
        text += &known.elsewhere_lines();
        if !self.fields.is_empty() || !known.changes.is_empty() {
            text += &table(&known.rows, "given");
        }
        text
    }

    /// What to say first.
    fn verdict(&self) -> String {
        let fields = match self.fields.len() {
            0 => "no field differs".to_string(),
            n => format!("{n} of {} fields {}", self.total, verb(n, "differ")),
        };
        let Some(known) = &self.known else { return fields };
        let input = match &known.changes[..] {
            [] => "the inputs are the same".to_string(),
            [one] => one.short(),
            many => format!("{} of the input ({})", counted(many.len(), "difference"), grouped(many)),
        };
        let damaged = known.sides.iter().filter(|side| !side.account.differing.is_empty());
        let damaged: String =
            damaged.map(|side| format!("; the bytes of {} are not its input's", side.folder.name)).collect();
        let lost = match &known.trees {
            Some(_) => format!("; {}", lost_words(&known.rows, "polygon")),
            None => String::new(),
        };
        format!("{input}; {fields}{damaged}{lost}")
    }

    fn records_line(&self, end: &str) -> String {
        let n = self.fields.len();
        let shown: Vec<String> = self.fields.iter().take(4).map(|field| field.to_string()).collect();
        match n {
            0 => format!("records  all {} fields are the same\n", self.total),
            _ => format!(
                "records  {n} of {} fields {}, first {}; {end}\n",
                self.total,
                verb(n, "differ"),
                shown.join(", ")
            ),
        }
    }

    pub fn json(&self) -> Json {
        let fields = Json::list(self.fields.iter().map(|field| field.to_string()));
        let mut members = vec![("verdict", self.verdict().into()), ("total", self.total.into()), ("fields", fields)];
        if let Some(known) = &self.known {
            members.push(("input", Json::list(known.changes.iter().map(Change::to_string))));
            let premises = known.trees.iter().flatten().map(premises_words);
            members.push(("premises", Json::list(premises)));
            members.push(("causes", Json::list(known.causes.iter().map(cause_json))));
            members.push(("elsewhere", Json::list(known.elsewhere.iter().map(|at| at.field.to_string()))));
            members.push(("polygons", Json::list(known.rows.iter().map(row_json))));
        }
        Json::Object(members)
    }
}

impl MeshKnown<'_> {
    fn input_lines(&self) -> String {
        let n = self.changes.len();
        if n == 0 {
            return "input    the same\n".into();
        }
        let lines: Vec<String> = self.changes.iter().take(SHOWN).map(Change::to_string).collect();
        let more = if n > SHOWN { format!("\n         and {} more", n - SHOWN) } else { String::new() };
        format!("input    {}: {}{more}\n", counted(n, "difference"), lines.join("\n         "))
    }

    fn premises_line(&self) -> String {
        let Some(trees) = &self.trees else { return String::new() };
        let [a, b] = [0, 1].map(|side: usize| premises_words(&trees[side]));
        format!("premises a: {a}   b: {b}\n")
    }

    /// A folder whose bytes are another input's, or damaged.
    fn bytes_lines(&self) -> String {
        let warnings = self.sides.iter().filter_map(|side| side.account.warning(side.folder));
        warnings.map(|warning| format!("bytes    {warning}\n")).collect()
    }

    fn causes_words(&self) -> String {
        let causes = counted(self.causes.len(), "cause");
        match &self.changes[..] {
            [one] if !self.causes.is_empty() => format!("{causes}, from {}", one.of),
            _ => causes,
        }
    }

    fn causes_left(&self) -> String {
        let left = self.causes.get(TOLD..).unwrap_or_default();
        let fields: usize = left.iter().map(|cause| cause.fields.len()).sum();
        match left.len() {
            0 => String::new(),
            n => format!("\n         and {} more, with {}\n", counted(n, "cause"), counted(fields, "field")),
        }
    }

    fn elsewhere_lines(&self) -> String {
        let mut lines: Vec<String> = Vec::new();
        for group in Meaning::ALL {
            let of: Vec<&Elsewhere> = self.elsewhere.iter().filter(|at| at.meaning == group).collect();
            let told = |at: &&Elsewhere| format!("{} ({} and {})", at.field, at.a, at.b);
            let shown: Vec<String> = of.iter().take(EACH_SHOWN).map(told).collect();
            let more = of.len().saturating_sub(EACH_SHOWN);
            let more = if more > 0 { format!(", and {more} more") } else { String::new() };
            if !of.is_empty() {
                let fields = counted(of.len(), "field");
                lines.push(format!(
                    "{fields} with EQUAL bytes for different {}: {}{more}",
                    group.name(),
                    shown.join(", ")
                ));
            }
        }
        match lines.is_empty() {
            true => String::new(),
            false => format!("\nnote     {}\n", lines.join("\n         ")),
        }
    }
}

fn cause_json(cause: &MeshCaused) -> Json {
    Json::Object(vec![
        ("cause", cause.title.as_str().into()),
        ("rules", Json::list(cause.rules.iter().map(|rule| rule.name()))),
        ("fields", Json::list(cause.fields.iter().map(|field| field.to_string()))),
        ("lines", Json::list(cause.lines.iter().map(String::as_str))),
    ])
}
