//! A comparison as people read it and as programs do: the verdict first, in a line that can be read aloud. Two trees and two
//! meshes are told of alike.

use super::causes::TOLD;
use super::{Caused, Change, Comparison, Known, Row, Side, Verdict};
use crate::boxes::words;
use crate::dump::Dump;
use crate::field::{Field, Recorded, AXES};
use crate::json::Json;
use crate::number::{both, counted, cut, verb};
use crate::rules::{self, Rule::*};
use bounds::premises::Broken;
use std::fmt;

/// Longer lists are cut, and say so.
pub const SHOWN: usize = 8;
const ELSEWHERE_SHOWN: usize = 4;
const ROWS_SHOWN: usize = 40;

/// Below what stands behind a heading.
pub const BELOW: &str = "\n         ";

/// What there is to say of two trees or of two meshes.
pub struct Report<'a, C, F> {
    pub fields: &'a [F],
    pub total: usize,
    /// A line for addresses that differ.
    pub given: String,
    /// What can be said only with both inputs.
    pub told: Option<Told<'a, C, F>>,
}

/// What the inputs tell.
pub struct Told<'a, C, F> {
    /// How they differ: in few words for the verdict, in lines, and difference by difference.
    pub input: String,
    pub input_lines: String,
    pub changes: Vec<String>,
    /// What alone differs in them.
    pub from: Option<String>,
    /// Those whose bytes are not their input's: a name, and a line.
    pub damaged: Vec<(&'a str, String)>,
    /// The two trees, where there are two.
    pub trees: &'a [Side<'a>],
    pub causes: &'a [Caused<C, F>],
    /// Lines for fields of equal bytes that stand for something else, what JSON calls these, and their names.
    pub elsewhere: (String, &'static str, Vec<String>),
    pub rows: &'a [Row],
    pub nouns: Nouns,
}

/// What the rows are of: in a sentence, over a column, and in JSON.
pub struct Nouns {
    pub one: &'static str,
    pub column: &'static str,
    pub all: &'static str,
}

impl<C, F: fmt::Display> Report<'_, C, F> {
    pub fn text(&self) -> String {
        let mut text = format!("verdict  {}\n", self.verdict()) + &self.given;
        let Some(told) = &self.told else {
            return text + &self.records_line("without both inputs no cause can be named");
        };
        text += &told.input_lines;
        if let [a, b] = told.trees {
            text += &format!("premises a: {}   b: {}\n", premises_words(a), premises_words(b));
        }
        text.extend(told.damaged.iter().map(|(_, warning)| format!("bytes    {warning}\n")));
        text += &self.records_line(&told.causes_words());
        text.extend(told.causes.iter().take(TOLD).zip(1..).map(|(cause, number)| cause.text(number)));
        text += &told.causes_left();
        text += &told.elsewhere.0;
        if !self.fields.is_empty() || !told.changes.is_empty() {
            text += &table(told.rows, told.nouns.column);
        }
        text
    }

    /// What to say first.
    fn verdict(&self) -> String {
        let fields = match self.fields.len() {
            0 => "no field differs".to_string(),
            n => format!("{n} of {} fields {}", self.total, verb(n, "differ")),
        };
        let Some(told) = &self.told else { return fields };
        let damaged = told.damaged.iter().map(|(name, _)| format!("; the bytes of {name} are not its input's"));
        let damaged: String = damaged.collect();
        let lost = match told.trees {
            [] => String::new(),
            _ => format!("; {}", lost_words(told.rows, told.nouns.one)),
        };
        format!("{}; {fields}{damaged}{lost}", told.input)
    }

    fn records_line(&self, end: &str) -> String {
        let n = self.fields.len();
        let shown: Vec<String> = self.fields.iter().take(4).map(F::to_string).collect();
        match n {
            0 => format!("records  all {} fields are the same\n", self.total),
            _ => format!(
                "records  {n} of {} fields {}, first {}; {end}\n",
                self.total,
                verb(n, "differ"),
                shown.join(", ")
            ),
        }
    }

    pub fn json(&self) -> Json {
        let fields = Json::list(self.fields.iter().map(F::to_string));
        let mut members = vec![("verdict", self.verdict().into()), ("total", self.total.into()), ("fields", fields)];
        if let Some(told) = &self.told {
            members.push(("input", Json::list(told.changes.iter().map(String::as_str))));
            members.push(("premises", Json::list(told.trees.iter().map(premises_words))));
            members.push(("causes", Json::list(told.causes.iter().map(Caused::json))));
            let (_, name, elsewhere) = &told.elsewhere;
            members.push((name, Json::list(elsewhere.iter().map(String::as_str))));
            members.push((told.nouns.all, Json::list(told.rows.iter().map(row_json))));
        }
        Json::Object(members)
    }
}

impl<C, F> Told<'_, C, F> {
    fn causes_words(&self) -> String {
        let causes = counted(self.causes.len(), "cause");
        match &self.from {
            Some(one) if !self.causes.is_empty() => format!("{causes}, from {one}"),
            _ => causes,
        }
    }

    fn causes_left(&self) -> String {
        let left = self.causes.get(TOLD..).unwrap_or_default();
        let fields: usize = left.iter().map(|cause| cause.fields.len()).sum();
        match left.len() {
            0 => String::new(),
            n => format!("{BELOW}and {} more, with {}\n", counted(n, "cause"), counted(fields, "field")),
        }
    }
}

impl<C, F: fmt::Display> Caused<C, F> {
    /// A cause as people read it.
    fn text(&self, number: usize) -> String {
        let title = format!("{}: {}", self.title, counted(self.fields.len(), "field"));
        let mut text =
            format!("\ncause {number}  {}\n", format!("{title:<52} {}", rules::list(&self.rules)).trim_end());
        text.extend(self.lines.iter().map(|line| format!("         {line}\n")));
        text
    }

    fn json(&self) -> Json {
        Json::Object(vec![
            ("cause", self.title.as_str().into()),
            ("rules", Json::list(self.rules.iter().map(|rule| rule.name()))),
            ("fields", Json::list(self.fields.iter().map(F::to_string))),
            ("lines", Json::list(self.lines.iter().map(String::as_str))),
        ])
    }
}

impl Comparison<'_> {
    pub fn text(&self) -> String {
        self.report().text()
    }

    pub fn json(&self) -> Json {
        self.report().json()
    }

    fn report(&self) -> Report<'_, super::Cause, Field> {
        let told = self.known.as_ref().map(Known::told);
        Report { fields: &self.fields, total: self.total, given: self.given_line(), told }
    }

    /// Addresses follow from no box, and are no fields that differ; but they are said.
    fn given_line(&self) -> String {
        let given = Field::all(&self.a.records).into_iter().filter(|field| field.is_given());
        let other = given.filter(|field| !field.same(&self.a.records, &self.b.records));
        let show =
            |dump: &Dump, field: Field| field.value(&dump.records).map_or(String::new(), |value| value.to_string());
        let told: Vec<String> =
            other.map(|field| format!("{} {} -> {}", field.name(), show(self.a, field), show(self.b, field))).collect();
        match told.is_empty() {
            true => String::new(),
            false => format!("given    {}: as who wrote the headers gave them ({R6})\n", told.join(", ")),
        }
    }
}

impl Known<'_> {
    fn told(&self) -> Told<'_, super::Cause, Field> {
        let (input, from) = match &self.changes[..] {
            [] => ("the inputs are the same".to_string(), None),
            [one] => (one.short(), Some(one.of())),
            many => (format!("{} of the input", counted(many.len(), "difference")), None),
        };
        let damaged = self.sides.iter().filter_map(|side| Some((side.dump.name.as_str(), side.account.warning()?)));
        let names = self.elsewhere.iter().map(|(field, ..)| field.to_string()).collect();
        Told {
            input,
            input_lines: self.input_lines(),
            changes: self.changes.iter().map(Change::to_string).collect(),
            from,
            damaged: damaged.collect(),
            trees: &self.sides,
            causes: &self.causes,
            elsewhere: (self.elsewhere_lines(), "equal_elsewhere", names),
            rows: &self.rows,
            nouns: Nouns { one: "box", column: "box", all: "boxes" },
        }
    }

    fn input_lines(&self) -> String {
        let n = self.changes.len();
        if n == 0 {
            return "input    the same\n".into();
        }
        let only_words = self.changes.iter().all(|change| matches!(change, Change::Word { .. }));
        let head = match only_words {
            true => format!("{} {}", counted(n, "word"), verb(n, "differ")),
            false => counted(n, "difference"),
        };
        format!("input    {head}: {}\n", cut(&self.changes, SHOWN, Change::to_string).join(BELOW))
    }

    fn elsewhere_lines(&self) -> String {
        let n = self.elsewhere.len();
        if n == 0 {
            return String::new();
        }
        let shown = cut(&self.elsewhere, ELSEWHERE_SHOWN, |(field, a, b)| format!("{field} ({a} and {b})"));
        let fields = counted(n, "field");
        format!("\nnote     {fields} with EQUAL bytes for different places: {}\n", shown.join(", "))
    }
}

/// What is lost or gained, in one line.
fn lost_words(rows: &[Row], noun: &str) -> String {
    let count = |verdict: Verdict| rows.iter().filter(|row| row.verdict == verdict).count();
    let told = [
        (Verdict::Lost, "LOST in b"),
        (Verdict::Gained, "gained in b"),
        (Verdict::Missed, "found in neither"),
        (Verdict::Refused('a'), "where a's walk is refused"),
        (Verdict::Refused('b'), "where b's walk is refused"),
        (Verdict::OnlyIn('a'), "only in a"),
        (Verdict::OnlyIn('b'), "only in b"),
    ];
    let counts = told.map(|(verdict, what)| (count(verdict), what)).into_iter().filter(|(count, _)| *count > 0);
    let counts: Vec<String> = counts.map(|(count, what)| format!("{count} {what}")).collect();
    match counts.is_empty() {
        true => format!("a query at each {noun} finds it in both"),
        false => {
            format!("of {}, each asked for at its place, {}", counted(rows.len(), noun), counts.join(", "))
        }
    }
}

/// The boxes: all of a short list, else those that are not simply found in both.
fn table(rows: &[Row], noun: &str) -> String {
    let all = rows.len() <= ROWS_SHOWN;
    let told: Vec<&Row> = rows.iter().filter(|row| all || row.verdict != Verdict::Found).collect();
    if told.is_empty() {
        return String::new();
    }
    let axis = AXES[rows[0].axis];
    let in_record = format!("{axis} in b's record");
    let head =
        format!("\n{noun:>5}  {:<12} {in_record:<17} {:<19} {:<14} query at the box\n", "leaf", "stands for", "box is");
    let mut text = head;
    told.iter().take(ROWS_SHOWN).for_each(|row| text += &row_line(row));
    if told.len() > ROWS_SHOWN {
        text += &format!("       and {} more\n", told.len() - ROWS_SHOWN);
    }
    text
}

/// `within`, or what breaks them.
fn premises_words(side: &Side) -> String {
    let Some(broken) = side.broken else { return "within.".into() };
    let what = match broken {
        Broken::Size { place, corner, axis } => {
            let word = words(&side.trace.items[place])[3 * corner as usize + axis as usize];
            format!("{} {place} {corner}.{axis} is {}", side.noun, both(word))
        }
        other => other.to_string(),
    };
    format!("OUTSIDE ({what}): items may be missed.")
}

fn row_line(row: &Row) -> String {
    let leaf = |side: usize| row.leaves[side].map_or("-".to_string(), |leaf| leaf.to_string());
    let leaves = format!("{} -> {}", leaf(0), leaf(1));
    let verdict = verdict_words(row.verdict);
    let line = format!(
        "{:>5}  {leaves:<12} {:<17} {:<19} {:<14} {verdict} {}",
        row.place, row.record, row.stands_for, row.is, row.why
    );
    format!("{}\n", line.trim_end())
}

fn verdict_words(verdict: Verdict) -> String {
    match verdict {
        Verdict::Found => "found".into(),
        Verdict::Lost => "LOST".into(),
        Verdict::Gained => "gained".into(),
        Verdict::Missed => "missed in both".into(),
        Verdict::OnlyIn(side) => format!("only in {side}"),
        Verdict::Refused(side) => format!("the walk over {side} is refused"),
    }
}

fn row_json(row: &Row) -> Json {
    Json::Object(vec![
        ("box", row.place.into()),
        ("leaf_a", row.leaves[0].into()),
        ("leaf_b", row.leaves[1].into()),
        ("verdict", verdict_words(row.verdict).into()),
        ("why", row.why.as_str().into()),
    ])
}
