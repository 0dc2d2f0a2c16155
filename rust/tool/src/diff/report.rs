//! A comparison as people read it and as programs do: the verdict first, in a line that can be read aloud.

use super::causes::TOLD;
use super::{Caused, Change, Comparison, Known, Row, Side, Verdict};
use crate::boxes::words;
use crate::dump::Dump;
use crate::field::{Field, AXES};
use crate::json::Json;
use crate::number::{both, counted, verb};
use crate::rules::{self, Rule, Rule::*};
use bounds::premises::Broken;

/// Longer lists are cut, and say so.
const SHOWN: usize = 8;
const ROWS_SHOWN: usize = 40;

impl Comparison<'_> {
    pub fn text(&self) -> String {
        let mut text = format!("verdict  {}\n", self.verdict()) + &self.given_line();
        match &self.known {
            None => text += &self.records_line("without both inputs no cause can be named"),
            Some(known) => {
                text += &known.input_lines();
                text += &known.premises_line();
                text += &known.bytes_lines();
                text += &self.records_line(&known.causes_words());
                known.causes.iter().take(TOLD).zip(1..).for_each(|(cause, number)| text += &cause_lines(cause, number));
                text += &known.causes_left();
                text += &known.elsewhere_lines();
                if !self.fields.is_empty() || !known.changes.is_empty() {
                    text += &known.table();
                }
            }
        }
        text
    }

    /// What to say first.
    fn verdict(&self) -> String {
        let fields = match self.fields.len() {
            0 => "no field differs".to_string(),
            n => format!("{n} of {} fields {}", self.total, verb(n, "differ")),
        };
        let Some(known) = &self.known else { return fields };
        let input = match &known.changes[..] {
            [] => "the inputs are the same".to_string(),
            [one] => one.short(),
            many => format!("{} of the input", counted(many.len(), "difference")),
        };
        let damaged = known.sides.iter().filter(|side| !side.account.differing.is_empty());
        let damaged: String =
            damaged.map(|side| format!("; the bytes of {} are not its input's", side.dump.name)).collect();
        format!("{input}; {fields}{damaged}; {}", known.lost_words())
    }

    fn records_line(&self, end: &str) -> String {
        let n = self.fields.len();
        let shown: Vec<String> = self.fields.iter().take(4).map(|field| field.to_string()).collect();
        match n {
            0 => format!("records  all {} fields are the same\n", self.total),
            _ => format!(
                "records  {n} of {} fields {}, first {}; {end}\n",
                self.total,
                verb(n, "differ"),
                shown.join(", ")
            ),
        }
    }

    /// Addresses follow from no box, and are no fields that differ; but they are said.
    fn given_line(&self) -> String {
        let given = Field::all(&self.a.records).into_iter().filter(|field| field.is_given());
        let other = given.filter(|field| !field.same(&self.a.records, &self.b.records));
        let show =
            |dump: &Dump, field: Field| field.value(&dump.records).map_or(String::new(), |value| value.to_string());
        let told: Vec<String> =
            other.map(|field| format!("{} {} -> {}", field.name(), show(self.a, field), show(self.b, field))).collect();
        match told.is_empty() {
            true => String::new(),
            false => format!("given    {}: as who wrote the headers gave them ({R6})\n", told.join(", ")),
        }
    }

    pub fn json(&self) -> Json {
        let fields = Json::list(self.fields.iter().map(|field| field.to_string()));
        let mut members = vec![("verdict", self.verdict().into()), ("total", self.total.into()), ("fields", fields)];
        if let Some(known) = &self.known {
            members.push(("input", Json::list(known.changes.iter().map(Change::to_string))));
            members.push(("premises", Json::list(known.sides.iter().map(|side| premises_words(side)))));
            members.push(("causes", Json::list(known.causes.iter().map(cause_json))));
            members.push(("equal_elsewhere", Json::list(known.elsewhere.iter().map(|(field, ..)| field.to_string()))));
            members.push(("boxes", Json::list(known.rows.iter().map(row_json))));
        }
        Json::Object(members)
    }
}

impl Known<'_> {
    fn input_lines(&self) -> String {
        let n = self.changes.len();
        if n == 0 {
            return "input    the same\n".into();
        }
        let only_words = self.changes.iter().all(|change| matches!(change, Change::Word { .. }));
        let head = match only_words {
            true => format!("{} {}", counted(n, "word"), verb(n, "differ")),
            false => counted(n, "difference"),
        };
        let lines: Vec<String> = self.changes.iter().take(SHOWN).map(Change::to_string).collect();
        let more = if n > SHOWN { format!("\n         and {} more", n - SHOWN) } else { String::new() };
        format!("input    {head}: {}{more}\n", lines.join("\n         "))
    }

    fn premises_line(&self) -> String {
        let [a, b] = [0, 1].map(|side: usize| premises_words(&self.sides[side]));
        format!("premises a: {a}   b: {b}\n")
    }

    /// A dump whose bytes are another input's, or damaged.
    fn bytes_lines(&self) -> String {
        let warning = |side: &Side| side.account.warning(side.dump);
        self.sides.iter().filter_map(warning).map(|warning| format!("bytes    {warning}\n")).collect()
    }

    fn causes_words(&self) -> String {
        let causes = counted(self.causes.len(), "cause");
        match &self.changes[..] {
            [one] if !self.causes.is_empty() => format!("{causes}, from {}", one.of()),
            _ => causes,
        }
    }

    fn causes_left(&self) -> String {
        let left = self.causes.get(TOLD..).unwrap_or_default();
        let fields: usize = left.iter().map(|cause| cause.fields.len()).sum();
        match left.len() {
            0 => String::new(),
            n => format!("\n         and {} more, with {}\n", counted(n, "cause"), counted(fields, "field")),
        }
    }

    fn lost_words(&self) -> String {
        lost_words(&self.rows, "box")
    }
    fn elsewhere_lines(&self) -> String {
        let n = self.elsewhere.len();
        if n == 0 {
            return String::new();
        }
        let shown: Vec<String> =
            self.elsewhere.iter().take(4).map(|(field, a, b)| format!("{field} ({a} and {b})")).collect();
        let more = if n > 4 { format!(", and {} more", n - 4) } else { String::new() };
        format!(
            "\nnote     {} with EQUAL bytes for different places: {}{more}\n",
            counted(n, "field"),
            shown.join(", ")
        )
    }

    fn table(&self) -> String {
        table(&self.rows, "box")
    }
}

/// What is lost or gained, in one line.
pub fn lost_words(rows: &[Row], noun: &str) -> String {
    let count = |verdict: Verdict| rows.iter().filter(|row| row.verdict == verdict).count();
    let told = [
        (Verdict::Lost, "LOST in b"),
        (Verdict::Gained, "gained in b"),
        (Verdict::Missed, "found in neither"),
        (Verdict::Refused('a'), "where a's walk is refused"),
        (Verdict::Refused('b'), "where b's walk is refused"),
        (Verdict::OnlyIn('a'), "only in a"),
        (Verdict::OnlyIn('b'), "only in b"),
    ];
    let counts = told.map(|(verdict, what)| (count(verdict), what)).into_iter().filter(|(count, _)| *count > 0);
    let counts: Vec<String> = counts.map(|(count, what)| format!("{count} {what}")).collect();
    match counts.is_empty() {
        true => format!("a query at each {noun} finds it in both"),
        false => {
            format!("of {}, each asked for at its place, {}", counted(rows.len(), noun), counts.join(", "))
        }
    }
}

/// The boxes: all of a short list, else those that are not simply found in both.
pub fn table(rows: &[Row], noun: &str) -> String {
    let all = rows.len() <= ROWS_SHOWN;
    let told: Vec<&Row> = rows.iter().filter(|row| all || row.verdict != Verdict::Found).collect();
    if told.is_empty() {
        return String::new();
    }
    let axis = AXES[rows[0].axis];
    let in_record = format!("{axis} in b's record");
    let head =
        format!("\n{noun:>5}  {:<12} {in_record:<17} {:<19} {:<14} query at the box\n", "leaf", "stands for", "box is");
    let mut text = head;
    told.iter().take(ROWS_SHOWN).for_each(|row| text += &row_line(row));
    if told.len() > ROWS_SHOWN {
        text += &format!("       and {} more\n", told.len() - ROWS_SHOWN);
    }
    text
}

/// `within`, or what breaks them.
pub fn premises_words(side: &Side) -> String {
    let Some(broken) = side.broken else { return "within.".into() };
    let what = match broken {
        Broken::Size { place, corner, axis } => {
            let word = words(&side.trace.items[place])[3 * corner as usize + axis as usize];
            format!("{} {place} {corner}.{axis} is {}", side.noun, both(word))
        }
        other => other.to_string(),
    };
    format!("OUTSIDE ({what}): items may be missed.")
}

fn cause_lines(cause: &Caused, number: usize) -> String {
    cause_text(&cause.title, cause.fields.len(), &cause.rules, &cause.lines, number)
}

/// A cause as people read it.
pub fn cause_text(title: &str, fields: usize, rules: &[Rule], lines: &[String], number: usize) -> String {
    let title = format!("{title}: {}", counted(fields, "field"));
    let mut text = format!("\ncause {number}  {}\n", format!("{title:<52} {}", rules::list(rules)).trim_end());
    for line in lines {
        text += &format!("         {line}\n");
    }
    text
}

fn row_line(row: &Row) -> String {
    let leaf = |side: usize| row.leaves[side].map_or("-".to_string(), |leaf| leaf.to_string());
    let leaves = format!("{} -> {}", leaf(0), leaf(1));
    let verdict = verdict_words(row.verdict);
    let line = format!(
        "{:>5}  {leaves:<12} {:<17} {:<19} {:<14} {verdict} {}",
        row.place, row.record, row.stands_for, row.is, row.why
    );
    format!("{}\n", line.trim_end())
}

pub fn verdict_words(verdict: Verdict) -> String {
    match verdict {
        Verdict::Found => "found".into(),
        Verdict::Lost => "LOST".into(),
        Verdict::Gained => "gained".into(),
        Verdict::Missed => "missed in both".into(),
        Verdict::OnlyIn(side) => format!("only in {side}"),
        Verdict::Refused(side) => format!("the walk over {side} is refused"),
    }
}

fn cause_json(cause: &Caused) -> Json {
    Json::Object(vec![
        ("cause", cause.title.as_str().into()),
        ("rules", Json::list(cause.rules.iter().map(|rule| rule.name()))),
        ("fields", Json::list(cause.fields.iter().map(|field| field.to_string()))),
        ("lines", Json::list(cause.lines.iter().map(String::as_str))),
    ])
}

pub fn row_json(row: &Row) -> Json {
    Json::Object(vec![
        ("box", row.place.into()),
        ("leaf_a", row.leaves[0].into()),
        ("leaf_b", row.leaves[1].into()),
        ("verdict", verdict_words(row.verdict).into()),
        ("why", row.why.as_str().into()),
    ])
}
