//! A query walked over a tree's records, and judged by the floats of its input.

use crate::dump::Dump;
use crate::explain::query::{point_words, rounded_words, span_words};
use crate::failure::Failure;
use crate::json::Json;
use crate::mesh::rounded::{Query, Rounded};
use crate::number::counted;

/// A box or a polygon that was handed out, or should have been.
pub struct Handed {
    /// Its position among the leaves, where it has one.
    pub position: Option<usize>,
    /// Its place in the list.
    pub place: usize,
    /// Of a polygon its line and its vertices' numbers in an .obj.
    pub source: Option<String>,
    /// Whether its box meets as floats, where the input is at hand.
    pub meets: Option<bool>,
}

/// What was walked with, where that is another query, and by how much it is wider.
pub type Widened = Option<(Query, [f64; 3])>;

/// A query's answer.
pub struct Queried {
    pub asked: Query,
    pub widened: Widened,
    span: String,
    /// In the order of the leaves.
    pub handed: Vec<Handed>,
    pub missed: Vec<Handed>,
    pub reads: usize,
    /// Whether the input is at hand.
    pub known: bool,
}

/// Where centring rounded a file's numbers, the query is widened by that, and what it meets is judged by the file's.
pub fn queried(
    dump: &Dump,
    rounded: Option<&Rounded>,
    asked: Query,
    source: impl Fn(usize) -> Option<String>,
) -> Result<Queried, Failure> {
    let widened = rounded.map(|rounded| (rounded.widened(asked), rounded.by)).filter(|(query, _)| *query != asked);
    let walked = widened.map_or(asked, |(query, _)| query);
    let found = dump.walk(walked.min, walked.max)?;
    let items = rounded.map(|rounded| &rounded.boxes).or(dump.boxes.as_ref().map(|boxes| &boxes.items));
    let meets = |place: usize| items.and_then(|items| Some(items.get(place)?.meets(asked.min, asked.max)));
    let one =
        |position: Option<usize>, place: usize| Handed { position, place, source: source(place), meets: meets(place) };
    let positions = found.positions.iter().map(|&position| position as usize);
    let handed: Vec<Handed> =
        positions.filter_map(|position| Some(one(Some(position), dump.place(position)?))).collect();
    let mut seen = vec![false; dump.entries];
    for handed in handed.iter().filter(|handed| handed.place < dump.entries) {
        seen[handed.place] = true;
    }
    let present = |place: usize| items.is_some_and(|items| items[place].present != 0);
    let missed = (0..dump.entries).filter(|&place| present(place) && meets(place) == Some(true) && !seen[place]);
    let position = |place: usize| dump.records.order.iter().position(|&at| at as usize == place);
    let missed = missed.map(|place| one(position(place), place)).collect();
    let span = span_words(&dump.plain_walk(walked.min, walked.max).span());
    Ok(Queried { asked, widened, span, handed, missed, reads: found.reads, known: items.is_some() })
}

/// The query as it was asked, and as it was walked where that is another.
pub fn heading(Query { min, max }: Query, widened: &Widened) -> String {
    let widened = widened.as_ref().map_or(String::new(), |(query, by)| {
        let (min, max) = (point_words(query.min), point_words(query.max));
        format!("  widened to {min} to {max}: {}\n", rounded_words(by))
    });
    format!("query {} to {}\n{widened}", point_words(min), point_words(max))
}

impl Queried {
    /// How many of those that were handed out meet as floats.
    pub fn meeting(&self) -> usize {
        self.handed.iter().filter(|handed| handed.meets == Some(true)).count()
    }

    /// A line for each that was handed out, and for each that was missed.
    pub fn text(&self, handed: impl Fn(&Handed) -> String, missed: impl Fn(&Handed) -> String) -> String {
        let mut text = heading(self.asked, &self.widened) + &format!("  in records {}\n", self.span);
        text.extend(self.handed.iter().map(|one| format!("  {}\n", handed(one))));
        text.extend(self.missed.iter().map(|one| format!("  {}\n", missed(one))));
        let known = match self.known {
            true => format!(", {} meet, {} missed", self.meeting(), self.missed.len()),
            false => String::new(),
        };
        text + &format!("  {} handed out{known}; {} read\n", self.handed.len(), counted(self.reads, "record"))
    }

    /// What is handed out has a name of its own.
    pub fn json(&self, name: &'static str, handed: fn(&Handed) -> Json, missed: fn(&Handed) -> Json) -> Json {
        let mut members = vec![
            ("min", Json::point(self.asked.min)),
            ("max", Json::point(self.asked.max)),
            (name, Json::list(self.handed.iter().map(handed))),
            ("missed", Json::list(self.missed.iter().map(missed))),
            ("reads", self.reads.into()),
        ];
        members.extend(self.widened.as_ref().map(|(query, by)| {
            let (min, max) = (Json::point(query.min), Json::point(query.max));
            let by = Json::list(by.map(|by| format!("{by:?}")));
            ("widened", Json::Object(vec![("min", min), ("max", max), ("by", by)]))
        }));
        Json::Object(members)
    }
}
