//! `bounds query`: which boxes a query meets, by a dump's records.

mod mesh;

use crate::boxes;
use crate::cli::{corner, Answer, Command, Line};
use crate::dump::{Dump, Opened};
use crate::explain::query::span_words;
use crate::failure::Failure;
use crate::json::Json;
use crate::number::{counted, float};
use crate::trace::walk;
use bounds::Vec3;

pub fn command() -> Command {
    Command {
        name: "query",
        does: "walks over a dump's records and says which polygons or boxes meet a query",
        options: &["--all", "--threshold", "--text", "--records", "--kind", "--margin"],
        words: (1, 3),
        run,
        help: HELP,
    }
}

const HELP: &str = "bounds query DUMP MIN MAX [--json]
       bounds query DUMP --all FILE [--json]

Walks over the records of DUMP with the query from MIN to MAX, each three numbers with commas, or with each query of
FILE, six numbers a line. Prints the boxes that are handed out, by their places in the list, whether each meets the query
as floats, and the records read. Where the input is at hand, boxes that meet and are not handed out are named: MISSED.

Of a mesh prepared as kind 8 these are polygons, by their numbers among the prepared ones and, behind `given`, among those
of the input; what is compared as floats is a polygon's box.

examples
  bounds query terrain 10,20,-5 11,21,5
  bounds query six 6,0,0 7,1,1
  bounds query six -inf,0,0 inf,1,1
  bounds query six --all queries.txt
";

/// A query's answer.
struct Queried {
    min: Vec3,
    max: Vec3,
    span: String,
    /// In the order of the leaves: the place, and whether its box meets, where the input is known.
    items: Vec<(usize, Option<bool>)>,
    missed: Vec<usize>,
    reads: usize,
    /// Whether the input is at hand.
    known: bool,
}

fn run(line: &Line) -> Result<Answer, Failure> {
    let dump = match Opened::load(&line.words[0], line.loading()?)? {
        Opened::Boxes(dump) => dump,
        Opened::Mesh(folder) => return mesh::answer(&folder, line),
    };
    let queries = queries(line)?;
    let answers = queries.iter().map(|&(min, max)| queried(&dump, min, max)).collect::<Result<Vec<_>, _>>()?;
    if line.json() {
        let list = Json::list(answers.iter().map(Queried::json));
        return Ok(Answer::of(format!("{list}\n")));
    }
    Ok(Answer::of(answers.iter().map(|answer| answer.text(&line.words[0])).collect::<Vec<_>>().join("\n")))
}

fn queries(line: &Line) -> Result<Vec<(Vec3, Vec3)>, Failure> {
    match (line.option("--all"), &line.words[1..]) {
        (Some(path), []) => {
            let pair = |(_, [a, b, c, d, e, f]): (usize, [f32; 6])| (Vec3::new(a, b, c), Vec3::new(d, e, f));
            Ok(boxes::queries(path)?.into_iter().map(pair).collect())
        }
        (None, [min, max]) => Ok(vec![(corner(min)?, corner(max)?)]),
        _ => Err(Failure::Usage("expected two corners, MIN MAX, or --all FILE".into())),
    }
}

fn queried(dump: &Dump, min: Vec3, max: Vec3) -> Result<Queried, Failure> {
    let found = dump.walk(min, max)?;
    let items = dump.boxes.as_ref().map(|boxes| &boxes.items);
    let meets = |place: usize| items.and_then(|items| Some(items.get(place)?.meets(min, max)));
    let places: Vec<usize> = found.positions.iter().filter_map(|&position| dump.place(position as usize)).collect();
    let mut handed = vec![false; dump.entries];
    for &place in places.iter().filter(|&&place| place < dump.entries) {
        handed[place] = true;
    }
    let present = |place: &usize| items.is_some_and(|items| items[*place].present != 0);
    let missed = (0..dump.entries).filter(|place| present(place) && meets(*place) == Some(true) && !handed[*place]);
    Ok(Queried {
        min,
        max,
        span: span_words(&walk::span(dump, min, max)),
        missed: missed.collect(),
        items: places.into_iter().map(|place| (place, meets(place))).collect(),
        reads: found.reads,
        known: items.is_some(),
    })
}

/// `6.0,0.0,0.0`.
pub fn point_words(v: Vec3) -> String {
    [v.x, v.y, v.z].map(float).join(",")
}

impl Queried {
    fn text(&self, dump: &str) -> String {
        let (min, max) = (point_words(self.min), point_words(self.max));
        let mut text = format!("query {min} to {max}\n  in records {}\n", self.span);
        for (place, meets) in &self.items {
            let how = match meets {
                Some(true) => "meets",
                Some(false) => "handed out, does not meet as floats",
                None => "handed out; whether it meets is not known without boxes.bin",
            };
            text += &format!("  box {place:<6} {how}\n");
        }
        for place in &self.missed {
            text += &format!("  box {place:<6} MISSED: meets as floats, not handed out; see bounds explain {dump} query {min} {max} item {place}\n");
        }
        let (handed, reads) = (self.items.len(), counted(self.reads, "record"));
        let known = match self.known {
            true => format!(", {} meet, {} missed", self.meeting(), self.missed.len()),
            false => String::new(),
        };
        text + &format!("  {handed} handed out{known}; {reads} read\n")
    }

    fn meeting(&self) -> usize {
        self.items.iter().filter(|(_, meets)| *meets == Some(true)).count()
    }

    fn json(&self) -> Json {
        let point = |v: Vec3| Json::list([v.x, v.y, v.z].map(|x| Json::float(x.to_bits())));
        let item = |&(place, meets): &(usize, Option<bool>)| {
            Json::Object(vec![("place", place.into()), ("meets", meets.into())])
        };
        Json::Object(vec![
            ("min", point(self.min)),
            ("max", point(self.max)),
            ("items", Json::list(self.items.iter().map(item))),
            ("missed", Json::list(self.missed.iter().copied())),
            ("reads", self.reads.into()),
        ])
    }
}
