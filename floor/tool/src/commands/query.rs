//! `bounds query`: which boxes a query meets, by a dump's records.

mod mesh;
mod world;

use crate::boxes;
use crate::cli::{corner, Answer, Command, Line};
use crate::dump::Opened;
use crate::explain::query::point_words;
use crate::failure::Failure;
use crate::json::Json;
use crate::mesh::rounded::Query;
use crate::queried::{queried, Handed, Queried};
use crate::world::folder::is_world;
use bounds::Vec3;

pub fn command() -> Command {
    Command {
        name: "query",
        does: "walks over a dump's records and says which polygons or boxes meet a query",
        forms: &["DUMP MIN MAX", "DUMP --all FILE"],
        words: (1, 3),
        options: &["--all", "--threshold", "--text", "--records", "--kind", "--margin", "--up", "--json"],
        run,
        help: HELP,
        examples: EXAMPLES,
    }
}

const HELP: &str = "Walks over the records of DUMP with the query from MIN to MAX, each three numbers with commas, or with each query of
FILE, six numbers a line. Prints the boxes that are handed out, by their places in the list, whether each meets the query
as floats, and the records read. Where the input is at hand, boxes that meet and are not handed out are named: MISSED.

Of a mesh prepared as kind 8 these are polygons, by their numbers among the prepared ones and, behind `given`, among those
of the input; what is compared as floats is a polygon's box. Of an .obj the query is in the file's numbers, with z up. A vertex is
put about the centre and back, which rounds: then the query is widened by the most that a vertex or a box was moved on each axis,
that is said, and whether a box meets is judged by the file's own floats and the query as asked.

Of a split world (`bounds prepare --split`) the tree over the children leads to those that are asked; where 5 or fewer have none, each
is. A polygon is named by its child, its numbers there, and its line in the file of the world. Every child's polygons are looked
through for what is missed.
";

const EXAMPLES: &str = "  bounds query terrain 10,20,-5 11,21,5
  bounds query six 6,0,0 7,1,1
  bounds query six -inf,0,0 inf,1,1
  bounds query six --all queries.txt
  bounds query world 10,20,-5 11,21,5
";

fn run(line: &Line) -> Result<Answer, Failure> {
    if is_world(&line.words[0]) {
        return world::answer(line);
    }
    let dump = match Opened::load(&line.words[0], line.loading()?)? {
        Opened::Boxes(dump) => dump,
        Opened::Mesh(folder) => return mesh::answer(&folder, line),
    };
    let answers = queries(line)?.into_iter().map(|query| queried(&dump, None, query, |_| None));
    let answers = answers.collect::<Result<Vec<_>, _>>()?;
    Ok(said(
        line,
        &answers,
        |answer| text(answer, &line.words[0]),
        |answer| answer.json("items", item_json, place_json),
    ))
}

fn queries(line: &Line) -> Result<Vec<Query>, Failure> {
    match (line.option("--all"), &line.words[1..]) {
        (Some(path), []) => {
            let query =
                |(_, [a, b, c, d, e, f]): (usize, [f32; 6])| Query { min: Vec3::new(a, b, c), max: Vec3::new(d, e, f) };
            Ok(boxes::queries(path)?.into_iter().map(query).collect())
        }
        (None, [min, max]) => Ok(vec![Query { min: corner(min)?, max: corner(max)? }]),
        _ => Err(Failure::Usage("expected two corners, MIN MAX, or --all FILE".into())),
    }
}

/// Answers as they are asked for.
fn said<T>(line: &Line, answers: &[T], text: impl Fn(&T) -> String, json: impl Fn(&T) -> Json) -> Answer {
    Answer::of(match line.json() {
        true => format!("{}\n", Json::list(answers.iter().map(json))),
        false => answers.iter().map(text).collect::<Vec<_>>().join("\n"),
    })
}

fn text(answer: &Queried, dump: &str) -> String {
    let (min, max) = (point_words(answer.asked.min), point_words(answer.asked.max));
    let how = |meets: Option<bool>| match meets {
        Some(true) => "meets",
        Some(false) => "handed out, does not meet as floats",
        None => "handed out; whether it meets is not known without boxes.bin",
    };
    let see = |place: usize| format!("see bounds explain {dump} query {min} {max} item {place}");
    answer.text(
        |&Handed { place, meets, .. }| format!("box {place:<6} {}", how(meets)),
        |&Handed { place, .. }| format!("box {place:<6} MISSED: meets as floats, not handed out; {}", see(place)),
    )
}

fn item_json(item: &Handed) -> Json {
    Json::Object(vec![("place", item.place.into()), ("meets", item.meets.into())])
}

fn place_json(item: &Handed) -> Json {
    item.place.into()
}
