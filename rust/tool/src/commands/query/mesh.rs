//! `bounds query` over a prepared mesh of kind 8.

use super::{point_words, queries};
use crate::cli::{Answer, Line};
use crate::dump::Dump;
use crate::explain::query::span_words;
use crate::failure::Failure;
use crate::json::Json;
use crate::mesh::MeshFolder;
use crate::number::counted;
use crate::trace::walk;
use bounds::Vec3;

/// A polygon that was handed out, or should have been.
struct Handed {
    /// Its number among the prepared polygons, where it has one.
    position: Option<usize>,
    /// Its number among the given ones.
    place: usize,
    /// Where the input is at hand.
    meets: Option<bool>,
}

/// A query's answer.
struct Queried {
    min: Vec3,
    max: Vec3,
    span: String,
    handed: Vec<Handed>,
    missed: Vec<Handed>,
    reads: usize,
    known: bool,
}

/// Walks over the tree's records.
pub fn answer(folder: &MeshFolder, line: &Line) -> Result<Answer, Failure> {
    let Some(tree) = folder.tree()? else {
        let kind = folder.parts.kind;
        let why = if kind == 8 {
            "has no polygon, and so no tree".into()
        } else {
            format!("is of kind {kind}, which has no tree")
        };
        return Err(Failure::Usage(format!("{} {why}: expected a mesh prepared with --kind 8", folder.name)));
    };
    let asked = queries(line)?;
    let answers = asked.iter().map(|&(min, max)| queried(&tree, min, max)).collect::<Result<Vec<_>, _>>()?;
    if line.json() {
        return Ok(Answer::of(format!("{}\n", Json::list(answers.iter().map(Queried::json)))));
    }
    let text = answers.iter().map(|answer| answer.text(folder)).collect::<Vec<_>>().join("\n");
    Ok(Answer::of(text))
}

fn queried(tree: &Dump, min: Vec3, max: Vec3) -> Result<Queried, Failure> {
    let found = tree.walk(min, max)?;
    let items = tree.boxes.as_ref().map(|boxes| &boxes.items);
    let meets = |place: usize| items.and_then(|items| Some(items.get(place)?.meets(min, max)));
    let handed: Vec<Handed> = found
        .positions
        .iter()
        .filter_map(|&position| {
            let place = tree.place(position as usize)?;
            Some(Handed { position: Some(position as usize), place, meets: meets(place) })
        })
        .collect();
    let mut seen = vec![false; tree.entries];
    handed.iter().filter_map(|handed| seen.get_mut(handed.place).map(|at| *at = true)).for_each(drop);
    let missed = (0..tree.entries).filter(|&place| meets(place) == Some(true) && !seen[place]);
    let position = |place: usize| tree.records.order.iter().position(|&at| at as usize == place);
    let missed = missed.map(|place| Handed { position: position(place), place, meets: Some(true) }).collect();
    let span = span_words(&walk::span(tree, min, max));
    Ok(Queried { min, max, span, handed, missed, reads: found.reads, known: items.is_some() })
}

impl Handed {
    /// `polygon 812 (given 45)`.
    fn name(&self) -> String {
        let position = self.position.map_or("-".into(), |position| position.to_string());
        format!("polygon {:<16}", format!("{position} (given {})", self.place))
    }

    fn json(&self) -> Json {
        Json::Object(vec![
            ("polygon", self.position.into()),
            ("given", self.place.into()),
            ("meets", self.meets.into()),
        ])
    }
}

impl Queried {
    fn text(&self, folder: &MeshFolder) -> String {
        let (min, max) = (point_words(self.min), point_words(self.max));
        let mut text = format!("query {min} to {max}\n  in records {}\n", self.span);
        for handed in &self.handed {
            let how = match handed.meets {
                Some(true) => "its box meets",
                Some(false) => "handed out, its box does not meet as floats",
                None if self.known => "handed out, but order.bin leads to no polygon of the input",
                None => "handed out; whether its box meets is not known without mesh.txt",
            };
            text += &format!("  {} {how}\n", handed.name());
        }
        for missed in &self.missed {
            let see = |position| format!("; see bounds explain {} query {min} {max} item {position}", folder.name);
            let see = missed.position.map_or(String::new(), see);
            text += &format!("  {} MISSED: its box meets as floats, not handed out{see}\n", missed.name());
        }
        let (handed, reads) = (self.handed.len(), counted(self.reads, "record"));
        let known = match self.known {
            true => {
                let meeting = self.handed.iter().filter(|handed| handed.meets == Some(true)).count();
                format!(", {meeting} meet, {} missed", self.missed.len())
            }
            false => String::new(),
        };
        text + &format!("  {handed} handed out{known}; {reads} read\n")
    }

    fn json(&self) -> Json {
        let point = |v: Vec3| Json::list([v.x, v.y, v.z].map(|x| Json::float(x.to_bits())));
        Json::Object(vec![
            ("min", point(self.min)),
            ("max", point(self.max)),
            ("polygons", Json::list(self.handed.iter().map(Handed::json))),
            ("missed", Json::list(self.missed.iter().map(Handed::json))),
            ("reads", self.reads.into()),
        ])
    }
}
