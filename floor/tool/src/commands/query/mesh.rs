//! `bounds query` over a prepared mesh of kind 8.

use super::{queries, said};
use crate::cli::{Answer, Line};
use crate::dump::Dump;
use crate::explain::query::point_words;
use crate::failure::Failure;
use crate::json::Json;
use crate::mesh::rounded::{Query, Rounded};
use crate::mesh::state::corners;
use crate::mesh::MeshFolder;
use crate::queried::{self, Handed, Queried};

/// Walks over the tree's records.
pub fn answer(folder: &MeshFolder, line: &Line) -> Result<Answer, Failure> {
    let Some(tree) = folder.tree()? else {
        let kind = folder.parts.kind;
        let why = if kind == 8 {
            "has no polygon, and so no tree".into()
        } else {
            format!("is of kind {kind}, which has no tree")
        };
        return Err(Failure::Usage(format!("{} {why}: expected a mesh prepared with --kind 8", folder.name)));
    };
    let asked = queries(line)?;
    let rounded = folder.mesh.as_ref().map(Rounded::of).transpose()?.flatten();
    let answers = asked.into_iter().map(|asked| queried(folder, &tree, rounded.as_ref(), asked));
    let answers = answers.collect::<Result<Vec<_>, _>>()?;
    Ok(said(
        line,
        &answers,
        |answer| text(answer, folder),
        |answer| answer.json("polygons", Handed::json, Handed::json),
    ))
}

/// A query over a mesh' tree, each polygon with where an .obj has it.
pub fn queried(folder: &MeshFolder, tree: &Dump, rounded: Option<&Rounded>, asked: Query) -> Result<Queried, Failure> {
    queried::queried(tree, rounded, asked, |place| {
        let mesh = folder.mesh.as_ref()?;
        mesh.origin.source_polygon(place, &corners(mesh.geometry.polygons.get(place)?))
    })
}

/// What is said of a polygon that was handed out.
pub fn how(meets: Option<bool>, known: bool) -> &'static str {
    match meets {
        Some(true) => "its box meets",
        Some(false) => "handed out, its box does not meet as floats",
        None if known => "handed out, but order.bin leads to no polygon of the input",
        None => "handed out; whether its box meets is not known without mesh.txt",
    }
}

impl Handed {
    /// `polygon 812 (given 45)`; of an .obj `polygon 812 (given 45: terrain.obj line 1702, v 590 591 632)`.
    pub fn name(&self) -> String {
        let position = self.position.map_or("-".into(), |position| position.to_string());
        let source = self.source.as_ref().map_or(String::new(), |source| format!(": {source}"));
        format!("polygon {:<16}", format!("{position} (given {}{source})", self.place))
    }

    fn json(&self) -> Json {
        let mut members =
            vec![("polygon", self.position.into()), ("given", self.place.into()), ("meets", self.meets.into())];
        members.extend(self.source.as_ref().map(|source| ("source", source.as_str().into())));
        Json::Object(members)
    }
}

fn text(answer: &Queried, folder: &MeshFolder) -> String {
    let (min, max) = (point_words(answer.asked.min), point_words(answer.asked.max));
    let see = |position| format!("; see bounds explain {} query {min} {max} item {position}", folder.name);
    answer.text(
        |one| format!("{} {}", one.name(), how(one.meets, answer.known)),
        |one| {
            let see = one.position.map_or(String::new(), see);
            format!("{} MISSED: its box meets as floats, not handed out{see}", one.name())
        },
    )
}
