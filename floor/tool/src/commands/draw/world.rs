//! `bounds draw` of a split world.

use crate::cli::{Answer, Line};
use crate::draw::world::draw;
use crate::draw::{Query, View};
use crate::failure::Failure;
use crate::json::Json;
use crate::number::counted;
use crate::output::write_file;
use crate::progress::counting;
use crate::world::folder::WorldFolder;

pub fn answer(query: Option<Query>, view: View, line: &Line) -> Result<Answer, Failure> {
    let target = line.file()?;
    let world = WorldFolder::read(&line.words[0])?;
    let (children, polygons) = (world.children(), world.places.len());
    let svg = counting("reading children", children, |done| draw(&world, query, view, done))?;
    if let Some(target) = &target {
        write_file(target, svg.as_bytes())?;
    }
    let path = target.map(|target| target.path);
    Ok(Answer::of(match (line.json(), path) {
        (true, path) => {
            let json = Json::Object(vec![
                ("out", path.into()),
                ("children", children.into()),
                ("polygons", polygons.into()),
                ("svg", if path.is_some() { Json::Null } else { svg.as_str().into() }),
            ]);
            format!("{json}\n")
        }
        (false, Some(path)) => {
            format!("drawn to {path}: {} of {}\n", counted(polygons, "polygon"), counted(children, "child"))
        }
        (false, None) => svg,
    }))
}
