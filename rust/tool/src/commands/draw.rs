//! `bounds draw`: a dump as a picture.

use crate::account::{account, traced};
use crate::cli::{corner, Answer, Command, Line};
use crate::draw::mesh::{draw, Drawn};
use crate::draw::{Picture, Query};
use crate::dump::Opened;
use crate::failure::Failure;
use crate::json::Json;
use crate::mesh::{self, MeshFolder};
use crate::number::counted;
use crate::output::write_file;

pub fn command() -> Command {
    Command {
        name: "draw",
        does: "draws a dump: the view from above, and a lane a node on each axis",
        options: &["--query", "-o", "--threshold", "--text", "--records", "--kind", "--margin"],
        words: (1, 1),
        run,
        help: HELP,
    }
}

const HELP: &str = "bounds draw DUMP [--query MIN MAX] [-o FILE.svg] [--json]

A picture in SVG, to FILE.svg or standard output. A row a node: the floats of its boxes outlined, what its record stands
for filled in the colour of its range, red where the two differ, dashed where the record is inside out. Below it the view
from above. With --query the query is a band, and each row says whether its record was read and met.

Of a prepared mesh the view from above comes first: its polygons where they stand, in the colours of their ranges or, without
a tree, of their materials; with --query those that are handed out, those of them whose boxes meet, and in red what meets
and is missed.

examples
  bounds draw terrain --query 110,-190,-50 120,-180,50 -o terrain.svg
  bounds draw six -o six.svg
  bounds draw six --query 6,0,0 7,1,1 -o six.svg
";

fn run(line: &Line) -> Result<Answer, Failure> {
    let query = match (line.option("--query"), line.option("--query-max")) {
        (Some(min), Some(max)) => Some(Query { min: corner(min)?, max: corner(max)? }),
        _ => None,
    };
    let dump = match Opened::load(&line.words[0], line.loading()?)? {
        Opened::Boxes(dump) => dump,
        Opened::Mesh(folder) => return mesh_answer(&folder, query, line),
    };
    let account = account(&dump)?;
    let trace = traced(&dump, &account)?;
    let picture = Picture::of(&dump, &trace, &account, query);
    let svg = picture.svg();
    if let Some(path) = line.option("-o") {
        write_file(path, svg.as_bytes())?;
    }
    Ok(Answer::of(match (line.json(), line.option("-o")) {
        (true, path) => format!("{}\n", json(&picture, path, &svg)),
        (false, Some(path)) => format!("drawn to {path}: {} of {} nodes\n", picture.rows(), trace.nodes.len()),
        (false, None) => svg,
    }))
}

fn mesh_answer(folder: &MeshFolder, query: Option<Query>, line: &Line) -> Result<Answer, Failure> {
    let Drawn { svg, polygons, rows, nodes } = draw(folder, &mesh::account(folder)?, query)?;
    if let Some(path) = line.option("-o") {
        write_file(path, svg.as_bytes())?;
    }
    let drawn = format!("{}, {rows} of {}", counted(polygons, "polygon"), counted(nodes, "node"));
    Ok(Answer::of(match (line.json(), line.option("-o")) {
        (true, path) => {
            let json = Json::Object(vec![
                ("out", path.into()),
                ("polygons", polygons.into()),
                ("rows", rows.into()),
                ("nodes", nodes.into()),
                ("svg", if path.is_some() { Json::Null } else { svg.as_str().into() }),
            ]);
            format!("{json}\n")
        }
        (false, Some(path)) => format!("drawn to {path}: {drawn}\n"),
        (false, None) => svg,
    }))
}

fn json(picture: &Picture, path: Option<&str>, svg: &str) -> Json {
    Json::Object(vec![
        ("out", path.into()),
        ("rows", picture.rows().into()),
        ("nodes", picture.trace.nodes.len().into()),
        ("svg", if path.is_some() { Json::Null } else { svg.into() }),
    ])
}
