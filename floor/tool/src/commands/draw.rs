//! `bounds draw`: a dump as a picture.

mod world;

use crate::account::{account, traced};
use crate::boxes::read_file;
use crate::cli::{corner, Answer, Command, Line};
use crate::draw::mesh::{draw, Colour, Drawn, Look};
use crate::draw::{Picture, Query, View};
use crate::dump::{Loading, Opened};
use crate::failure::Failure;
use crate::json::Json;
use crate::mesh::{self, form, Form, Given, MeshFolder, Up};
use crate::number::counted;
use crate::output::write_file;
use crate::world::folder::is_world;
use std::path::Path;

pub fn command() -> Command {
    Command {
        name: "draw",
        does: "draws a dump: the view from above, and a lane a node on each axis",
        forms: &["DUMP"],
        words: (1, 1),
        options: &[
            "--query",
            "--colour",
            "--out",
            "--threshold",
            "--text",
            "--records",
            "--kind",
            "--margin",
            "--up",
            "--force",
            "--json",
        ],
        run,
        help: HELP,
        examples: EXAMPLES,
    }
}

const HELP: &str = "A picture in SVG, to FILE.svg or standard output. A row a node: the floats of its boxes outlined, what its record stands
for filled in the colour of its range, violet where the two differ, dashed where the record is inside out. Below it the view
from above. With --query the query is a band, and each row says whether its record was read and met. Red is what meets the
query and is missed, and nothing else.

Of a prepared mesh the view from above comes first: its polygons where they stand, in the colours of their ranges or
materials, whose names are below; with --query those that are handed out, those of them whose boxes meet, and in red what
meets and is missed; a query that centring rounds is widened as `bounds query` widens it, and the picture says so. A material
has the colour that its name chooses, the same in every picture.

With --up y the view is along y, for a dump whose space has y up; an .obj is turned as `bounds prepare` turns it.
";

const EXAMPLES: &str = "  bounds draw terrain --query 110,-190,-50 120,-180,50 -o terrain.svg
  bounds draw terrain --colour material -o materials.svg
  bounds draw six -o six.svg
  bounds draw six --query 6,0,0 7,1,1 -o six.svg
";

fn run(line: &Line) -> Result<Answer, Failure> {
    let query = match line.values("--query") {
        Some([min, max]) => Some(Query { min: corner(min)?, max: corner(max)? }),
        _ => None,
    };
    line.file()?;
    let (view, loading) = seen(&line.words[0], line.loading()?)?;
    if is_world(&line.words[0]) {
        return world::answer(query, view, line);
    }
    let dump = match Opened::load(&line.words[0], loading)? {
        Opened::Boxes(dump) => dump,
        Opened::Mesh(folder) => return mesh_answer(&folder, query, view, line),
    };
    if line.has("--colour") {
        return Err(Failure::Usage(format!("{} is no mesh: leave out --colour", line.words[0])));
    }
    let account = account(&dump)?;
    let trace = traced(&dump, &account)?;
    let picture = Picture::of(&dump, &trace, &account, query).seen(view);
    let (rows, nodes) = (picture.rows(), trace.nodes.len());
    let counts = vec![("rows", rows.into()), ("nodes", nodes.into())];
    answer(line, picture.svg(), &format!("{rows} of {nodes} nodes"), counts)
}

fn mesh_answer(folder: &MeshFolder, query: Option<Query>, view: View, line: &Line) -> Result<Answer, Failure> {
    let look = Look { colour: colour(line)?, view };
    let Drawn { svg, polygons, rows, nodes } = draw(folder, &mesh::account(folder)?, query, look)?;
    let drawn = format!("{}, {rows} of {}", counted(polygons, "polygon"), counted(nodes, "node"));
    answer(line, svg, &drawn, vec![("polygons", polygons.into()), ("rows", rows.into()), ("nodes", nodes.into())])
}

/// The picture, or where it was written to and what is drawn.
fn answer(line: &Line, svg: String, drawn: &str, counts: Vec<(&'static str, Json)>) -> Result<Answer, Failure> {
    if let Some(target) = line.file()? {
        write_file(&target, svg.as_bytes())?;
    }
    Ok(Answer::of(match (line.json(), line.option("--out")) {
        (true, path) => {
            let mut members = vec![("out", path.into())];
            members.extend(counts);
            members.push(("svg", if path.is_some() { Json::Null } else { svg.into() }));
            format!("{}\n", Json::Object(members))
        }
        (false, Some(path)) => format!("drawn to {path}: {drawn}\n"),
        (false, None) => svg,
    }))
}

fn colour(line: &Line) -> Result<Option<Colour>, Failure> {
    match line.option("--colour") {
        None => Ok(None),
        Some("range") => Ok(Some(Colour::Range)),
        Some("material") => Ok(Some(Colour::Material)),
        Some(word) => Err(Failure::Usage(format!("--colour '{word}': expected range or material"))),
    }
}

/// Along which axis a dump is seen, and how it is loaded. An .obj is turned as it is read, and has z up then; anything else is
/// seen along its own axis.
fn seen(path: &str, loading: Loading) -> Result<(View, Loading), Failure> {
    let turned = path == "-" || Path::new(path).is_file() && form(path, &read_file(path)?) == Some(Form::Obj);
    if turned && loading.form.is_none() {
        return Ok((View::Z, loading));
    }
    let view = if loading.mesh.up == Some(Up::Y) { View::Y } else { View::Z };
    Ok((view, Loading { mesh: Given { up: None, ..loading.mesh }, ..loading }))
}
