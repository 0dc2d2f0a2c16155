//! `bounds diff`: two dumps, from the first word that differs to the boxes that are lost.

use crate::cli::{Answer, Command, Line};
use crate::diff::{compare, mesh};
use crate::dump::Opened;
use crate::failure::Failure;

pub fn command() -> Command {
    Command {
        name: "diff",
        does: "says how two dumps differ, and by which first causes",
        options: &["--threshold", "--text", "--records", "--kind", "--margin"],
        words: (2, 2),
        run,
        help: HELP,
    }
}

const HELP: &str = "bounds diff A B [--json]

The verdict in one line; what differs in the inputs; whether each is within the premises; the fields that differ, grouped
by their first cause, with the values at each step in a and in b; fields of equal bytes that stand for different places;
and of each box whether a query at its place finds it. Nodes are matched by their boxes, not by their numbers: a field of a
node that has other boxes counts for the first split above it that differs, one of the same boxes for their own values or
for the scale. A dump whose bytes are not what its input gives is named. Exit status 0 whether or not they differ.

Two prepared meshes likewise: polygons are matched by the numbers that they were given, not by their places in the order of
the leaves; a link that leads to another polygon, a vertex in another unit, a shrunk vertex and an octant each have their
first cause; and of each polygon whether a query at its box finds it.

examples
  bounds diff yesterday today
  bounds diff a.bin b.bin
  bounds diff road.txt split.txt --kind 4
";

fn run(line: &Line) -> Result<Answer, Failure> {
    let [a, b] = [0, 1].map(|k| Opened::load(&line.words[k], line.loading()?));
    let (a, b) = match (a?, b?) {
        (Opened::Boxes(a), Opened::Boxes(b)) => (a, b),
        (Opened::Mesh(a), Opened::Mesh(b)) => return mesh::answer(&a, &b, line.json()),
        _ => return Err(Failure::Usage("one is of boxes and the other a mesh: expected two of one kind".into())),
    };
    let comparison = compare(&a, &b)?;
    Ok(Answer::of(if line.json() { format!("{}\n", comparison.json()) } else { comparison.text() }))
}
