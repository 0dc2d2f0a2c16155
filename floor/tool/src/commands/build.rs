//! `bounds build`: a list of boxes to a tree's bytes.

use crate::boxes::{read_file, Boxes};
use crate::cli::{Answer, Command, Line};
use crate::dump::Dump;
use crate::failure::Failure;
use crate::json::Json;
use crate::mesh;
use crate::number::counted;
use bounds::Tree;

pub fn command() -> Command {
    Command {
        name: "build",
        does: "builds the tree of a list of boxes and writes its bytes",
        forms: &["FILE"],
        words: (1, 1),
        options: &["--threshold", "--out", "--text", "--records", "--force", "--json"],
        run,
        help: HELP,
        examples: EXAMPLES,
    }
}

const HELP: &str = "Builds the tree of the boxes in FILE; a leaf holds at most N (1 without it). Prints the listing of its records; with
--out writes a dump instead, which must not exist yet: header.bin, nodes.bin, trees.bin, order.bin, boxes.bin (the
input), listing.txt and dump.txt (kind, threshold, entries).
";

const EXAMPLES: &str = "  bounds build six.txt                       the listing, as the program `boxes` prints it
  bounds build six.txt --threshold 4 --out six
  bounds build children.bin --json
";

fn run(line: &Line) -> Result<Answer, Failure> {
    let (path, form) = (&line.words[0], line.form());
    let bytes = read_file(path)?;
    if form.is_none() && mesh::form(path, &bytes).is_some() {
        return Err(Failure::Usage(format!("{path} is a mesh: expected boxes; `bounds prepare` takes it")));
    }
    let target = line.folder()?;
    let boxes = Boxes::of_bytes(path, &bytes, form)?;
    let (dump, tree) = Dump::build(&line.words[0], boxes, line.threshold()?.unwrap_or(1))?;
    if let Some(target) = target {
        dump.write(&target)?;
    }
    if line.json() {
        return Ok(Answer::of(format!("{}\n", json(&dump, &tree, line.option("--out")))));
    }
    let text = match line.option("--out") {
        Some(path) => format!("{}\nwritten to {path}\n", summary(&dump, &tree)),
        None => dump.listing(),
    };
    Ok(Answer::of(text))
}

/// One line: what was built.
fn summary(dump: &Dump, tree: &Tree) -> String {
    let built = tree.built();
    let (present, entries) = (counted(built.items_count as usize, "box"), dump.entries);
    let (nodes, trees) = (counted(built.nodes_count as usize, "node"), counted(built.trees_count as usize, "range"));
    let premises = match tree.premises() {
        Ok(()) => "within the premises".to_string(),
        Err(broken) => format!("OUTSIDE the premises ({broken}): items may be missed"),
    };
    let capacity = built.nodes_capacity;
    format!(
        "{present} of {entries} entries, threshold {}: {nodes} ({capacity} records), {trees}; {premises}",
        dump.threshold
    )
}

fn json(dump: &Dump, tree: &Tree, out: Option<&str>) -> Json {
    let built = tree.built();
    let short = |values: [i16; 3]| Json::list(values.map(|v| v as i64));
    let record =
        |min, max, a: i16, b: i16| Json::List(vec![short(min), short(max), (a as i64).into(), (b as i64).into()]);
    let nodes = tree.nodes().map(|n| record(n.min, n.max, n.item_id, n.item_count));
    let trees = tree.trees().map(|t| record(t.min, t.max, t.node_index1, t.node_index2));
    Json::Object(vec![
        ("entries", dump.entries.into()),
        ("present", (built.items_count as usize).into()),
        ("threshold", (dump.threshold as usize).into()),
        ("nodes", Json::list(nodes)),
        ("capacity", (built.nodes_capacity as usize).into()),
        ("trees", Json::list(trees)),
        ("order", Json::list(tree.order().iter().map(|&place| place as usize))),
        ("premises", tree.premises().map_or_else(|broken| broken.to_string(), |()| "within".into()).into()),
        ("out", out.into()),
    ])
}
