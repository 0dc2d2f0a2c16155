//! `bounds dump`: every field, its bytes, its value and its rules. The text is stable, so that people can compare it.

mod mesh;

use crate::account::account;
use crate::cli::{Answer, Command, Line};
use crate::dump::{Dump, Opened, Records};
use crate::failure::Failure;
use crate::field::{Field, InRecord, Value};
use crate::json::Json;
use crate::number::{counted, place};
use crate::rules;

pub fn command() -> Command {
    Command {
        name: "dump",
        does: "shows every field of a dump with the rules that made it",
        options: &["--threshold", "--text", "--records", "--kind", "--margin"],
        words: (1, 1),
        run,
        help: HELP,
    }
}

const HELP: &str = "bounds dump DUMP [--json]

Every field of header, node records, tree records and order list, one a line: its bytes, its name, its value (a float
with its word; of a record's box also the place that it stands for), and the rules of docs/RULES.md that made it. The
same dump gives the same text, so that two can be compared; `bounds diff` says why they differ.

Records that another builder made are a dump too: put its bytes into header.bin, nodes.bin, trees.bin and order.bin, and
beside them dump.txt with four lines: `bounds dump 1`, `kind boxes`, `threshold N`, `entries N`. Without boxes.bin (28 bytes
an entry: a mark, min x y z, max x y z) they can be dumped, queried and compared, but not explained or drawn.

Of a prepared mesh: quantum, box, centres and radius, polygons, materials, their indices, vertices and the floats that they
stand for, shrunk ones and octants or header, nodes, trees and order. Another builder's are a dump too: dump.txt is then
`bounds dump 1`, `kind mesh`, `bound 8`, `polygons N`, `vertices N`, `materials N` (before they are filled up to four), and
the other files are those that `bounds prepare` writes.

examples
  bounds dump terrain
  bounds dump six
  bounds dump six.txt --threshold 4
";

fn run(line: &Line) -> Result<Answer, Failure> {
    let dump = match Opened::load(&line.words[0], line.loading()?)? {
        Opened::Boxes(dump) => dump,
        Opened::Mesh(folder) => return mesh::answer(&folder, line.json()),
    };
    let fields = Field::all(&dump.records);
    if line.json() {
        let list = Json::list(fields.iter().map(|&field| json(&dump, field)));
        return Ok(Answer::of(format!("{list}\n")));
    }
    let mut text = heading(&dump)?;
    text.extend(fields.iter().map(|&field| row(&dump, field)));
    Ok(Answer::of(text))
}

fn heading(dump: &Dump) -> Result<String, Failure> {
    let input = match &dump.boxes {
        None => format!("{} entries, threshold {}; the boxes are not at hand", dump.entries, dump.threshold),
        Some(boxes) => {
            let present = counted(boxes.items.iter().filter(|item| item.present != 0).count(), "box");
            format!("{present} of {} entries, threshold {}", dump.entries, dump.threshold)
        }
    };
    let bytes = match &dump.boxes {
        None => "not compared with an input".to_string(),
        Some(_) => account(dump)?.warning(dump).unwrap_or("as the input gives".into()),
    };
    Ok(format!("kind     boxes\ninput    {input}\nbytes    {bytes}\n"))
}

/// What a record's value stands for.
fn meaning(dump: &Dump, field: Field) -> Option<String> {
    tree_meaning(&dump.records, field)
}

fn tree_meaning(records: &Records, field: Field) -> Option<String> {
    match (field, field.value(records)?) {
        (Field::Node(k, _), _) if k >= records.node_count() => None,
        (Field::Node(_, InRecord::Box(_, axis)) | Field::Tree(_, InRecord::Box(_, axis)), Value::Short(value)) => {
            Some(place(records.stands_for(axis as usize, value)))
        }
        _ => None,
    }
}

fn row(dump: &Dump, field: Field) -> String {
    let bytes = field.bytes();
    let bytes = format!("{}-{}", bytes.start, bytes.end - 1);
    let value = field.value(&dump.records).map_or(String::new(), |value| value.to_string());
    let meaning = meaning(dump, field).unwrap_or_default();
    let rules = rules::list(field.rules(dump.records.node_count()));
    format!("{:<11} {bytes:>9}  {:<14} {value:<26} {meaning:>12}  {rules}\n", field.part(), field.name())
}

fn json(dump: &Dump, field: Field) -> Json {
    let bytes = field.raw(&dump.records).map(|raw| crate::number::bytes(&raw));
    Json::Object(vec![
        ("field", field.to_string().into()),
        ("at", field.bytes().start.into()),
        ("bytes", bytes.into()),
        ("value", field.value(&dump.records).map(|value| value.to_string()).into()),
        ("stands_for", meaning(dump, field).into()),
        ("rules", Json::list(field.rules(dump.records.node_count()).iter().map(|rule| rule.name()))),
    ])
}
