//! `bounds explain`: the rules that made a field, or that handed an item out.

use crate::account::{account, traced, Account};
use crate::cli::{corner, Answer, Command, Line};
use crate::dump::{Dump, Opened};
use crate::explain::query::Asked;
use crate::explain::{mesh, Explainer, Explanation};
use crate::failure::Failure;
use crate::field::Field;
use crate::json::Json;

pub fn command() -> Command {
    Command {
        name: "explain",
        does: "tells the chain of rules from the input's bytes to a field, or why an item is handed out",
        options: &["--threshold", "--text", "--records", "--kind", "--margin"],
        words: (2, 6),
        run,
        help: HELP,
    }
}

const HELP: &str = "bounds explain DUMP FIELD [--json]
       bounds explain DUMP node N split
       bounds explain DUMP query MIN MAX item N

FIELD is one of those that `bounds dump` shows: `node 9 min.x`, `node 2 id`, `tree 0 last`, `header cen.x`, `order 5`; of a
prepared mesh also `polygon 3 link 1`, `polygon 3 vertex 0`, `polygon 3 area`, `vertex 7 y`, `vertex_float 7 y`, `shrunk 7 y`,
`material 2`, `material_index 5`, `octant 3 index 0`, `quantum x`, `box min.x`, `center sphere.x`, `radius`.
Each step has the rules of docs/RULES.md by which it was made, its values, and where they stand in the input. `split`
tells how a node's boxes were divided; `query` which records were read on the way to box N, of a mesh to polygon N of the
prepared list. The tree of a mesh names polygons by the numbers that they were given, `given polygon 4`: their places in the
prepared list follow from it. A field whose bytes are not what the dump's input gives is not explained: exit status 1.

examples
  bounds explain six node 9 min.x
  bounds explain six node 0 split
  bounds explain six query 6,0,0 7,1,1 item 3
  bounds explain road polygon 7 link 0
";

fn run(line: &Line) -> Result<Answer, Failure> {
    let dump = match Opened::load(&line.words[0], line.loading()?)? {
        Opened::Boxes(dump) => dump,
        Opened::Mesh(folder) => return mesh::answer(&folder, &line.words[1..], line.json()),
    };
    let account = account(&dump)?;
    let boxes = dump.input()?;
    let trace = traced(&dump, &account)?;
    let explainer = Explainer { boxes, trace: &trace, records: &account.rebuilt, mesh: None };
    let explanation = explanation(&dump, &account, &explainer, &line.words[1..])?;
    if line.json() {
        return Ok(Answer::of(format!("{}\n", json(&dump, &account, &explanation))));
    }
    let warning = account.warning(&dump).map_or(String::new(), |warning| format!("NOTE {warning}\n"));
    Ok(Answer::of(warning + &explanation.text()))
}

fn json(dump: &Dump, account: &Account, explanation: &Explanation) -> Json {
    Json::Object(vec![("explanation", explanation.json()), ("warning", account.warning(dump).into())])
}

fn explanation(dump: &Dump, account: &Account, with: &Explainer, words: &[String]) -> Result<Explanation, Failure> {
    let plain: Vec<&str> = words.iter().map(String::as_str).collect();
    match plain[..] {
        ["query", min, max, "item", item] => query(dump, account, with, [min, max, item]),
        ["node", node, "split"] => split(with, node),
        _ => {
            let field = Field::parse(words).ok_or_else(|| unknown(words))?;
            explained(dump, account, with, field)
        }
    }
}

fn unknown(words: &[String]) -> Failure {
    let given = words.join(" ");
    Failure::Usage(format!(
        "'{given}' is no field: expected one as `node 9 min.x`, `tree 0 last`, `header cen.x`, `order 5`"
    ))
}

/// A field, explained only where its bytes are what the input gives.
fn explained(dump: &Dump, account: &Account, with: &Explainer, field: Field) -> Result<Explanation, Failure> {
    let there = |records| field.raw(records).is_some();
    if !there(&dump.records) && !there(&account.rebuilt) {
        return Err(Failure::Usage(format!("{field}: {} has no such record; `bounds dump` shows all", dump.name)));
    }
    if account.differs(field) {
        let words = account.difference(dump, field);
        return Err(Failure::Refused(format!("{}: {words}; what stands there is not explained", dump.name)));
    }
    Ok(with.field(field))
}

fn split(with: &Explainer, node: &str) -> Result<Explanation, Failure> {
    let nodes = with.trace.nodes.len();
    let node = node.parse().ok().filter(|&k: &usize| k < nodes);
    let node = node.ok_or_else(|| Failure::Usage(format!("expected a node's number below {nodes}")))?;
    with.split(node).ok_or_else(|| Failure::Usage(format!("node {node} is a leaf: it is not split")))
}

fn query(dump: &Dump, account: &Account, with: &Explainer, words: [&str; 3]) -> Result<Explanation, Failure> {
    let (min, max) = (corner(words[0])?, corner(words[1])?);
    let entries = dump.entries;
    let item = words[2].parse().ok().filter(|&item: &usize| item < entries);
    let item =
        item.ok_or_else(|| Failure::Usage(format!("item '{}': expected a list place below {entries}", words[2])))?;
    let found = dump.walk(min, max)?;
    let asked = Asked { dump, min, max, item };
    let (explanation, reads) = with.query(&asked, &|field| !account.differs(field));
    if reads != found.reads {
        return Err(Failure::Refused("the trace reads other records than the library; it is not explained".into()));
    }
    Ok(explanation)
}
