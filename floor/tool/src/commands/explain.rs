//! `bounds explain`: the rules that made a field, or that handed an item out.

use crate::account::{account, traced, Account};
use crate::cli::{corner, Answer, Command, Line};
use crate::dump::{Dump, Opened};
use crate::explain::query::Asked;
use crate::explain::{mesh, Explainer, Explanation};
use crate::failure::Failure;
use crate::field::{Field, Recorded};

pub fn command() -> Command {
    Command {
        name: "explain",
        does: "tells the chain of rules from the input's bytes to a field, or why an item is handed out",
        forms: &["DUMP FIELD", "DUMP node N split", "DUMP query MIN MAX item N"],
        words: (2, 6),
        options: &["--threshold", "--text", "--records", "--kind", "--margin", "--up", "--json"],
        run,
        help: HELP,
        examples: EXAMPLES,
    }
}

const HELP: &str = "FIELD is one of those that `bounds dump` shows: `node 9 min.x`, `node 2 id`, `tree 0 last`, `header cen.x`, `order 5`; of a
prepared mesh also `polygon 3 link 1`, `polygon 3 vertex 0`, `polygon 3 area`, `vertex 7 y`, `vertex_float 7 y`, `shrunk 7 y`,
`material 2`, `material_index 5`, `octant 3 index 0`, `quantum x`, `box min.x`, `center sphere.x`, `radius`.
Each step has the rules of docs/RULES.md by which it was made, its values, and where they stand in the input. `split`
tells how a node's boxes were divided; `query` which records were read on the way to box N, of a mesh to polygon N of the
prepared list. The tree of a mesh names polygons by the numbers that they were given, `given polygon 4`: their places in the
prepared list follow from it. A field whose bytes are not what the dump's input gives is not explained: exit status 1.
";

const EXAMPLES: &str = "  bounds explain six node 9 min.x
  bounds explain six node 0 split
  bounds explain six query 6,0,0 7,1,1 item 3
  bounds explain road polygon 7 link 0
";

fn run(line: &Line) -> Result<Answer, Failure> {
    let dump = match Opened::load(&line.words[0], line.loading()?)? {
        Opened::Boxes(dump) => dump,
        Opened::Mesh(folder) => return mesh::answer(&folder, &line.words[1..], line.json()),
    };
    let account = account(&dump)?;
    let boxes = dump.input()?;
    let trace = traced(&dump, &account)?;
    let explainer = Explainer { boxes, trace: &trace, records: &account.rebuilt, mesh: None };
    let explanation = explanation(&dump, &account, &explainer, &line.words[1..])?;
    Ok(explanation.answer(account.warning(), line.json()))
}

fn explanation(dump: &Dump, account: &Account, with: &Explainer, words: &[String]) -> Result<Explanation, Failure> {
    let plain: Vec<&str> = words.iter().map(String::as_str).collect();
    match plain[..] {
        ["query", min, max, "item", item] => {
            let (min, max, entries) = (corner(min)?, corner(max)?, dump.entries);
            let wrong = || Failure::Usage(format!("item '{item}': expected a list place below {entries}"));
            let item = item.parse().ok().filter(|&item: &usize| item < entries).ok_or_else(wrong)?;
            let asked = Asked { dump, min, max, item, rounded: None };
            with.asked(&asked, &|field| !account.differs(field))
        }
        ["node", node, "split"] => with.split_at(node),
        _ => {
            let field = Field::parse(words).ok_or_else(|| unknown(words))?;
            if field.raw(&dump.records).or(field.raw(&account.rebuilt)).is_none() {
                let words = format!("{field}: {} has no such record; `bounds dump` shows all", dump.name);
                return Err(Failure::Usage(words));
            }
            account.given(field)?;
            Ok(with.field(field))
        }
    }
}

fn unknown(words: &[String]) -> Failure {
    let given = words.join(" ");
    Failure::Usage(format!(
        "'{given}' is no field: expected one as `node 9 min.x`, `tree 0 last`, `header cen.x`, `order 5`"
    ))
}
