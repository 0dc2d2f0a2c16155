//! `bounds check`: whether a list is within the premises, for an upload to be turned away.

mod mesh;

use crate::boxes::{read_file, words, Boxes};
use crate::cli::{Answer, Command, Line};
use crate::failure::Failure;
use crate::field::{AXES, CORNERS};
use crate::json::Json;
use crate::mesh::{form, Given, Mesh};
use crate::number::{both, counted, verb};
use crate::rules::Rule::*;
use crate::trace::Trace;
use bounds::premises::{ordinary, Broken};
use bounds::{BvhItem, Tree};

pub fn command() -> Command {
    Command {
        name: "check",
        does: "says whether a mesh or a list of boxes is within the premises; exit 0 or 1",
        options: &["--threshold", "--text", "--records", "--kind", "--margin"],
        words: (1, 1),
        run,
        help: HELP,
    }
}

const HELP: &str = "bounds check FILE [--threshold N] [--json]
       bounds check MESH [--kind 4|8] [--margin M] [--json]

Whether the boxes of FILE can be built and are within the premises under which a query misses no box: all finite, min at
most max, nothing above 2^100 in size, and the half extent of all 0 or at least 2^-100 on each axis. Exit status 0 where
they are; 1 where not, with the first value that breaks them, and how many do. Says also how many values of the node
records were cut to 16 bits and are other numbers now: those stand for other places.

Of a MESH whether it can be prepared, and the same of its polygons' boxes, over which kind 8 has its tree; the first value is
told with its polygon, its vertex and their lines. Says also how many vertices are further from the centre than half the box
and are stored cut to that, how many have a value that is not finite (the box of a polygon may pass over one and be within
the premises), and how many polygons name a vertex or a material that is not there. What preparing refuses is refused here.

examples
  bounds check terrain.obj && bounds prepare terrain.obj --out terrain
  bounds check six.txt && bounds build six.txt --out six
";

/// What was found of a list.
struct Checked {
    entries: usize,
    present: usize,
    first: Option<Broken>,
    where_it_stands: Option<String>,
    /// Values that break the premises by themselves, and boxes inside out.
    breaking: usize,
    cut: usize,
    values: usize,
}

fn run(line: &Line) -> Result<Answer, Failure> {
    let path = &line.words[0];
    let bytes = read_file(path)?;
    if line.form().is_none() && form(path, &bytes).is_some() {
        if line.threshold()?.is_some() {
            return Err(Failure::Usage(format!("{path} is a mesh, whose leaves hold four: leave out --threshold")));
        }
        return mesh::answer(path, Mesh::of_bytes(path, &bytes, line.mesh()?)?, line.json());
    }
    if line.mesh()? != Given::default() {
        return Err(Failure::Usage(format!("{path} is no mesh: leave out --kind and --margin")));
    }
    let boxes = Boxes::of_bytes(path, &bytes, line.form())?;
    let threshold = line.threshold()?.unwrap_or(1);
    Tree::build(&boxes.items, threshold)?;
    let checked = checked(&boxes, threshold);
    let status = u8::from(checked.first.is_some());
    let text = if line.json() { format!("{}\n", checked.json()) } else { checked.text() };
    Ok(Answer { text, status })
}

fn checked(boxes: &Boxes, threshold: u32) -> Checked {
    let first = ordinary(&boxes.items).err();
    let (cut, values) = cut_values(&boxes.items, threshold);
    let present: Vec<&BvhItem> = boxes.items.iter().filter(|item| item.present != 0).collect();
    Checked {
        entries: boxes.items.len(),
        present: present.len(),
        where_it_stands: first.and_then(|broken| stands(boxes, broken)),
        breaking: present.iter().map(|item| breaking(&words(item).map(f32::from_bits))).sum(),
        first,
        cut,
        values,
    }
}

/// How many values of the node records were cut to 16 bits, and of how many.
fn cut_values(items: &[BvhItem], threshold: u32) -> (usize, usize) {
    let trace = Trace::of(items, threshold as usize);
    let value = |node: usize| CORNERS.into_iter().flat_map(move |corner| AXES.map(move |axis| (node, corner, axis)));
    let values = (0..trace.nodes.len()).flat_map(value);
    let cut = values.clone().filter(|&(node, corner, axis)| trace.quantised(node, corner, axis).wrapped()).count();
    (cut, values.count())
}

/// How many values of a box break the premises by themselves; 1 for each axis that is inside out.
fn breaking(values: &[f32; 6]) -> usize {
    let large = 100f32.exp2();
    let bad = |v: f32| !v.is_finite() || v.abs() > large;
    let turned = |axis: &usize| values[*axis] > values[axis + 3] && !bad(values[*axis]) && !bad(values[axis + 3]);
    values.iter().filter(|&&v| bad(v)).count() + (0..3).filter(turned).count()
}

/// The value that breaks the premises first, and where the input has it.
fn stands(boxes: &Boxes, broken: Broken) -> Option<String> {
    match broken {
        Broken::Size { place, corner, axis } => {
            let word = words(&boxes.items[place])[3 * corner as usize + axis as usize];
            Some(format!("{}: {}", boxes.origin.value(place, corner, axis), both(word)))
        }
        Broken::Order { place, .. } => Some(boxes.origin.entry(place)),
        _ => None,
    }
}

impl Checked {
    fn text(&self) -> String {
        let list = format!("{} of {} entries", counted(self.present, "box"), self.entries);
        let cut = format!("node values cut to 16 bits: {} of {} ({F7}, {F8})\n", self.cut, self.values);
        let Some(broken) = self.first else {
            return format!("within the premises ({P4}): {list}\n{cut}");
        };
        let at = self.where_it_stands.as_ref().map_or(String::new(), |at| format!(" ({at})"));
        let more = match self.breaking {
            0 => "none breaks them by itself; a query may miss items\n".to_string(),
            n => format!("{} {} them; a query may miss items\n", counted(n, "value"), verb(n, "break")),
        };
        format!("OUTSIDE the premises ({P4}): {broken}{at}\n{list}; {more}{cut}")
    }

    fn json(&self) -> Json {
        Json::Object(vec![
            ("within", self.first.is_none().into()),
            ("entries", self.entries.into()),
            ("present", self.present.into()),
            ("first", self.first.map(|broken| broken.to_string()).into()),
            ("at", self.where_it_stands.clone().into()),
            ("breaking", self.breaking.into()),
            ("cut", self.cut.into()),
            ("values", self.values.into()),
        ])
    }
}
