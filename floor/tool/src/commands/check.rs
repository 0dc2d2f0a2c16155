//! `bounds check`: whether a list is within the premises, for an upload to be turned away.

mod folder;
mod many;
mod mesh;
mod world;

use crate::boxes::{read_world, words, Boxes};
use crate::cli::{Answer, Command, Line};
use crate::failure::Failure;
use crate::field::{AXES, CORNERS};
use crate::json::Json;
use crate::mesh::{form, Given};
use crate::number::{both, counted, verb};
use crate::progress::during;
use crate::rules::Rule::*;
use crate::world::merge::Merged;
use crate::world::source::Source;
use bounds::premises::{ordinary, Broken};
use bounds::{BvhItem, Tree};
use plain::tree::Trace;
use std::path::Path;

/// Why a list or a mesh does not pass whose boxes are outside the premises.
const OUTSIDE: &str = "outside the premises";

/// Why a mesh does not pass that has a vertex which is not finite.
const NOT_FINITE: &str = "vertices that are not finite";

pub fn command() -> Command {
    Command {
        name: "check",
        does: "says whether a mesh is finite and, as a list of boxes, within the premises; exit 0 or 1",
        forms: &["FILE|MESH|DUMP|FOLDER.."],
        words: (1, usize::MAX),
        options: &[
            "--threshold",
            "--text",
            "--records",
            "--kind",
            "--margin",
            "--up",
            "--split",
            "--merge-materials",
            "--json",
        ],
        run,
        help: HELP,
        examples: EXAMPLES,
    }
}

const HELP: &str = "Whether the boxes of FILE can be built and are within the premises under which a query misses no box: all finite, min at
most max, nothing above 2^100 in size, and the half extent of all 0 or at least 2^-100 on each axis. Exit status 0 where
they are; 1 where not, with the first value that breaks them, and how many do. Says also how many values of the node
records were cut to 16 bits and are other numbers now: those stand for other places.

Of a MESH whether it can be prepared, and two reasons against it, each of which makes the exit status 1. NOT FINITE: a vertex has
a NaN or an infinity in the file, or does not stand at a finite place after centre and transform; also where no polygon names
it, and where the box of one passes over it. It is named by the number that its file gives it, its line, the axis and the value.
OUTSIDE the premises: the same as above of the polygons' boxes, over which kind 8 has its tree; kind 4 has no tree and no
premises. With --json `within` is false where a reason is there, and `reasons` has not_finite, premises or both.

Says of kind 4 how vertices are shrunk: by which margin, or by normals where none passes. They then move the other way: outwards
where triangles are counter-clockwise from outside. Tells also of the mesh, each with its count and the line of the first:
empty lists; degenerate triangles (a corner twice, or the cross product of two sides is 0, in f64 over the file's numbers);
doubled triangles and edges with three sides or more (vertices at one place count as one); doubled vertices; polygons with a
vertex or a material that is not there, or with a radius below zero or not finite; a given box that is inside out; vertices
that are further from the centre than half the box and are stored cut to that; polygons whose box is longer than half the box
about all on some axis. None of these fails a mesh. What preparing refuses is refused here.

Of a DUMP the same of its input, and whether every byte is what the input gives. With --split a MESH over the limits is cut as
`bounds prepare --split` cuts it, and each child is checked.

Several words, or a FOLDER that is no dump, are many: a folder is searched, with the folders in it, for meshes and boxes (names
that end in .obj, .txt or .bin) in the order of the names, and a dump in it is checked as one. They are checked on all
processors. Each has a line: passed, FAILED or REFUSED, its name, and the verdict. Below stands how many there are of each, and of
each reason. What cannot be read as a mesh or boxes fails, and does not stop the others. Exit status 1 where one did not pass.
";

const EXAMPLES: &str = "  bounds check terrain.obj && bounds prepare terrain.obj --out terrain
  bounds check six.txt && bounds build six.txt --out six
  bounds check uploads --json
  bounds check world.obj --split && bounds prepare world.obj --split --out world
";

/// What was found of a list.
struct Checked {
    entries: usize,
    present: usize,
    first: Option<Broken>,
    where_it_stands: Option<String>,
    /// Values that break the premises by themselves, and boxes inside out.
    breaking: usize,
    cut: usize,
    values: usize,
}

/// What was found of one file or dump.
struct One {
    /// Why it does not pass, in words that several may share.
    failed: Option<String>,
    text: String,
    json: Json,
}

fn run(line: &Line) -> Result<Answer, Failure> {
    if many::is_asked(&line.words) {
        return many::answer(line);
    }
    let path = &line.words[0];
    let One { failed, text, json } = one(path, line)?;
    let text = if line.json() { format!("{json}\n") } else { text };
    Ok(Answer { text, status: u8::from(failed.is_some()) })
}

/// Checks a file, or a folder that is a dump.
fn one(path: &str, line: &Line) -> Result<One, Failure> {
    let checking = format!("checking {path}");
    if Path::new(path).is_dir() {
        return during(&checking, || folder::one(path, line));
    }
    let bytes = read_world(path)?;
    let merge = line.merge()?;
    if line.form().is_none() && form(path, &bytes).is_some() {
        if line.threshold()?.is_some() {
            return Err(Failure::Usage(format!("{path} is a mesh, whose leaves hold four: leave out --threshold")));
        }
        let (source, merged) = during(&checking, || Source::of_bytes(path, &bytes, merge.as_ref()))?;
        let given = line.mesh()?;
        let found = match line.has("--split") {
            true => during(&checking, || world::one(source.world(path, given)?)),
            false => mesh::one(path, source.mesh(path, given)?),
        };
        return found.map(|found| found.with(merged.as_ref()));
    }
    if line.mesh()? != Given::default() || merge.is_some() || line.has("--split") {
        let options = "--kind, --margin, --up, --split and --merge-materials";
        return Err(Failure::Usage(format!("{path} is no mesh: leave out {options}")));
    }
    let boxes = Boxes::of_bytes(path, &bytes, line.form())?;
    let threshold = line.threshold()?.unwrap_or(1);
    during(&checking, || of_boxes(&boxes, threshold))
}

/// Checks boxes, which have to be a tree's at this threshold.
fn of_boxes(boxes: &Boxes, threshold: u32) -> Result<One, Failure> {
    Tree::build(&boxes.items, threshold)?;
    let checked = checked(boxes, threshold);
    Ok(One { failed: checked.first.map(|_| OUTSIDE.into()), text: checked.text(), json: checked.json() })
}

impl One {
    /// Says also what merging materials came to.
    fn with(mut self, merged: Option<&Merged>) -> One {
        if let Some(merged) = merged {
            self.text += &format!("merged: {}\n", merged.words());
            if let Json::Object(members) = &mut self.json {
                members.push(("merged", merged.json()));
            }
        }
        self
    }
}

fn checked(boxes: &Boxes, threshold: u32) -> Checked {
    let first = ordinary(&boxes.items).err();
    let (cut, values) = cut_values(&boxes.items, threshold);
    let present: Vec<&BvhItem> = boxes.items.iter().filter(|item| item.present != 0).collect();
    Checked {
        entries: boxes.items.len(),
        present: present.len(),
        where_it_stands: first.and_then(|broken| stands(boxes, broken)),
        breaking: present.iter().map(|item| breaking(&words(item).map(f32::from_bits))).sum(),
        first,
        cut,
        values,
    }
}

/// How many values of the node records were cut to 16 bits, and of how many.
fn cut_values(items: &[BvhItem], threshold: u32) -> (usize, usize) {
    let trace = Trace::of(items, threshold as usize);
    let value = |node: usize| CORNERS.into_iter().flat_map(move |corner| AXES.map(move |axis| (node, corner, axis)));
    let values = (0..trace.nodes.len()).flat_map(value);
    let cut = values.clone().filter(|&(node, corner, axis)| trace.quantised(node, corner, axis).wrapped()).count();
    (cut, values.count())
}

/// How many values of a box break the premises by themselves; 1 for each axis that is inside out.
fn breaking(values: &[f32; 6]) -> usize {
    let large = 100f32.exp2();
    let bad = |v: f32| !v.is_finite() || v.abs() > large;
    let turned = |axis: &usize| values[*axis] > values[axis + 3] && !bad(values[*axis]) && !bad(values[axis + 3]);
    values.iter().filter(|&&v| bad(v)).count() + (0..3).filter(turned).count()
}

/// The value that breaks the premises first, and where the input has it.
fn stands(boxes: &Boxes, broken: Broken) -> Option<String> {
    match broken {
        Broken::Size { place, corner, axis } => {
            let word = words(&boxes.items[place])[3 * corner as usize + axis as usize];
            Some(format!("{}: {}", boxes.origin.value(place, corner, axis), both(word)))
        }
        Broken::Order { place, .. } => Some(boxes.origin.entry(place)),
        _ => None,
    }
}

impl Checked {
    fn text(&self) -> String {
        let list = format!("{} of {} entries", counted(self.present, "box"), self.entries);
        let cut = format!("node values cut to 16 bits: {} of {} ({F7}, {F8})\n", self.cut, self.values);
        let Some(broken) = self.first else {
            return format!("within the premises ({P4}): {list}\n{cut}");
        };
        let at = self.where_it_stands.as_ref().map_or(String::new(), |at| format!(" ({at})"));
        let more = match self.breaking {
            0 => "none breaks them by itself; a query may miss items\n".to_string(),
            n => format!("{} {} them; a query may miss items\n", counted(n, "value"), verb(n, "break")),
        };
        format!("OUTSIDE the premises ({P4}): {broken}{at}\n{list}; {more}{cut}")
    }

    fn json(&self) -> Json {
        Json::Object(vec![
            ("within", self.first.is_none().into()),
            ("entries", self.entries.into()),
            ("present", self.present.into()),
            ("first", self.first.map(|broken| broken.to_string()).into()),
            ("at", self.where_it_stands.clone().into()),
            ("breaking", self.breaking.into()),
            ("cut", self.cut.into()),
            ("values", self.values.into()),
        ])
    }
}
