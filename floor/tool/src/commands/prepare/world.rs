//! `bounds prepare --split`: a world cut by place into children, each of them prepared, and the composite over them.

use crate::cli::{Answer, Line};
use crate::failure::Failure;
use crate::json::Json;
use crate::mesh::vertices;
use crate::number::{counted, float, verb};
use crate::output::fill_folder;
use crate::parallel::processors;
use crate::progress::{counting, during};
use crate::world::folder::write;
use crate::world::merge::Merged;
use crate::world::source::Source;
use crate::world::split::{cut, prepare, shrunk_words, Made, Split};
use crate::world::World;
use bounds::composite::WITHOUT_TREE;
use std::time::{Duration, Instant};

/// What was made of a world, and how long it took.
struct Summary {
    file: String,
    kind: u8,
    margin: f32,
    polygons: usize,
    vertices: usize,
    materials: usize,
    merged: Option<Merged>,
    split: Split,
    /// Vertices that a polygon names, each once in the world.
    named: usize,
    /// Parts that were cut once more, since their trees had too many nodes.
    again: usize,
    took: [Duration; 3],
}

/// Splits the world that a command line names.
pub fn answer(line: &Line) -> Result<Answer, Failure> {
    let (target, given, merge) = (line.folder()?, line.mesh()?, line.merge()?);
    let path = &line.words[0];
    let start = Instant::now();
    let (source, merged) = during(&format!("reading {path}"), || Source::read(path, merge.as_ref()))?;
    let world = source.world(path, given)?;
    let read = start.elapsed();
    let polygons = counted(world.pieces.len(), "polygon");
    let parts = during(&format!("cutting {polygons}"), || cut(&world));
    let cut = start.elapsed();
    let doing = format!("preparing {polygons} as kind {}, by children", world.kind);
    let split = counting(&doing, parts.len(), |done| match &target {
        Some(target) => fill_folder(target, |folder| write(&world, &parts, done, folder)),
        None => prepare(&world, &parts, done, |_, _| Ok(())),
    })?;
    let summary = Summary {
        file: path.clone(),
        kind: world.kind,
        margin: world.margin,
        polygons: world.pieces.len(),
        vertices: world.vertices.len(),
        materials: world.materials.len(),
        merged,
        named: named(&world),
        again: split.children.len() - parts.len(),
        split,
        took: [read, cut - read, start.elapsed() - cut],
    };
    let out = target.map(|target| target.path);
    let text = if line.json() { format!("{}\n", summary.json(out)) } else { summary.text(out) };
    Ok(Answer::of(text))
}

fn named(world: &World) -> usize {
    let mut named = vec![false; world.vertices.len()];
    for corner in world.pieces.iter().flat_map(|piece| piece.corners) {
        named.get_mut(corner as usize).into_iter().for_each(|named| *named = true);
    }
    named.into_iter().filter(|&named| named).count()
}

impl Summary {
    fn children(&self) -> &[Made] {
        &self.split.children
    }

    /// Vertices that stand in several children, counted each time but the first.
    fn doubled(&self) -> usize {
        self.children().iter().map(|made| made.vertices).sum::<usize>() - self.named
    }

    /// `29980 to 30020 polygons`, or `1 polygon` where all are equal.
    fn span(&self, noun: &str, of: impl Fn(&Made) -> usize) -> String {
        let counts: Vec<usize> = self.children().iter().map(of).collect();
        let (least, most) = (counts.iter().min().copied().unwrap_or(0), counts.iter().max().copied().unwrap_or(0));
        match least < most {
            true => format!("{least} to {}", counted(most, noun)),
            false => counted(most, noun),
        }
    }

    fn text(&self, out: Option<&str>) -> String {
        let (p, v, m) =
            (counted(self.polygons, "polygon"), vertices(self.vertices), counted(self.materials, "material"));
        let margin = float(self.margin);
        let mut text = format!("{}: kind {}, {p}, {v}, {m}, margin {margin}\n", self.file, self.kind);
        let not_finite = self.children().iter().enumerate().find_map(|(k, made)| Some((k, made.not_finite.as_ref()?)));
        text += &not_finite.map_or(String::new(), |(k, words)| format!("NOT FINITE child {k}, {words}\n"));
        if let Some(merged) = &self.merged {
            text += &format!("merged    {}\n", merged.words());
        }
        text += &format!("children  {}\n", self.children_words());
        let unnamed = match self.vertices - self.named {
            0 => String::new(),
            n => format!("; {} that no polygon names {} left out", vertices(n), if n == 1 { "is" } else { "are" }),
        };
        text += &format!("vertices  {} doubled along the cuts{unnamed}\n", self.doubled());
        text += &shrunk_words(self.children()).map_or(String::new(), |words| format!("shrunk    {words}\n"));
        text += &format!("tree      {}\n", self.tree_words());
        if self.kind == bounds::Geometry::BVH {
            text += &format!("premises  {}\n", self.premises_words());
        }
        let [read, cut, prepared] = self.took.map(|took| format!("{:.1} s", took.as_secs_f64()));
        let on = counted(processors(), "processor");
        text += &format!("time      {read} to read, {cut} to cut, {prepared} to prepare on {on}\n");
        text + &match out {
            Some(path) => format!("written to {path}, a folder a child\n"),
            None => "not written: --out DIR writes it\n".into(),
        }
    }

    fn children_words(&self) -> String {
        let (p, v) = (self.span("polygon", |made| made.part.len()), self.span("vertex", |made| made.vertices));
        let each = format!("{p}, {v} and {} in use", self.span("material", |made| made.materials));
        let again = match self.again {
            0 => String::new(),
            again => format!("; {} cut once more, for the tree had too many nodes", counted(again, "part")),
        };
        match self.children().len() {
            1 => format!("1: it is within the limits of a mesh; of {each}"),
            n => format!("{n}, of {each} each{again}"),
        }
    }

    fn tree_words(&self) -> String {
        match &self.split.composite.tree {
            Some(tree) => {
                let nodes = counted(tree.built.nodes_count as usize, "node");
                format!("{nodes} in {} over the children's boxes", counted(tree.built.trees_count as usize, "range"))
            }
            None => format!("none over the children: {WITHOUT_TREE} and fewer have none"),
        }
    }

    fn premises_words(&self) -> String {
        let outside: Vec<usize> = (0..self.children().len()).filter(|&k| self.children()[k].broken.is_some()).collect();
        match outside[..] {
            [] => "every child is within the premises".into(),
            [first, ..] => {
                let broken = self.children()[first].broken.clone().unwrap_or_default();
                let n = outside.len();
                let of = format!("{n} of {} {} OUTSIDE the premises", self.children().len(), verb(n, "lie"));
                format!("{of}, the first child {first} ({broken}): polygons may be missed")
            }
        }
    }

    fn json(&self, out: Option<&str>) -> Json {
        let child = |made: &Made| {
            Json::Object(vec![
                ("polygons", made.part.len().into()),
                ("vertices", made.vertices.into()),
                ("materials", made.materials.into()),
                ("shrunk_by", made.shrunk.map(|shrunk| shrunk.json()).into()),
                ("box_min", Json::point(made.bound.box_min)),
                ("box_max", Json::point(made.bound.box_max)),
                ("not_finite", made.not_finite.clone().into()),
                ("outside", made.broken.clone().into()),
            ])
        };
        let tree = self.split.composite.tree.as_ref().map(|tree| {
            Json::Object(vec![
                ("nodes_count", (tree.built.nodes_count as usize).into()),
                ("trees_count", (tree.built.trees_count as usize).into()),
            ])
        });
        let [read, cut, prepared] = self.took.map(|took| Json::from(took.as_millis() as usize));
        Json::Object(vec![
            ("kind", (self.kind as usize).into()),
            ("polygons", self.polygons.into()),
            ("vertices", self.vertices.into()),
            ("materials", self.materials.into()),
            ("merged", self.merged.as_ref().map(Merged::json).into()),
            ("doubled_vertices", self.doubled().into()),
            ("left_out_vertices", (self.vertices - self.named).into()),
            ("children", Json::list(self.children().iter().map(child))),
            ("tree", tree.into()),
            ("milliseconds", Json::Object(vec![("read", read), ("cut", cut), ("prepare", prepared)])),
            ("out", out.into()),
        ])
    }
}
