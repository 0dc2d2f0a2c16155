//! `bounds query` over a split world: through the composite's tree to children, and through theirs to polygons.

use super::mesh::{how, queried};
use super::{queries, said};
use crate::cli::{Answer, Line};
use crate::dump::Dump;
use crate::failure::Failure;
use crate::json::Json;
use crate::mesh::rounded::{Query, Rounded};
use crate::mesh::MeshFolder;
use crate::number::{counted, some};
use crate::parallel::each;
use crate::progress::counting;
use crate::queried::{heading, Handed, Queried, Widened};
use crate::world::folder::WorldFolder;
use bounds::Geometry;

/// A child that is asked.
struct Child {
    folder: MeshFolder,
    /// None where it has no polygon.
    tree: Option<Dump>,
    rounded: Option<Rounded>,
}

/// What a query of a world came to.
struct Answered {
    asked: Query,
    /// Of the composite's tree.
    widened: Widened,
    /// The children that it led to, and all records read.
    led: Vec<usize>,
    reads: usize,
    /// Of each child with polygons what it handed out, and what meets and was not handed out.
    children: Vec<(usize, Queried)>,
}

pub fn answer(line: &Line) -> Result<Answer, Failure> {
    let path = &line.words[0];
    let world = WorldFolder::read(path)?;
    if world.bound != Geometry::BVH {
        let words =
            format!("{path} is of kind {}, which has no trees: expected a world split with --kind 8", world.bound);
        return Err(Failure::Usage(words));
    }
    let asked = queries(line)?;
    let n = world.children();
    let children = counting("reading children", n, |done| each(n, done, |k| Child::read(&world, k)))?;
    let answers = asked.into_iter().map(|asked| answered(&world, &children, asked)).collect::<Result<Vec<_>, _>>()?;
    Ok(said(line, &answers, |answer| answer.text(&world), |answer| answer.json(&world)))
}

impl Child {
    fn read(world: &WorldFolder, k: usize) -> Result<Child, Failure> {
        let folder = world.child(k)?;
        let rounded = folder.mesh.as_ref().map(Rounded::of).transpose()?.flatten();
        Ok(Child { tree: folder.tree()?, rounded, folder })
    }
}

/// The composite's tree is asked as wide as the child needs whose vertices were moved most. A child that it does not lead to hands
/// nothing out: what meets there is missed.
fn answered(world: &WorldFolder, children: &[Child], asked: Query) -> Result<Answered, Failure> {
    let by = children
        .iter()
        .filter_map(|child| child.rounded.as_ref())
        .fold([0.0f64; 3], |by, rounded| [0, 1, 2].map(|axis| by[axis].max(rounded.by[axis])));
    let wide = (by != [0.0; 3]).then(|| (Rounded { by, boxes: Vec::new() }.widened(asked), by));
    let walked = wide.map_or(asked, |(query, _)| query);
    let (led, mut reads) = world.led_to(walked.min, walked.max)?;
    let mut answers = Vec::new();
    for (k, child) in children.iter().enumerate() {
        let Some(tree) = &child.tree else { continue };
        let mut answer = queried(&child.folder, tree, child.rounded.as_ref(), asked)?;
        if led.binary_search(&k).is_ok() {
            reads += answer.reads;
        } else {
            let met = answer.handed.drain(..).filter(|handed| handed.meets == Some(true));
            answer.missed.extend(met);
        }
        answers.push((k, answer));
    }
    Ok(Answered { asked, widened: wide, led, reads, children: answers })
}

impl Answered {
    fn text(&self, world: &WorldFolder) -> String {
        let mut text = heading(self.asked, &self.widened);
        let n = counted(world.children(), "child");
        text += &match (&world.tree, &self.led[..]) {
            (None, _) => format!("  {n} and no tree over them: each is asked\n"),
            (Some(_), []) => format!("  led to none of {n}\n"),
            (Some(_), led) => format!("  led to {} of {n}: {}\n", led.len(), some(led)),
        };
        let (mut handed, mut meeting, mut missed) = (0, 0, 0);
        for (k, child) in &self.children {
            for one in &child.handed {
                text += &format!("  {} {}\n", name(world, *k, one), how(one.meets, child.known));
            }
            for one in &child.missed {
                text += &format!("  {} MISSED: its box meets as floats, not handed out\n", name(world, *k, one));
            }
            handed += child.handed.len();
            meeting += child.meeting();
            missed += child.missed.len();
        }
        text + &format!(
            "  {handed} handed out, {meeting} meet, {missed} missed; {} read\n",
            counted(self.reads, "record")
        )
    }

    fn json(&self, world: &WorldFolder) -> Json {
        let list = |of: fn(&Queried) -> &Vec<Handed>| {
            let all = self.children.iter().flat_map(move |(k, child)| of(child).iter().map(move |one| (*k, one)));
            Json::list(all.map(|(k, one)| json(world, k, one)))
        };
        Json::Object(vec![
            ("min", Json::point(self.asked.min)),
            ("max", Json::point(self.asked.max)),
            ("led_to", Json::list(self.led.iter().copied())),
            ("polygons", list(|child| &child.handed)),
            ("missed", list(|child| &child.missed)),
            ("reads", self.reads.into()),
        ])
    }
}

/// `child 3 polygon 812 (given 45: world.obj line 1702, v 590 591 632)`.
fn name(world: &WorldFolder, child: usize, handed: &Handed) -> String {
    let line = if handed.source.is_some() { String::new() } else { format!(" {}:", world.origin(child, handed.place)) };
    format!("child {child} {}{line}", handed.name().trim_end())
}

fn json(world: &WorldFolder, child: usize, handed: &Handed) -> Json {
    Json::Object(vec![
        ("child", child.into()),
        ("polygon", handed.position.into()),
        ("given", handed.place.into()),
        ("line", world.line(child, handed.place).into()),
        ("meets", handed.meets.into()),
    ])
}
