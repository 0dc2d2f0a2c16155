//! The children of a world, prepared on all processors, and the composite over them.

use super::child::child;
use super::cut::{halves, parts, Limits};
use super::World;
use crate::failure::Failure;
use crate::mesh::state::{broken_words, premises};
use crate::mesh::{MeshFolder, NotFinite, Shrunk};
use crate::number::counted;
use crate::parallel::each;
use bounds::{Child, Composite, Geometry, Mat4, Refusal, ShrunkBy};
use std::sync::atomic::AtomicUsize;

/// What stays at hand of a child when its records are written and gone.
#[derive(Clone, Debug)]
pub struct Made {
    /// The numbers of its polygons in the world, rising: the order in which they were given to it.
    pub part: Vec<u32>,
    pub vertices: usize,
    /// Materials that its polygons use.
    pub materials: usize,
    /// Which of its vertices are not finite, in words.
    pub not_finite: Option<String>,
    /// What breaks the premises of its polygons' boxes first, in words.
    pub broken: Option<String>,
    /// How its vertices were shrunk, of kind 4.
    pub shrunk: Option<Shrunk>,
    /// As the composite takes it.
    pub bound: Child,
}

impl Made {
    /// The number of its first polygon in the world, which no other child has; 0 of one that has none and is the only one.
    pub fn first(&self) -> u32 {
        first(&self.part)
    }
}

/// How many children were shrunk by a margin and how many by normals, with the first of each; none of kind 8.
pub fn shrunk_words(children: &[Made]) -> Option<String> {
    let all = children.iter().enumerate().filter_map(|(k, made)| Some((k, made.shrunk?)));
    let (margins, normals): (Vec<_>, Vec<_>) = all.partition(|(_, how)| matches!(how.by, ShrunkBy::Margin(_)));
    let told = |of: &[(usize, Shrunk)], by: &str| {
        let (k, how) = of.first()?;
        Some(format!("{} by {by}, the first child {k} {}", counted(of.len(), "child"), how.words()))
    };
    let words: Vec<String> = [told(&margins, "a margin"), told(&normals, "normals")].into_iter().flatten().collect();
    (!words.is_empty()).then(|| words.join("; "))
}

fn first(part: &[u32]) -> u32 {
    part.first().copied().unwrap_or(0)
}

/// A world that was split: its children in the order of their numbers, and their composite.
pub struct Split {
    pub children: Vec<Made>,
    pub composite: Composite,
}

/// The parts of a world, each within the limits of a mesh.
pub fn cut(world: &World) -> Vec<Vec<u32>> {
    parts(&world.pieces, &world.vertices, Limits::MESH)
}

/// Prepares each part. `keep` is given each child as it is prepared, with the number of its [first](Made::first) polygon;
/// `done` counts parts.
pub fn prepare(
    world: &World,
    parts: &[Vec<u32>],
    done: &AtomicUsize,
    keep: impl Fn(&MeshFolder, u32) -> Result<(), Failure> + Sync,
) -> Result<Split, Failure> {
    let made = each(parts.len(), done, |k| fitted(world, &parts[k], &keep))?;
    let children: Vec<Made> = made.into_iter().flatten().collect();
    let bounds: Vec<Child> = children.iter().map(|made| made.bound).collect();
    let composite = Composite::prepare(&bounds).map_err(|refusal| too_many(world, bounds.len(), refusal))?;
    Ok(Split { children, composite })
}

/// A part whose tree has too many nodes is cut again. That comes to an end: of 16,384 polygons or fewer no tree has more than
/// 32,767 nodes, which are twice as many less one.
fn fitted(
    world: &World,
    part: &[u32],
    keep: &(impl Fn(&MeshFolder, u32) -> Result<(), Failure> + Sync),
) -> Result<Vec<Made>, Failure> {
    let folder = match MeshFolder::prepare(&world.origin.file, child(world, part)) {
        Err(failure) if failure.refusal() == Some(Refusal::TooManyNodes.number()) && part.len() > 1 => {
            let [first, second] = halves(part, &world.pieces, &world.vertices);
            return Ok([fitted(world, &first, keep)?, fitted(world, &second, keep)?].concat());
        }
        answer => answer?,
    };
    keep(&folder, first(part))?;
    Ok(vec![made(&folder, part)?])
}

/// What stays at hand of a prepared child.
pub fn made(folder: &MeshFolder, part: &[u32]) -> Result<Made, Failure> {
    let (parts, prepared, mesh) = (&folder.parts, &folder.prepared, folder.input()?);
    let geometry = &mesh.geometry;
    // Of kind 8 the box is the tree's, which lies where the transform has put the polygons; of kind 4 it lies before it.
    let transform = if parts.kind == Geometry::BVH { Mat4::identity() } else { geometry.transform };
    Ok(Made {
        part: part.to_vec(),
        vertices: parts.vertices_count,
        materials: parts.materials_count,
        not_finite: NotFinite::of(mesh).map(|found| found.words(&mesh.origin)),
        broken: premises(folder)?.and_then(|premises| premises.broken).map(broken_words),
        shrunk: Shrunk::of(geometry, folder.shrunk_by),
        bound: Child::new(prepared.box_min, prepared.box_max, geometry.margin, transform),
    })
}

fn too_many(world: &World, children: usize, refusal: Refusal) -> Failure {
    let words = format!("{}: {}; a composite has 16,384 at most", world.origin.file, counted(children, "child"));
    Failure::library(refusal, format!("{refusal}\n{words}: merge materials, or cut it into several files"))
}
