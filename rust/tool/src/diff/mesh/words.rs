//! What there is to say of a cause: its values in a and in b.

use super::causes::{MeshCause, MeshFinder};
use super::input::{Change, Given};
use super::MeshSide;
use crate::diff::input as boxes;
use crate::explain::mesh::why;
use crate::field::mesh::{on, InPolygon, MeshField};
use crate::field::AXES;
use crate::number::{float, some};
use crate::trace::mesh::links::{edge, Edge};
use crate::trace::mesh::polygon::corners;
use crate::trace::mesh::shrink::Shrinking;
use std::collections::BTreeSet;

/// Longer lists are cut, and say so.
const SHOWN: usize = 8;

/// A cause in words.
pub fn lines(finder: &MeshFinder, changes: &[Change], cause: MeshCause, fields: &[MeshField]) -> Vec<String> {
    let of = |which: fn(Given) -> bool| listed(changes, |change| which(change.of));
    match cause {
        MeshCause::Bytes => vec!["the line `bytes` above names them; what stands there is not explained".into()],
        MeshCause::Kind => of(|of| of == Given::Kind),
        MeshCause::Polygons => of(|of| of == Given::Polygons),
        MeshCause::Vertices => of(|of| of == Given::Vertices),
        MeshCause::Box(axis) => box_lines(finder.sides, changes, axis),
        MeshCause::Frame => of(|of| matches!(of, Given::Centre(0 | 1, _) | Given::Radius)),
        MeshCause::Tree(cause) => match &finder.tree {
            Some(tree) => tree.lines(&tree.box_changes(), cause),
            None => Vec::new(),
        },
        MeshCause::Vertex => of(|of| matches!(of, Given::Vertex(..))),
        MeshCause::Polygon => of(|of| matches!(of, Given::Polygon(..))),
        MeshCause::Edges => edge_lines(finder.sides, fields),
        MeshCause::Material => of(|of| matches!(of, Given::Number(_) | Given::Material(_) | Given::Materials)),
        MeshCause::Margin => {
            let pairs = finder.sides.iter().zip(["a", "b"]);
            pairs.filter_map(|(side, name)| Some(margin_line(side.trace.shrinking.as_ref()?, name))).collect()
        }
        MeshCause::Around => around_lines(finder.sides, changes),
        MeshCause::Unknown => vec!["not explained".into()],
    }
}

fn listed(changes: &[Change], which: impl Fn(&Change) -> bool) -> Vec<String> {
    let all: Vec<String> = changes.iter().filter(|change| which(change)).map(Change::to_string).collect();
    cut(all)
}

fn cut(mut lines: Vec<String>) -> Vec<String> {
    let more = lines.len().saturating_sub(SHOWN);
    lines.truncate(SHOWN);
    lines.extend((more > 0).then(|| format!("and {more} more")));
    lines
}

fn box_lines(sides: &[MeshSide; 2], changes: &[Change], axis: usize) -> Vec<String> {
    let mut lines = listed(changes, |change| match change.of {
        Given::Box(_, at) | Given::Centre(2, at) => at == axis,
        _ => false,
    });
    let [a, b] = [0, 1].map(|side: usize| float(on(sides[side].trace.prepared.quantum, AXES[axis])));
    if a != b {
        lines.push(format!("quantum.{0} {a} -> {b}: every vertex' {0} has another unit", AXES[axis]));
    }
    lines
}

/// The sides on the edges of the first links that differ.
fn edge_lines(sides: &[MeshSide; 2], fields: &[MeshField]) -> Vec<String> {
    let links = fields.iter().filter_map(|field| match field {
        MeshField::Polygon(k, InPolygon::Link(slot)) => Some(edge(corners(sides[0].trace.polygon(*k))?, *slot)),
        _ => None,
    });
    let edges: BTreeSet<_> = links.collect();
    let told = |side: &MeshSide, edge| {
        let on = side.trace.links.on(edge).iter();
        let named: Vec<String> =
            on.map(|at| format!("given polygon {} side {}", side.trace.order[at.polygon], at.slot)).collect();
        if named.is_empty() {
            "none".into()
        } else {
            named.join(", ")
        }
    };
    let line = |edge: (usize, usize)| {
        format!("edge {}-{}   a: {}   b: {}", edge.0, edge.1, told(&sides[0], edge), told(&sides[1], edge))
    };
    let doubled: BTreeSet<String> = edges.iter().flat_map(|&edge| doubles(sides, edge)).collect();
    cut(edges.into_iter().map(line).chain(doubled).collect())
}

/// Where a polygon has left an edge for another vertex at the same place: it looks the same and is no longer linked.
fn doubles(sides: &[MeshSide; 2], from: Edge) -> Vec<String> {
    let given = |side: &MeshSide| -> BTreeSet<(usize, usize)> {
        side.trace.links.on(from).iter().map(|at| (side.trace.order[at.polygon], at.slot)).collect()
    };
    let both = [given(&sides[0]), given(&sides[1])];
    let mut lines = Vec::new();
    for (here, name) in [(0, "b"), (1, "a")] {
        let there = sides[1 - here].trace.of;
        for &(polygon, slot) in both[here].difference(&both[1 - here]) {
            let Some(corners) = there.polygons.get(polygon).and_then(corners) else { continue };
            let to = edge(corners, slot);
            let left = [from.0, from.1].into_iter().filter(|v| ![to.0, to.1].contains(v));
            let taken = [to.0, to.1].into_iter().filter(|v| ![from.0, from.1].contains(v));
            let same =
                |x: usize, y: usize| there.vertices.get(x).is_some() && there.vertices.get(x) == there.vertices.get(y);
            let twins = left.zip(taken).filter(|&(x, y)| same(x, y));
            lines.extend(twins.map(|(x, y)| {
                format!("in {name} given polygon {polygon} has vertex {y} instead of {x}, at the SAME place: two vertices where one was")
            }));
        }
    }
    lines
}

fn margin_line(of: &Shrinking, name: &str) -> String {
    let start = format!("{name}: margin {}, to begin with {}", float(of.given), float(of.start));
    let failed = of.trials.iter().filter(|trial| trial.failed.is_some()).count();
    let first = of.trials.first().map_or(String::new(), why);
    match of.passed {
        Some(margin) if failed == 0 => format!("{start}: {} passes", float(margin)),
        Some(margin) => format!("{start}, fails: {first}; after {failed} such {} passes", float(margin)),
        None if failed == 0 => format!("{start}, is not tried: by the vertices' normals"),
        None => format!("{start}, fails: {first}; {failed} tried and none passes: by the vertices' normals"),
    }
}

/// What is around the first vertex that is moved elsewhere.
fn around_lines(sides: &[MeshSide; 2], changes: &[Change]) -> Vec<String> {
    let named = elsewhere(sides);
    let mut lines = Vec::new();
    if !named.is_empty() {
        lines.push(format!("moved elsewhere, themselves being as they were: vertices {}", some(&named)));
    }
    let around = |side: &MeshSide, name: &str| {
        let of = side.trace.shrinking.as_ref()?;
        let (&vertex, to) = (named.first()?, of.moved[*named.first()?].map(float).join(", "));
        let way = match of.passed {
            Some(margin) => match of.way(vertex, margin) {
                Some((way, _)) if way.ring.is_empty() => format!("polygon {}, nothing around it", way.polygon),
                Some((way, _)) => format!("polygon {}, around it {}", way.polygon, some(&way.ring)),
                None => "no triangle".into(),
            },
            None => format!("against the sum ({})", of.sums[vertex].map(float).join(", ")),
        };
        Some(format!("vertex {vertex} in {name}: {way}; to ({to})"))
    };
    lines.extend(sides.iter().zip(["a", "b"]).filter_map(|(side, name)| around(side, name)));
    let near = |change: &Change| {
        matches!(change.of, Given::Vertex(..) | Given::Polygon(..) | Given::Polygons)
            || matches!(change.of, Given::Transform(_) | Given::Centre(2, _))
    };
    lines.extend(listed(changes, near));
    lines
}

/// The vertices that are as they were and shrunk elsewhere, before they are stored.
fn elsewhere(sides: &[MeshSide; 2]) -> Vec<usize> {
    let [Some(a), Some(b)] = [0, 1].map(|side: usize| sides[side].trace.shrinking.as_ref()) else { return Vec::new() };
    let same = |one: &[f32; 3], two: &[f32; 3]| {
        one.iter().zip(two).all(|(x, y)| x.to_bits() == y.to_bits() || x.is_nan() && y.is_nan())
    };
    let n = a.points.len().min(b.points.len());
    (0..n).filter(|&k| same(&a.vertices[k], &b.vertices[k]) && !same(&a.moved[k], &b.moved[k])).collect()
}

/// The boxes' changes of the trees, as those of a list.
impl crate::diff::causes::Finder<'_> {
    fn box_changes(&self) -> Vec<boxes::Change> {
        let [a, b] = self.dumps();
        boxes::changes(a, b)
    }
}
