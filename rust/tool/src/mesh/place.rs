//! Where a field of a prepared mesh stands, and the rules that put it there.

use crate::field::mesh::{Centre, Derived, InPolygon, MeshField};
use crate::rules::Rule::{self, *};
use std::ops::Range;

/// The rules that made a field, and those by which its record came to its place: with a tree the order of the leaves.
pub fn rules_of(field: MeshField, of: &Derived) -> Vec<Rule> {
    let more: &[Rule] = match (field, of.tree.is_some()) {
        (MeshField::Polygon(_, InPolygon::Link(_)), true) => &[K2, K3],
        (MeshField::Polygon(..) | MeshField::MaterialIndex(_), true) => &[K2],
        (MeshField::Polygon(_, InPolygon::Link(_)), false) => &[],
        (MeshField::Polygon(..), false) => &[G12],
        (MeshField::Octant(..) | MeshField::OctantCount(_), _) => &[K6],
        _ => &[],
    };
    let made = field.rules(of);
    made.iter().chain(more.iter().filter(|rule| !made.contains(rule))).copied().collect()
}

/// The bytes of a field within its record or point, or, of what has neither, within its file: frame.bin, indices.bin,
/// octants.bin, order.bin. A triangle's area shares byte 0 with the kind. The count of materials stands in dump.txt, and the
/// bits that a polygon does not use are here and there.
pub fn place_of(field: MeshField, of: &Derived) -> Option<Range<usize>> {
    let four = |at: usize| at..at + 4;
    Some(match field {
        MeshField::Quantum(axis) => four(4 * axis as usize),
        MeshField::Box(corner, axis) => four(12 + 12 * corner as usize + 4 * axis as usize),
        MeshField::Centre(Centre::Box, axis) => four(36 + 4 * axis as usize),
        MeshField::Centre(Centre::Sphere, axis) => four(48 + 4 * axis as usize),
        MeshField::Radius => four(60),
        MeshField::Polygon(_, InPolygon::Zeros) => return None,
        MeshField::Polygon(k, at) => in_record(at, of.polygon(k)?[0] & 7),
        MeshField::MaterialCount => return None,
        MeshField::Material(_) => 0..8,
        MeshField::MaterialIndex(k) => k..k + 1,
        MeshField::Vertex(_, axis) | MeshField::Shrunk(_, axis) => 2 * axis as usize..2 * axis as usize + 2,
        MeshField::VertexFloat(_, axis) | MeshField::ShrunkFloat(_, axis) => four(4 * axis as usize),
        MeshField::OctantCount(k) => four(4 * k),
        MeshField::Octant(k, i) => {
            let before: usize = of.prepared.octants.as_ref()?.items.iter().take(k).map(Vec::len).sum();
            four(32 + 4 * (before + i))
        }
        MeshField::Tree(field) => field.bytes(),
    })
}

fn in_record(at: InPolygon, kind: u8) -> Range<usize> {
    let two = |at: usize| at..at + 2;
    match (at, kind) {
        (InPolygon::Kind, _) => 0..1,
        (InPolygon::Area, _) => 0..4,
        (InPolygon::Vertex(i), 0 | 3) => two(4 + 2 * i),
        (InPolygon::Vertex(0), _) => two(2),
        (InPolygon::Vertex(_), _) => two(8),
        (InPolygon::Radius, _) => 4..8,
        (InPolygon::Link(i), _) => two(10 + 2 * i),
        (InPolygon::Zeros, _) => 0..16,
    }
}
