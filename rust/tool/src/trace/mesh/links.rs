//! Rules E1 and E2: triangles that share an edge.

use super::polygon::corners;
use bounds::Polygon;
use std::collections::HashMap;

/// Two vertices, the lower first.
pub type Edge = (usize, usize);

/// A side of a triangle: the polygon and which of its three.
#[derive(Clone, Copy, Debug, PartialEq, Eq)]
pub struct Side {
    pub polygon: usize,
    pub slot: usize,
}

/// The sides on each edge as they come, and what each triangle's sides are linked to.
#[derive(Clone, Debug, Default)]
pub struct Links {
    edges: HashMap<Edge, Vec<Side>>,
    /// Of what is no triangle -1.
    pub links: Vec<[i16; 3]>,
}

/// E1: from a corner to the next, either way.
pub fn edge(corners: [usize; 3], slot: usize) -> Edge {
    let (a, b) = (corners[slot], corners[(slot + 1) % 3]);
    (a.min(b), a.max(b))
}

impl Links {
    /// Of polygons in this order.
    pub fn of<'a>(polygons: impl Iterator<Item = &'a Polygon>) -> Links {
        let mut all = Links::default();
        for (polygon, corners) in polygons.map(corners).enumerate() {
            all.links.push([-1; 3]);
            for slot in 0..if corners.is_some() { 3 } else { 0 } {
                let edge = edge(corners.unwrap_or_default(), slot);
                all.edges.entry(edge).or_default().push(Side { polygon, slot });
            }
        }
        for sides in all.edges.values() {
            for (at, side) in sides.iter().enumerate() {
                all.links[side.polygon][side.slot] = linked(sides, at).map_or(-1, |to| to as i16);
            }
        }
        all
    }

    /// The sides on an edge.
    pub fn on(&self, edge: Edge) -> &[Side] {
        self.edges.get(&edge).map_or(&[], Vec::as_slice)
    }
}

/// E2: the first two link to one another, later ones to the first.
fn linked(sides: &[Side], at: usize) -> Option<usize> {
    match (at, sides.get(1)) {
        (0, second) => second.map(|side| side.polygon),
        _ => Some(sides[0].polygon),
    }
}
