//! Rules E1 to E3: triangles that share an edge.

use crate::polygon::{corners, read_all, RECORD};
use crate::POLYGONS;
use bounds::{Polygon, Refusal};
use std::collections::HashMap;

/// Two vertices, the lower first.
pub type Edge = (usize, usize);

/// A side of a triangle: the polygon and which of its three.
#[derive(Clone, Copy, Debug, PartialEq, Eq)]
pub struct Side {
    pub polygon: usize,
    pub slot: usize,
}

/// The sides on each edge as they come, and what each triangle's sides are linked to.
#[derive(Clone, Debug, Default)]
pub struct Links {
    edges: HashMap<Edge, Vec<Side>>,
    /// Of what is no triangle -1.
    pub links: Vec<[i16; 3]>,
}

/// E1: from a corner to the next, either way.
pub fn edge(corners: [usize; 3], slot: usize) -> Edge {
    let (a, b) = (corners[slot], corners[(slot + 1) % 3]);
    (a.min(b), a.max(b))
}

impl Links {
    /// Of polygons in this order.
    pub fn of<'a>(polygons: impl Iterator<Item = &'a Polygon>) -> Links {
        let mut all = Links::default();
        for (polygon, corners) in polygons.map(corners).enumerate() {
            all.links.push([-1; 3]);
            for slot in 0..if corners.is_some() { 3 } else { 0 } {
                let edge = edge(corners.unwrap_or_default(), slot);
                all.edges.entry(edge).or_default().push(Side { polygon, slot });
            }
        }
        for sides in all.edges.values() {
            for (at, side) in sides.iter().enumerate() {
                all.links[side.polygon][side.slot] = linked(sides, at).map_or(-1, |to| to as i16);
            }
        }
        all
    }

    /// The sides on an edge.
    pub fn on(&self, edge: Edge) -> &[Side] {
        self.edges.get(&edge).map_or(&[], Vec::as_slice)
    }
}

/// E2: the first two link to one another, later ones to the first.
fn linked(sides: &[Side], at: usize) -> Option<usize> {
    match (at, sides.get(1)) {
        (0, second) => second.map(|side| side.polygon),
        _ => Some(sides[0].polygon),
    }
}

/// E3: over the first `n` of these records, bytes 10 to 15 of a triangle become its links, and all else stays. Refusals 1, 2
/// and 6.
pub fn update(records: &mut [u8], n: usize) -> Result<(), Refusal> {
    if n > POLYGONS {
        return Err(Refusal::ListTooLong);
    }
    let records = records.get_mut(..RECORD * n).ok_or(Refusal::BufferTooShort)?;
    let polygons = read_all(records, &[])?;
    let Links { links, .. } = Links::of(polygons.iter());
    for ((record, polygon), links) in records.chunks_exact_mut(RECORD).zip(&polygons).zip(links) {
        if corners(polygon).is_some() {
            record[10..].copy_from_slice(links.map(i16::to_le_bytes).as_flattened());
        }
    }
    Ok(())
}

#[cfg(test)]
mod tests {
    use super::*;
    use crate::polygon::record;

    /// The scope document's own value.
    #[test]
    fn later_sides_link_to_the_first() {
        let triangle = |v| record(&Polygon::Triangle { material: 0, area: 0.0, v, edges: [5; 3] });
        let mut records = [[0, 1, 2], [2, 1, 3], [1, 2, 4]].map(triangle).concat();
        assert_eq!(update(&mut records, 3), Ok(()));
        let links = |i: usize| -> [i16; 3] {
            [10, 12, 14].map(|at| i16::from_le_bytes([records[RECORD * i + at], records[RECORD * i + at + 1]]))
        };
        assert_eq!([links(0), links(1), links(2)], [[-1, 1, -1], [0, -1, -1], [0, -1, -1]]);
        assert_eq!(update(&mut records, 4), Err(Refusal::BufferTooShort));
        assert_eq!(update(&mut records, 32_768), Err(Refusal::ListTooLong));
        records[16] = 5;
        assert_eq!(update(&mut records, 3), Err(Refusal::UnknownKind));
    }
}
