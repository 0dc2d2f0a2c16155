//! Links between triangles that share a side.

use super::polygon::{kind, RECORD};
use oracle::polygon::LIMIT;

/// Over the first `n` of the records: bytes 10 to 15 of a triangle become its links, all else stays. The first two sides
/// on an edge link to each other's triangle, later ones to the first's; one alone to -1. Refusals 1, 2, and 6 for a
/// record of no kind, which the source has not.
pub fn update(records: &mut [u8], n: usize) -> Result<(), u32> {
    if n > LIMIT {
        return Err(1);
    }
    let records = records.get_mut(..RECORD * n).ok_or(2u32)?;
    if records.chunks_exact(RECORD).any(|record| kind(record) > 4) {
        return Err(6);
    }
    let mut sides = sides(records);
    sides.sort_unstable();
    for same in sides.chunk_by(|a, b| a.edge == b.edge) {
        for (i, side) in same.iter().enumerate() {
            let link = match (i, same.get(1)) {
                (0, None) => u16::MAX,
                (0, Some(second)) => second.triangle,
                _ => same[0].triangle,
            };
            let at = RECORD * side.triangle as usize + 10 + 2 * side.slot;
            records[at..at + 2].copy_from_slice(&link.to_le_bytes());
        }
    }
    Ok(())
}

/// Ordered by edge, then as they come.
#[derive(Clone, Copy, PartialEq, Eq, PartialOrd, Ord)]
struct Side {
    /// Both corners, the lower first.
    edge: (u16, u16),
    triangle: u16,
    slot: usize,
}

fn sides(records: &[u8]) -> Vec<Side> {
    let triangles = records.chunks_exact(RECORD).enumerate().filter(|(_, record)| kind(record) == 0);
    let of = |(triangle, record): (usize, &[u8])| {
        let corner = |i: usize| u16::from_le_bytes([record[4 + 2 * i], record[5 + 2 * i]]) & 0x7FFF;
        let corners = [corner(0), corner(1), corner(2)];
        [0, 1, 2].map(|slot| {
            let (a, b) = (corners[slot], corners[(slot + 1) % 3]);
            Side { edge: (a.min(b), a.max(b)), triangle: triangle as u16, slot }
        })
    };
    triangles.flat_map(of).collect()
}

#[cfg(test)]
mod tests {
    use super::*;
    use crate::plain::polygon::write;
    use oracle::polygon::Polygon;

    /// The scope document's own value.
    #[test]
    fn later_sides_link_to_the_first() {
        let mut records = [0; 3 * RECORD];
        for (record, v) in records.chunks_exact_mut(RECORD).zip([[0, 1, 2], [2, 1, 3], [1, 2, 4]]) {
            write(record, Polygon::Triangle { material: 0, area: 0.0, v, links: [5; 3] }).expect("room");
        }
        assert_eq!(update(&mut records, 3), Ok(()));
        let links = |i: usize| -> [i16; 3] {
            [10, 12, 14].map(|at| i16::from_le_bytes([records[RECORD * i + at], records[RECORD * i + at + 1]]))
        };
        assert_eq!([links(0), links(1), links(2)], [[-1, 1, -1], [0, -1, -1], [0, -1, -1]]);
        assert_eq!((update(&mut records, 4), update(&mut records, 32_768)), (Err(2), Err(1)));
        records[16] = 5;
        assert_eq!(update(&mut records, 3), Err(6));
    }
}
