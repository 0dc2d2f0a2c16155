//! Polygons: their records (G2 to G5, G7) and boxes (G8, G9).

use crate::points::Point;
use bounds::{Polygon, Refusal};

/// Bytes of a record.
pub const RECORD: usize = 16;

/// The kind of a polygon, by its number.
pub fn kind(polygon: &Polygon) -> u8 {
    match polygon {
        Polygon::Triangle { .. } => 0,
        Polygon::Sphere { .. } => 1,
        Polygon::Capsule { .. } => 2,
        Polygon::Box { .. } => 3,
        Polygon::Cylinder { .. } => 4,
    }
}

/// A triangle's corners without their flags (G6).
pub fn corners(polygon: &Polygon) -> Option<[usize; 3]> {
    match polygon {
        Polygon::Triangle { v, .. } => Some(v.map(|corner| (corner & 0x7FFF) as usize)),
        _ => None,
    }
}

/// The vertices of a polygon, by their numbers: only a triangle's have a flag.
pub fn vertices(polygon: &Polygon) -> Vec<usize> {
    match *polygon {
        Polygon::Triangle { v, .. } => v.map(|corner| (corner & 0x7FFF) as usize).to_vec(),
        Polygon::Sphere { index, .. } => vec![index as usize],
        Polygon::Capsule { i1, i2, .. } | Polygon::Cylinder { i1, i2, .. } => vec![i1 as usize, i2 as usize],
        Polygon::Box { i, .. } => i.map(|index| index as u16 as usize).to_vec(),
    }
}

/// The radius of what is round.
pub fn radius(polygon: &Polygon) -> Option<f32> {
    match *polygon {
        Polygon::Sphere { radius, .. } | Polygon::Capsule { radius, .. } | Polygon::Cylinder { radius, .. } => {
            Some(radius)
        }
        _ => None,
    }
}

/// A polygon with these links, if it is a triangle (G7).
pub fn linked(polygon: &Polygon, links: [i16; 3]) -> Polygon {
    match *polygon {
        Polygon::Triangle { material, area, v, .. } => Polygon::Triangle { material, area, v, edges: links },
        polygon => polygon,
    }
}

/// G3: the record of a polygon.
pub fn record(polygon: &Polygon) -> [u8; RECORD] {
    let mut out = [0; RECORD];
    let mut put = |at: usize, bytes: &[u8]| out[at..at + bytes.len()].copy_from_slice(bytes);
    match *polygon {
        Polygon::Triangle { area, v, edges, .. } => {
            put(0, &(area.to_bits() & !7).to_le_bytes());
            (0..3).for_each(|i| put(4 + 2 * i, &v[i].to_le_bytes()));
            (0..3).for_each(|i| put(10 + 2 * i, &edges[i].to_le_bytes()));
        }
        Polygon::Sphere { index: first, radius, .. }
        | Polygon::Capsule { i1: first, radius, .. }
        | Polygon::Cylinder { i1: first, radius, .. } => {
            put(0, &[kind(polygon)]);
            put(2, &first.to_le_bytes());
            put(4, &radius.to_bits().to_le_bytes());
            if let Polygon::Capsule { i2, .. } | Polygon::Cylinder { i2, .. } = *polygon {
                put(8, &i2.to_le_bytes());
            }
        }
        Polygon::Box { i, .. } => {
            put(0, &[kind(polygon)]);
            (0..4).for_each(|k| put(4 + 2 * k, &i[k].to_le_bytes()));
        }
    }
    out
}

/// G3 into lent bytes; G5: refusal 2 under 16.
pub fn write(out: &mut [u8], polygon: Polygon) -> Result<(), Refusal> {
    out.get_mut(..RECORD).ok_or(Refusal::BufferTooShort)?.copy_from_slice(&record(&polygon));
    Ok(())
}

/// G4: the kind of a record, the low three bits of byte 0.
pub fn kind_at(record: &[u8]) -> u8 {
    record[0] % 8
}

/// G4: the polygon of a record, with material 0; G5: refusals 5 (under 16 bytes) and 6 (no such kind).
pub fn read(bytes: &[u8]) -> Result<Polygon, Refusal> {
    read_with(bytes, 0)
}

/// A record does not hold the number of its polygon's material.
fn read_with(bytes: &[u8], material: u8) -> Result<Polygon, Refusal> {
    if bytes.len() < RECORD {
        return Err(Refusal::ShortRecord);
    }
    let short = |at: usize| u16::from_le_bytes([bytes[at], bytes[at + 1]]);
    let word = |at: usize| u32::from_le_bytes([bytes[at], bytes[at + 1], bytes[at + 2], bytes[at + 3]]);
    let (i1, i2, radius) = (short(2), short(8), f32::from_bits(word(4)));
    Ok(match kind_at(bytes) {
        0 => Polygon::Triangle {
            material,
            area: f32::from_bits(word(0) & !7),
            v: [4, 6, 8].map(short),
            edges: [10, 12, 14].map(|at| short(at) as i16),
        },
        1 => Polygon::Sphere { material, index: i1, radius },
        2 => Polygon::Capsule { material, i1, i2, radius },
        3 => Polygon::Box { material, i: [4, 6, 8, 10].map(|at| short(at) as i16) },
        4 => Polygon::Cylinder { material, i1, i2, radius },
        _ => return Err(Refusal::UnknownKind),
    })
}

/// The polygons of records, each with its number of a material, or 0 where there is none. Refusal 6.
pub fn read_all(records: &[u8], numbers: &[u8]) -> Result<Vec<Polygon>, Refusal> {
    let numbers = numbers.iter().copied().chain(std::iter::repeat(0));
    records.chunks_exact(RECORD).zip(numbers).map(|(record, material)| read_with(record, material)).collect()
}

/// G8: where a vertex stands; one that is missing is plain zero.
pub fn stands(number: usize, placed: &[Point]) -> Point {
    placed.get(number).copied().unwrap_or([0.0; 3])
}

/// G9 on one axis: the least (of 0) or the greatest (of 1) of these, folded, and widened by a radius.
pub fn extreme(values: &[f32], greatest: bool, radius: Option<f32>) -> f32 {
    let keeps = |a: f32, b: f32| if greatest { a > b } else { a < b };
    let folded = values[1..].iter().fold(values[0], |a, &b| if keeps(a, b) { a } else { b });
    radius.map_or(folded, |radius| folded + if greatest { radius } else { -radius })
}

/// G9: the box of a polygon, each vertex standing where `stands` says: min x, y, z, max x, y, z.
pub fn bbox(polygon: &Polygon, stands: impl Fn(usize) -> Point) -> [f32; 6] {
    let points: Vec<Point> = vertices(polygon).into_iter().map(stands).collect();
    std::array::from_fn(|value| {
        let on: Vec<f32> = points.iter().map(|point| point[value % 3]).collect();
        extreme(&on, value >= 3, radius(polygon))
    })
}

#[cfg(test)]
mod tests {
    use super::*;

    /// The scope document's own value; an area's low three bits are the kind's.
    #[test]
    fn a_triangle_is_written() {
        let bytes = [0, 0, 0x80, 0x3F, 1, 0, 2, 0, 3, 0, 0xFF, 0xFF, 0xFF, 0xFF, 0xFF, 0xFF];
        for area in [0x3F80_0000, 0x3F80_0005] {
            let mut out = [7; RECORD];
            let area = f32::from_bits(area);
            write(&mut out, Polygon::Triangle { material: 9, area, v: [1, 2, 3], edges: [-1; 3] }).expect("room");
            assert_eq!(out, bytes);
        }
        assert_eq!(
            read_with(&bytes, 4),
            Ok(Polygon::Triangle { material: 4, area: 1.0, v: [1, 2, 3], edges: [-1; 3] })
        );
    }

    #[test]
    fn refusals() {
        use Refusal::{BufferTooShort, ShortRecord, UnknownKind};
        let refused = |bytes: &[u8]| read(bytes).expect_err("refused");
        assert_eq!([&[5; 15][..], &[5; 16], &[15; 16]].map(refused), [ShortRecord, UnknownKind, UnknownKind]);
        assert_eq!(write(&mut [0; 15], Polygon::Box { material: 0, i: [0; 4] }), Err(BufferTooShort));
    }
}
