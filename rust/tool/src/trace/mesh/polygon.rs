//! Polygons: their records (G2, G3) and boxes (G8, G9).

use super::points::Point;
use bounds::Polygon;

/// Bytes of a record.
pub const RECORD: usize = 16;

/// The kind of a polygon, by its number.
pub fn kind(polygon: &Polygon) -> u8 {
    match polygon {
        Polygon::Triangle { .. } => 0,
        Polygon::Sphere { .. } => 1,
        Polygon::Capsule { .. } => 2,
        Polygon::Box { .. } => 3,
        Polygon::Cylinder { .. } => 4,
    }
}

/// A triangle's corners without their flags (G6).
pub fn corners(polygon: &Polygon) -> Option<[usize; 3]> {
    match polygon {
        Polygon::Triangle { v, .. } => Some(v.map(|corner| (corner & 0x7FFF) as usize)),
        _ => None,
    }
}

/// The vertices of a polygon, by their numbers: only a triangle's have a flag.
pub fn vertices(polygon: &Polygon) -> Vec<usize> {
    match *polygon {
        Polygon::Triangle { v, .. } => v.map(|corner| (corner & 0x7FFF) as usize).to_vec(),
        Polygon::Sphere { index, .. } => vec![index as usize],
        Polygon::Capsule { i1, i2, .. } | Polygon::Cylinder { i1, i2, .. } => vec![i1 as usize, i2 as usize],
        Polygon::Box { i, .. } => i.map(|index| index as u16 as usize).to_vec(),
    }
}

/// The radius of what is round.
pub fn radius(polygon: &Polygon) -> Option<f32> {
    match *polygon {
        Polygon::Sphere { radius, .. } | Polygon::Capsule { radius, .. } | Polygon::Cylinder { radius, .. } => {
            Some(radius)
        }
        _ => None,
    }
}

/// G3: the record of a polygon, a triangle with these links.
pub fn record(polygon: &Polygon, links: [i16; 3]) -> [u8; RECORD] {
    let mut out = [0; RECORD];
    let mut put = |at: usize, bytes: &[u8]| out[at..at + bytes.len()].copy_from_slice(bytes);
    match *polygon {
        Polygon::Triangle { area, v, .. } => {
            put(0, &(area.to_bits() & !7).to_le_bytes());
            (0..3).for_each(|i| put(4 + 2 * i, &v[i].to_le_bytes()));
            (0..3).for_each(|i| put(10 + 2 * i, &links[i].to_le_bytes()));
        }
        Polygon::Sphere { index: first, radius, .. }
        | Polygon::Capsule { i1: first, radius, .. }
        | Polygon::Cylinder { i1: first, radius, .. } => {
            put(0, &[kind(polygon)]);
            put(2, &first.to_le_bytes());
            put(4, &radius.to_bits().to_le_bytes());
            if let Polygon::Capsule { i2, .. } | Polygon::Cylinder { i2, .. } = *polygon {
                put(8, &i2.to_le_bytes());
            }
        }
        Polygon::Box { i, .. } => {
            put(0, &[kind(polygon)]);
            (0..4).for_each(|k| put(4 + 2 * k, &i[k].to_le_bytes()));
        }
    }
    out
}

/// G8: where a vertex stands; one that is missing is plain zero.
pub fn stands(number: usize, placed: &[Point]) -> Point {
    placed.get(number).copied().unwrap_or([0.0; 3])
}

/// G9 on one axis: the least (of 0) or the greatest (of 1) of these, folded, and widened by a radius.
pub fn extreme(values: &[f32], greatest: bool, radius: Option<f32>) -> f32 {
    let keeps = |a: f32, b: f32| if greatest { a > b } else { a < b };
    let folded = values[1..].iter().fold(values[0], |a, &b| if keeps(a, b) { a } else { b });
    radius.map_or(folded, |radius| folded + if greatest { radius } else { -radius })
}

/// G9: the box of a polygon over vertices where they stand: min x, y, z, max x, y, z.
pub fn bbox(polygon: &Polygon, placed: &[Point]) -> [f32; 6] {
    let points: Vec<Point> = vertices(polygon).into_iter().map(|number| stands(number, placed)).collect();
    std::array::from_fn(|value| {
        let on: Vec<f32> = points.iter().map(|point| point[value % 3]).collect();
        extreme(&on, value >= 3, radius(polygon))
    })
}
