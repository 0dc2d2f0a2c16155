//! Polygon records and boxes of polygons.

use oracle::polygon::Polygon;
use oracle::{Aabb, Vec3};

/// Bytes of a record.
pub const RECORD: usize = 16;

/// The low three bits of byte 0.
pub fn kind(record: &[u8]) -> u8 {
    record[0] % 8
}

fn short(bytes: &[u8], at: usize) -> u16 {
    u16::from_le_bytes([bytes[at], bytes[at + 1]])
}

fn word(bytes: &[u8], at: usize) -> u32 {
    u32::from_le_bytes([bytes[at], bytes[at + 1], bytes[at + 2], bytes[at + 3]])
}

/// Refusals 5 (under 16 bytes) and 6 (no such kind). The material is not in the record: it is 0.
pub fn read(bytes: &[u8]) -> Result<Polygon, u32> {
    if bytes.len() < RECORD {
        return Err(5);
    }
    let (material, radius) = (0, f32::from_bits(word(bytes, 4)));
    let (i1, i2) = (short(bytes, 2), short(bytes, 8));
    Ok(match kind(bytes) {
        0 => Polygon::Triangle {
            material,
            area: f32::from_bits(word(bytes, 0) & !7),
            v: [4, 6, 8].map(|at| short(bytes, at)),
            links: [10, 12, 14].map(|at| short(bytes, at) as i16),
        },
        1 => Polygon::Sphere { material, index: i1, radius },
        2 => Polygon::Capsule { material, i1, i2, radius },
        3 => Polygon::Box { material, i: [4, 6, 8, 10].map(|at| short(bytes, at) as i16) },
        4 => Polygon::Cylinder { material, i1, i2, radius },
        _ => return Err(6),
    })
}

/// Refusal 2: under 16 bytes.
pub fn write(out: &mut [u8], polygon: Polygon) -> Result<(), u32> {
    let record = out.get_mut(..RECORD).ok_or(2u32)?;
    record.fill(0);
    let mut put = |at: usize, bytes: &[u8]| record[at..at + bytes.len()].copy_from_slice(bytes);
    let round = |i1: u16, radius: f32, put: &mut dyn FnMut(usize, &[u8])| {
        put(2, &i1.to_le_bytes());
        put(4, &radius.to_bits().to_le_bytes());
    };
    match polygon {
        Polygon::Triangle { area, v, links, .. } => {
            put(0, &(area.to_bits() & !7).to_le_bytes());
            (0..3).for_each(|i| put(4 + 2 * i, &v[i].to_le_bytes()));
            (0..3).for_each(|i| put(10 + 2 * i, &links[i].to_le_bytes()));
        }
        Polygon::Sphere { index, radius, .. } => {
            put(0, &[1]);
            round(index, radius, &mut put);
        }
        Polygon::Capsule { i1, i2, radius, .. } | Polygon::Cylinder { i1, i2, radius, .. } => {
            put(0, &[if matches!(polygon, Polygon::Capsule { .. }) { 2 } else { 4 }]);
            round(i1, radius, &mut put);
            put(8, &i2.to_le_bytes());
        }
        Polygon::Box { i, .. } => {
            put(0, &[3]);
            (0..4).for_each(|k| put(4 + 2 * k, &i[k].to_le_bytes()));
        }
    }
    Ok(())
}

/// vmin and vmax on each axis.
fn folded(points: &[Vec3]) -> Aabb {
    let first = Aabb { min: points[0], max: points[0] };
    points[1..].iter().fold(first, |b, p| Aabb {
        min: std::array::from_fn(|axis| if b.min[axis] < p[axis] { b.min[axis] } else { p[axis] }),
        max: std::array::from_fn(|axis| if b.max[axis] > p[axis] { b.max[axis] } else { p[axis] }),
    })
}

fn widened(b: Aabb, radius: f32) -> Aabb {
    Aabb { min: b.min.map(|x| x + -radius), max: b.max.map(|x| x + radius) }
}

/// A missing vertex is zero; only a triangle's numbers are masked.
pub fn bbox(polygon: Polygon, vertices: &[Vec3]) -> Aabb {
    let at = |number: u16| vertices.get(number as usize).copied().unwrap_or([0.0; 3]);
    match polygon {
        Polygon::Triangle { v, .. } => folded(&v.map(|number| at(number & 0x7FFF))),
        Polygon::Sphere { index, radius, .. } => widened(folded(&[at(index)]), radius),
        Polygon::Capsule { i1, i2, radius, .. } | Polygon::Cylinder { i1, i2, radius, .. } => {
            widened(folded(&[at(i1), at(i2)]), radius)
        }
        Polygon::Box { i, .. } => folded(&i.map(|number| at(number as u16))),
    }
}

#[cfg(test)]
mod tests {
    use super::*;

    /// The scope document's own value; an area's low three bits are the kind's.
    #[test]
    fn a_triangle_is_written() {
        let bytes = [0, 0, 0x80, 0x3F, 1, 0, 2, 0, 3, 0, 0xFF, 0xFF, 0xFF, 0xFF, 0xFF, 0xFF];
        for area in [0x3F80_0000, 0x3F80_0005] {
            let mut out = [7; RECORD];
            let area = f32::from_bits(area);
            write(&mut out, Polygon::Triangle { material: 9, area, v: [1, 2, 3], links: [-1; 3] }).expect("room");
            assert_eq!(out, bytes);
        }
        assert_eq!(read(&bytes), Ok(Polygon::Triangle { material: 0, area: 1.0, v: [1, 2, 3], links: [-1; 3] }));
    }

    #[test]
    fn refusals() {
        assert_eq!((read(&[5; 15]), read(&[5; 16]), read(&[15; 16])), (Err(5), Err(6), Err(6)));
        assert_eq!(write(&mut [0; 15], Polygon::Box { material: 0, i: [0; 4] }), Err(2));
    }
}
