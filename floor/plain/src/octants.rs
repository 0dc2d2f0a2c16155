//! Rules O1 to O4: of eight directions the vertices that no other one shadows, and their bytes.

use crate::points::{points, Point};
use crate::VERTICES;
use bounds::{Octants, Refusal, Vec3};
use std::collections::BTreeMap;

/// O1: whether a direction, by its number, turns an axis around.
pub fn turned(direction: usize, axis: usize) -> bool {
    direction >> axis & 1 == 1
}

fn sign(direction: usize, axis: usize) -> f32 {
    if turned(direction, axis) {
        -1.0
    } else {
        1.0
    }
}

/// O1: whether b shadows a: on each axis it is at least as far, as their difference says.
pub fn shadows(direction: usize, a: Point, b: Point) -> bool {
    (0..3).all(|axis| (b[axis] - a[axis]) * sign(direction, axis) >= 0.0)
}

/// A number by which the floats that are none are ordered; zeros are equal.
fn ordered(x: f32) -> i32 {
    let bits = (x + 0.0).to_bits() as i32;
    bits ^ (((bits >> 31) as u32) >> 1) as i32
}

/// O2: the vertices of one direction, rising: those that no other one shadows, but for a later one that they shadow too.
///
/// Found by a sweep, in time n · log n: the source keeps a list, and takes time by its length.
///
/// On an axis b shadows a where neither is a NaN, b is at least as far, and they are not the same infinity, whose difference
/// is a NaN. So a vertex with a NaN or the far infinity is shadowed by none, one with a NaN or the near infinity shadows
/// none, and all others are compared as they are. Taken by x, y and z, the furthest and of equal ones the first before, the
/// vertices that keep one from the list come before it: there is such a one if one of those that came has y and z at least
/// as far. Of these only the ones that are furthest in y or z are held, by y.
pub fn list(direction: usize, points: &[Point]) -> Vec<u32> {
    let far: Vec<Point> = points.iter().map(|v| std::array::from_fn(|axis| v[axis] * sign(direction, axis))).collect();
    let (mut order, mut listed): (Vec<usize>, Vec<bool>) = ((0..far.len()).collect(), vec![true; far.len()]);
    order.retain(|&i| far[i].iter().all(|x| !x.is_nan()));
    order.sort_by_key(|&i| (far[i].map(|x| -(ordered(x) as i64)), i));
    // Each y with its z: where y is nearer, z is further.
    let mut held: BTreeMap<i32, i32> = BTreeMap::new();
    for i in order {
        let [_, y, z] = far[i].map(ordered);
        let shadowed = held.range(y..).next().is_some_and(|(_, &other)| other >= z);
        if shadowed && far[i].iter().all(|&x| x != f32::INFINITY) {
            listed[i] = false;
        }
        if !shadowed && far[i].iter().all(|&x| x != f32::NEG_INFINITY) {
            while let Some((&nearer, _)) = held.range(..=y).next_back().filter(|&(_, &other)| other <= z) {
                held.remove(&nearer);
            }
            held.insert(y, z);
        }
    }
    (0..far.len()).filter(|&i| listed[i]).map(|i| i as u32).collect()
}

/// A listed vertex that shadows one that is not listed.
pub fn shadow_of(direction: usize, points: &[Point], list: &[u32], at: usize) -> Option<u32> {
    list.iter().copied().find(|&other| other as usize != at && shadows(direction, points[at], points[other as usize]))
}

/// All directions.
pub fn all(points: &[Point]) -> Octants {
    Octants { items: std::array::from_fn(|direction| list(direction, points)) }
}

/// O3: into lent words, 10 a vertex being asked for to work in. Refusals 1 and 2.
pub fn calculate(vertices: &[Vec3], lists: &mut [u32], work: &mut [u32]) -> Result<[usize; 8], Refusal> {
    let n = vertices.len();
    if n > VERTICES {
        return Err(Refusal::ListTooLong);
    }
    if lists.len() < 8 * n || work.len() < 10 * n {
        return Err(Refusal::BufferTooShort);
    }
    let all = all(&points(vertices)).items;
    for (k, list) in all.iter().enumerate() {
        lists[k * n..k * n + list.len()].copy_from_slice(list);
    }
    Ok(all.map(|list| list.len()))
}

/// O4: the lists as bytes. Refusals 1, 2 and 12.
pub fn write(octants: &Octants, address: u64, out: &mut [u8]) -> Result<(), Refusal> {
    let lists = &octants.items;
    if lists.iter().any(|list| list.len() > VERTICES) {
        return Err(Refusal::ListTooLong);
    }
    let all: usize = lists.iter().map(Vec::len).sum();
    let out = out.get_mut(..128 + 4 * all).ok_or(Refusal::BufferTooShort)?;
    address.checked_add(96 + 4 * all as u64).ok_or(Refusal::Address)?;
    let mut at = 96;
    for (k, list) in lists.iter().enumerate() {
        out[4 * k..4 * k + 4].copy_from_slice(&(list.len() as u32).to_le_bytes());
        out[32 + 8 * k..40 + 8 * k].copy_from_slice(&(address + at as u64).to_le_bytes());
        for index in list {
            out[at..at + 4].copy_from_slice(&index.to_le_bytes());
            at += 4;
        }
    }
    out[at..].fill(0);
    Ok(())
}

#[cfg(test)]
mod tests {
    use super::*;

    /// As the source does it: vertex after vertex; one that is shadowed by a kept one is passed over, and those that it
    /// shadows go.
    fn kept(direction: usize, points: &[Point]) -> Vec<u32> {
        let mut kept: Vec<u32> = Vec::new();
        for (at, &point) in points.iter().enumerate() {
            if kept.iter().any(|&other| shadows(direction, point, points[other as usize])) {
                continue;
            }
            kept.retain(|&other| !shadows(direction, points[other as usize], point));
            kept.push(at as u32);
        }
        kept
    }

    /// Lists of up to eight points whose coordinates are hard ones.
    #[test]
    fn the_sweep_keeps_what_the_source_keeps() {
        let hard = [f32::NEG_INFINITY, -1.0, -0.0, 0.0, 1.0, f32::INFINITY, f32::NAN];
        let mut counter = 0u32;
        let mut next = || {
            counter = counter.wrapping_mul(0x0019_660D).wrapping_add(0x3C6E_F35F);
            hard[(counter >> 16) as usize % hard.len()]
        };
        for round in 0..40_000 {
            let points: Vec<Point> = (0..round % 9).map(|_| [next(), next(), next()]).collect();
            for direction in 0..8 {
                assert_eq!(list(direction, &points), kept(direction, &points), "{direction} {points:?}");
            }
        }
    }

    /// The scope document's own value.
    #[test]
    fn of_equal_ones_the_first() {
        let lists = all(&[[0.0; 3], [1.0; 3], [1.0; 3]]).items;
        assert_eq!((&lists[0][..], &lists[7][..], &lists[1][..]), (&[1][..], &[0][..], &[0, 1][..]));
    }
}
