//! Octants by their definition: a vertex is listed where no other one shadows it, but for a later one that it shadows too.
//! Found by a sweep, in time n · log n: the reference keeps a list, and takes time by its length.

use oracle::geometry::VERTICES;
use oracle::Vec3;
use std::collections::BTreeMap;

/// Whether b shadows a in a direction, as the source has it.
pub fn shadowed(direction: usize, a: Vec3, b: Vec3) -> bool {
    (0..3).all(|axis| (b[axis] - a[axis]) * sign(direction, axis) >= 0.0)
}

fn sign(direction: usize, axis: usize) -> f32 {
    if direction >> axis & 1 == 1 {
        -1.0
    } else {
        1.0
    }
}

/// A number by which the floats that are none are ordered; zeros are equal.
fn ordered(x: f32) -> i32 {
    let bits = (x + 0.0).to_bits() as i32;
    bits ^ (((bits >> 31) as u32) >> 1) as i32
}

/// The vertices of one direction, rising.
///
/// On an axis b shadows a where neither is a NaN, b is at least as far, and they are not the same infinity, whose difference
/// is a NaN. So a vertex with a NaN or the far infinity is shadowed by none, one with a NaN or the near infinity shadows
/// none, and all others are compared as they are. Taken by x, y and z, the furthest and of equal ones the first before, the
/// vertices that keep one from the list come before it: there is such a one if one of those that came has y and z at least
/// as far. Of these only the ones that are furthest in y or z are held, by y.
pub fn maxima(direction: usize, vertices: &[Vec3]) -> Vec<u32> {
    let far: Vec<Vec3> = vertices.iter().map(|v| std::array::from_fn(|axis| v[axis] * sign(direction, axis))).collect();
    let (mut order, mut listed): (Vec<usize>, Vec<bool>) = ((0..far.len()).collect(), vec![true; far.len()]);
    order.retain(|&i| far[i].iter().all(|x| !x.is_nan()));
    order.sort_by_key(|&i| (far[i].map(|x| -(ordered(x) as i64)), i));
    // Each y with its z: where y is nearer, z is further.
    let mut held: BTreeMap<i32, i32> = BTreeMap::new();
    for i in order {
        let [_, y, z] = far[i].map(ordered);
        let shadowed = held.range(y..).next().is_some_and(|(_, &other)| other >= z);
        if shadowed && far[i].iter().all(|&x| x != f32::INFINITY) {
            listed[i] = false;
        }
        if !shadowed && far[i].iter().all(|&x| x != f32::NEG_INFINITY) {
            while let Some((&nearer, _)) = held.range(..=y).next_back().filter(|&(_, &other)| other <= z) {
                held.remove(&nearer);
            }
            held.insert(y, z);
        }
    }
    (0..far.len()).filter(|&i| listed[i]).map(|i| i as u32).collect()
}

/// All directions.
pub fn all(vertices: &[Vec3]) -> [Vec<u32>; 8] {
    std::array::from_fn(|direction| maxima(direction, vertices))
}

/// Into lent words, as the library does; 10 a vertex are asked for to work in. Refusals 1 and 2.
pub fn calculate(vertices: &[Vec3], lists: &mut [u32], work: &mut [u32]) -> Result<[usize; 8], u32> {
    let n = vertices.len();
    if n > VERTICES {
        return Err(1);
    }
    if lists.len() < 8 * n || work.len() < 10 * n {
        return Err(2);
    }
    let all = all(vertices);
    for (k, list) in all.iter().enumerate() {
        lists[k * n..k * n + list.len()].copy_from_slice(list);
    }
    Ok(all.map(|list| list.len()))
}

/// The lists as bytes. Refusals 1, 2 and 12.
pub fn write(lists: &[Vec<u32>; 8], address: u64, out: &mut [u8]) -> Result<(), u32> {
    if lists.iter().any(|list| list.len() > VERTICES) {
        return Err(1);
    }
    let all: usize = lists.iter().map(Vec::len).sum();
    let len = 128 + 4 * all;
    let out = out.get_mut(..len).ok_or(2u32)?;
    address.checked_add(96 + 4 * all as u64).ok_or(12u32)?;
    let mut at = 96;
    for (k, list) in lists.iter().enumerate() {
        out[4 * k..4 * k + 4].copy_from_slice(&(list.len() as u32).to_le_bytes());
        out[32 + 8 * k..40 + 8 * k].copy_from_slice(&(address + at as u64).to_le_bytes());
        for index in list {
            out[at..at + 4].copy_from_slice(&index.to_le_bytes());
            at += 4;
        }
    }
    out[at..].fill(0);
    Ok(())
}

#[cfg(test)]
mod tests {
    use super::*;
    use crate::points::{Points, STYLES};

    /// By the definition alone, each vertex beside each.
    fn by_definition(direction: usize, vertices: &[Vec3]) -> Vec<u32> {
        let kept_out = |i: usize, j: usize| {
            let (a, b) = (vertices[i], vertices[j]);
            i != j && shadowed(direction, a, b) && (j < i || !shadowed(direction, b, a))
        };
        let n = vertices.len();
        (0..n).filter(|&i| !(0..n).any(|j| kept_out(i, j))).map(|i| i as u32).collect()
    }

    #[test]
    fn the_sweep_finds_what_the_definition_says() {
        let mut points = Points::new(7);
        for round in 0..12_000 {
            let n = if round % 100 == 0 { 150 } else { round % 9 };
            let vertices = points.of(n, STYLES[round % STYLES.len()]);
            for direction in 0..8 {
                assert_eq!(maxima(direction, &vertices), by_definition(direction, &vertices), "{vertices:?}");
            }
        }
    }

    /// The scope document's own value.
    #[test]
    fn of_equal_ones_the_first() {
        let lists = all(&[[0.0; 3], [1.0; 3], [1.0; 3]]);
        assert_eq!((&lists[0][..], &lists[7][..], &lists[1][..]), (&[1][..], &[0][..], &[0, 1][..]));
    }
}
