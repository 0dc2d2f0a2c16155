//! Rules O1 and O2: of eight directions the vertices that no other one shadows.

use super::points::Point;

/// O1: whether a direction, by its number, turns an axis around.
pub fn turned(direction: usize, axis: usize) -> bool {
    direction >> axis & 1 == 1
}

/// O1: whether b shadows a: on each axis it is at least as far, as their difference says.
pub fn shadows(direction: usize, a: Point, b: Point) -> bool {
    (0..3).all(|axis| (b[axis] - a[axis]) * if turned(direction, axis) { -1.0 } else { 1.0 } >= 0.0)
}

/// O2: vertex after vertex; one that is shadowed by a kept one is passed over, and those that it shadows go.
pub fn list(direction: usize, points: &[Point]) -> Vec<u32> {
    let mut kept: Vec<u32> = Vec::new();
    for (at, &point) in points.iter().enumerate() {
        if kept.iter().any(|&other| shadows(direction, point, points[other as usize])) {
            continue;
        }
        kept.retain(|&other| !shadows(direction, points[other as usize], point));
        kept.push(at as u32);
    }
    kept
}

/// A listed vertex that shadows one that is not listed.
pub fn shadow_of(direction: usize, points: &[Point], list: &[u32], at: usize) -> Option<u32> {
    list.iter().copied().find(|&other| other as usize != at && shadows(direction, points[at], points[other as usize]))
}
