//! Rule S5: where a vertex is moved to by a margin.

use super::super::points::{add, cross, dot, norm, scale, sub, Point};
use super::{Shrinking, Way};

/// Two normals closer than this square of their cross product count as one.
const FLAT: f32 = 0.1;

/// Triples whose volume is not above this are passed over.
const THIN: f32 = 0.25;

/// Which normals a vertex was moved along.
#[derive(Clone, Copy, Debug, PartialEq)]
pub enum Choice {
    /// Its own, there being no other.
    Own,
    /// Its own, the other of two being nearly the same: by the square of their cross product.
    Flat(f32),
    /// The sum of all, no triple leading further.
    Sum(Point),
    /// Three of them, by their numbers, and the volume that they span.
    Triple([usize; 3], f32),
}

/// Where a vertex comes to, and by what. The third normal of a pair is behind the two.
fn moved(vertex: Point, normals: &mut Vec<Point>, by: f32) -> (Point, Choice) {
    let own = normals[0];
    let along = |normal: Point| add(vertex, scale(normal, by));
    let sum = normals[1..].iter().fold(own, |sum, &normal| add(sum, normal));
    match normals.len() {
        1 => return (along(own), Choice::Own),
        2 => {
            let third = cross(own, normals[1]);
            let square = dot(third, third);
            if square < FLAT {
                return (along(own), Choice::Flat(square));
            }
            normals.push(scale(third, 1.0 / square.sqrt()));
        }
        _ => (),
    }
    let direction = norm(sum);
    let mut best = (along(direction), Choice::Sum(direction));
    for i in 0..normals.len() {
        for j in i + 1..normals.len() {
            for k in j + 1..normals.len() {
                best = further(vertex, normals, [i, j, k], by, best);
            }
        }
    }
    best
}

/// The best so far, or where three normals lead if that is further.
fn further(vertex: Point, normals: &[Point], of: [usize; 3], by: f32, best: (Point, Choice)) -> (Point, Choice) {
    let [a, b, c] = of.map(|k| normals[k]);
    let across = cross(b, c);
    let volume = dot(a, across);
    if volume.abs() > THIN {
        let sum = add(add(across, cross(c, a)), cross(a, b));
        let point = add(vertex, scale(scale(sum, 1.0 / volume), by));
        let far = |p: Point| dot(sub(p, vertex), sub(p, vertex));
        if far(point) > far(best.0) {
            return (point, Choice::Triple(of, volume));
        }
    }
    best
}

impl Shrinking {
    /// Every vertex moved by a margin; one without a side stays (S3).
    pub(super) fn by_margin(&self, margin: f32) -> Vec<Point> {
        let all = 0..self.vertices.len();
        all.map(|vertex| self.way(vertex, margin).map_or(self.vertices[vertex], |(_, point)| point)).collect()
    }

    /// How a vertex is moved by a margin, and where to.
    pub fn way(&self, vertex: usize, margin: f32) -> Option<(Way, Point)> {
        let (place, slot) = self.firsts.get(vertex).copied().flatten()?;
        let first = &self.triangles[place];
        let ring = self.ring(vertex, first, slot);
        let mut normals = vec![first.normal];
        normals.extend(ring.iter().map(|&place| self.triangles[place].normal));
        let (point, choice) = moved(self.vertices[vertex], &mut normals, -margin);
        let ring = ring.iter().map(|&place| self.triangles[place].polygon).collect();
        Some((Way { polygon: first.polygon, slot, ring, normals, choice }, point))
    }
}
