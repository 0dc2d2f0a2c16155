//! Rule S6: no vertex, on its way back, crosses a triangle that is not its own.

use super::{Shrinking, Triangle, Wrong};
use crate::points::{cross, dot, length, scale, sub, Point};

/// What a margin fails on.
#[derive(Clone, Copy, Debug, PartialEq)]
pub enum Failed {
    /// A vertex moved, and a triangle has a corner that is missing.
    Missing { vertex: usize, polygon: usize },
    /// A vertex, on its way back, meets a triangle: as it was or shrunk, so far away, on a way so long.
    Hit { vertex: usize, polygon: usize, shrunk: bool, at: f32, length: f32 },
}

struct Ray {
    from: Point,
    to: Point,
    length: f32,
}

impl Ray {
    /// How far away a triangle is met, at most the length.
    fn meets(&self, [a, b, c]: [Point; 3], wrong: Option<Wrong>) -> Option<f32> {
        let (first, second) = (sub(b, a), sub(c, a));
        let across = cross(self.to, second);
        let det = dot(first, across);
        if det.abs() < FLAT {
            return None;
        }
        let inverse = 1.0 / det;
        let away = sub(self.from, a);
        let u = dot(away, across) * inverse;
        if !(0.0..=1.0).contains(&u) {
            return None;
        }
        let along = cross(away, first);
        let v = dot(self.to, along) * inverse;
        // A NaN passes as v and fails as t.
        if v < 0.0 || u + v > 1.0 {
            return None;
        }
        let t = dot(second, along) * inverse;
        let reached = if wrong == Some(Wrong::BeforeTheEnd) { t < self.length } else { t <= self.length };
        (t >= 0.0 && reached).then_some(t)
    }
}

/// A ray along a triangle's plane does not meet it.
const FLAT: f32 = 1e-6;

/// So many triangles at once.
const LANES: usize = 8;

/// A corner and two sides of triangles, number by number: most of a ray's time goes into passing over triangles.
struct Rows {
    corner: [Vec<f32>; 3],
    first: [Vec<f32>; 3],
    second: [Vec<f32>; 3],
}

impl Rows {
    fn of(triangles: &[Triangle], points: &[Point]) -> Rows {
        let corners = |t: &Triangle| if t.whole { t.corners.map(|corner| points[corner]) } else { [[0.0; 3]; 3] };
        let all: Vec<[Point; 3]> = triangles.iter().map(corners).collect();
        let filled = all.len().next_multiple_of(LANES);
        let column = |of: &dyn Fn(&[Point; 3]) -> f32| {
            let mut column: Vec<f32> = all.iter().map(of).collect();
            column.resize(filled, 0.0);
            column
        };
        Rows {
            corner: std::array::from_fn(|axis| column(&|t| t[0][axis])),
            first: std::array::from_fn(|axis| column(&|t| t[1][axis] - t[0][axis])),
            second: std::array::from_fn(|axis| column(&|t| t[2][axis] - t[0][axis])),
        }
    }

    /// Which of the triangles from here on pass the first two steps of [`Ray::meets`], which are the same here.
    fn near(&self, ray: &Ray, from: usize) -> [bool; LANES] {
        let part = |of: &[Vec<f32>; 3]| -> [[f32; LANES]; 3] {
            std::array::from_fn(|axis| std::array::from_fn(|lane| of[axis][from + lane]))
        };
        let (corner, first, second) = (part(&self.corner), part(&self.first), part(&self.second));
        let [x, y, z] = ray.to;
        std::array::from_fn(|lane| {
            let at = |of: &[[f32; LANES]; 3]| -> Point { [of[0][lane], of[1][lane], of[2][lane]] };
            let across = cross([x, y, z], at(&second));
            let det = dot(at(&first), across);
            let u = dot(sub(ray.from, at(&corner)), across) * (1.0 / det);
            // Where the first is a NaN, u is one too and fails.
            (det.abs() >= FLAT) & (0.0..=1.0).contains(&u)
        })
    }
}

impl Shrinking {
    /// The first that fails of vertices moved to these points: vertex after vertex, triangle after triangle.
    pub(super) fn failed(&self, points: &[Point]) -> Option<Failed> {
        if let (true, Some(bad)) = (self.does(Wrong::BadAlways), self.triangles.iter().find(|triangle| !triangle.whole))
        {
            return Some(Failed::Missing { vertex: 0, polygon: bad.polygon });
        }
        let rows = [Rows::of(&self.triangles, &self.vertices), Rows::of(&self.triangles, points)];
        (0..points.len()).find_map(|vertex| {
            let back = sub(self.vertices[vertex], points[vertex]);
            let length = length(back);
            if length == 0.0 {
                return None;
            }
            let ray = Ray { from: points[vertex], to: scale(back, 1.0 / length), length };
            (0..self.triangles.len()).step_by(LANES).find_map(|from| {
                let near = [rows[0].near(&ray, from), rows[1].near(&ray, from)];
                let lanes = self.triangles[from..].iter().take(LANES).enumerate();
                let mut looked = lanes.filter(|(lane, triangle)| near[0][*lane] || near[1][*lane] || !triangle.whole);
                looked.find_map(|(_, triangle)| self.stopped(vertex, triangle, &ray, points))
            })
        })
    }

    fn stopped(&self, vertex: usize, triangle: &Triangle, ray: &Ray, points: &[Point]) -> Option<Failed> {
        let polygon = triangle.polygon;
        if !triangle.whole {
            return (!self.does(Wrong::BadIgnored)).then_some(Failed::Missing { vertex, polygon });
        }
        if triangle.corners.contains(&vertex) && !self.does(Wrong::OwnToo) {
            return None;
        }
        let hit = |among: &[Point], shrunk: bool| {
            if self.does(if shrunk { Wrong::OldAlone } else { Wrong::NewAlone }) {
                return None;
            }
            let at = ray.meets(triangle.corners.map(|corner| among[corner]), self.wrong)?;
            Some(Failed::Hit { vertex, polygon, shrunk, at, length: ray.length })
        };
        hit(&self.vertices, false).or_else(|| hit(points, true))
    }
}
