//! Rules S1 to S9: vertices moved inwards, by the first margin that passes, else by their normals.

mod check;
mod moving;
mod ring;

pub use check::Failed;
pub use moving::Choice;

use super::links::Links;
use super::points::{add, cross, norm, placed, point, scale, sub, Point};
use super::polygon::corners;
use bounds::Geometry;

/// S7: margins are tried while they are above this.
pub const LEAST: f32 = 1e-6;

/// S8: the clamp takes off no less than this.
pub const FLOOR: f32 = 0.025;

/// A triangle by its number among the polygons.
#[derive(Clone, Debug)]
pub struct Triangle {
    pub polygon: usize,
    pub corners: [usize; 3],
    pub links: [Option<usize>; 3],
    /// S2, over the vertices as given; of one with a corner that is missing zero.
    pub normal: Point,
    /// Whether all corners are there.
    pub whole: bool,
}

/// A margin that was tried, and what it failed on.
#[derive(Clone, Copy, Debug)]
pub struct Trial {
    pub margin: f32,
    pub failed: Option<Failed>,
}

/// How a vertex is moved by a margin: the triangle that has it first, those around it, and what was chosen.
#[derive(Clone, Debug)]
pub struct Way {
    pub polygon: usize,
    pub slot: usize,
    /// The polygons of the ring, behind the first.
    pub ring: Vec<usize>,
    pub normals: Vec<Point>,
    pub choice: Choice,
}

/// The shrinking of a mesh that has vertices.
#[derive(Clone, Debug)]
pub struct Shrinking {
    pub vertices: Vec<Point>,
    pub triangles: Vec<Triangle>,
    /// Of each polygon its triangle.
    places: Vec<Option<usize>>,
    /// S3: of each vertex the triangle and the corner that have it first.
    firsts: Vec<Option<(usize, usize)>>,
    /// S1: half the box on each axis.
    pub halves: Point,
    pub given: f32,
    pub start: f32,
    pub trials: Vec<Trial>,
    /// The margin that passed; none where vertices are moved by their normals.
    pub passed: Option<f32>,
    /// Before the clamp.
    pub moved: Vec<Point>,
    /// S8: what the clamp keeps within.
    pub low: Point,
    pub high: Point,
    /// S9: of each vertex the sum of its triangles' normals; empty where a margin passed.
    pub sums: Vec<Point>,
    pub points: Vec<Point>,
}

impl Shrinking {
    /// Of a geometry with vertices, over these links.
    pub fn of(of: &Geometry, links: &Links) -> Shrinking {
        let mut all = Shrinking::new(of, links);
        let mut margin = all.start;
        // An infinite one would be halved for ever: it is refused before.
        while margin > LEAST && margin != f32::INFINITY {
            let moved = all.by_margin(margin);
            let failed = all.failed(&moved);
            all.trials.push(Trial { margin, failed });
            if failed.is_none() {
                all.clamp(of, margin, moved);
                return all;
            }
            margin *= 0.5;
        }
        all.by_normals(of);
        all
    }

    fn new(of: &Geometry, links: &Links) -> Shrinking {
        let vertices: Vec<Point> = of.vertices.iter().map(|&v| point(v)).collect();
        let halves = sub(point(of.box_max), point(of.box_min)).map(|x| x.abs() * 0.5);
        let start = halves.iter().fold(of.margin, |margin, &half| margin.min(half));
        let mut all = Shrinking {
            triangles: Vec::new(),
            places: Vec::new(),
            firsts: vec![None; vertices.len()],
            halves,
            given: of.margin,
            start,
            trials: Vec::new(),
            passed: None,
            moved: Vec::new(),
            low: [0.0; 3],
            high: [0.0; 3],
            sums: Vec::new(),
            points: Vec::new(),
            vertices,
        };
        for (polygon, corners) in of.polygons.iter().map(corners).enumerate() {
            all.places.push(corners.map(|_| all.triangles.len()));
            all.triangles.extend(corners.map(|corners| all.triangle(polygon, corners, links)));
        }
        for (place, triangle) in all.triangles.iter().enumerate() {
            for (slot, &vertex) in triangle.corners.iter().enumerate() {
                if let Some(first) = all.firsts.get_mut(vertex) {
                    *first = first.or(Some((place, slot)));
                }
            }
        }
        all
    }

    fn triangle(&self, polygon: usize, corners: [usize; 3], links: &Links) -> Triangle {
        let whole = corners.iter().all(|&corner| corner < self.vertices.len());
        let normal = if whole {
            let [a, b, c] = corners.map(|corner| self.vertices[corner]);
            norm(cross(sub(c, b), sub(a, b)))
        } else {
            [0.0; 3]
        };
        let links = links.links[polygon].map(|link| usize::try_from(link).ok());
        Triangle { polygon, corners, links, normal, whole }
    }

    /// S8.
    fn clamp(&mut self, of: &Geometry, margin: f32, moved: Vec<Point>) {
        let inset = margin.max(FLOOR);
        let center = point(of.center_geom);
        self.low = sub(point(of.box_min).map(|x| x + inset), center);
        self.high = sub(point(of.box_max).map(|x| x + -inset), center);
        self.points = moved.iter().map(|p| std::array::from_fn(|axis| self.clamped(axis, p[axis]))).collect();
        (self.passed, self.moved) = (Some(margin), moved);
    }

    /// S8 on an axis: the lower of it and the high end, then the higher of that and the low end.
    fn clamped(&self, axis: usize, x: f32) -> f32 {
        let lower = if x < self.high[axis] { x } else { self.high[axis] };
        if lower > self.low[axis] {
            lower
        } else {
            self.low[axis]
        }
    }

    /// S9.
    fn by_normals(&mut self, of: &Geometry) {
        let center = point(of.center_geom);
        let stand: Vec<Point> = self.vertices.iter().map(|&v| placed(v, center, &of.transform)).collect();
        self.sums = vec![[0.0; 3]; self.vertices.len()];
        for triangle in self.triangles.iter().filter(|triangle| triangle.whole) {
            let normal = facing(triangle.corners.map(|corner| stand[corner]));
            for corner in triangle.corners {
                self.sums[corner] = add(self.sums[corner], normal);
            }
        }
        let moved = |(&v, &sum): (&Point, &Point)| add(v, scale(normal_of(sum), -of.margin));
        self.moved = self.vertices.iter().zip(&self.sums).map(moved).collect();
        self.points = self.moved.clone();
    }
}

/// S9: the normal of a triangle, the other way round than S2's.
pub fn facing([a, b, c]: [Point; 3]) -> Point {
    norm(cross(sub(a, b), sub(c, b)))
}

/// S9: a sum of normals, one long; one that is zero stays.
pub fn normal_of(sum: Point) -> Point {
    if sum == [0.0; 3] {
        sum
    } else {
        norm(sum)
    }
}
