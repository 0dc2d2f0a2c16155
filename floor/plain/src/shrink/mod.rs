//! Rules S1 to S9: vertices moved inwards, by the first margin that passes, else by their normals.

mod check;
mod moving;
mod ring;

pub use check::Failed;
pub use moving::Choice;

use crate::links::Links;
use crate::points::{add, cross, norm, placed, point, points, scale, sub, vec3, Point};
use crate::polygon::{corners, read_all, RECORD};
use crate::{POLYGONS, VERTICES};
use bounds::shrink::{Shrunk, ShrunkBy};
use bounds::{Geometry, Polygon, Refusal};

crate::listed! {
    /// A step done in another way on purpose: a comparison has to find each of them.
    pub enum Wrong in WRONG {
        /// A margin of 1e-6 is tried too.
        MarginAtLeast,
        /// A NaN margin is kept.
        NanMargin,
        /// An infinite starting margin goes to the normals.
        InfiniteMargin,
        /// A triangle's normal points to the other side.
        OtherSign,
        /// The ring begins with the link of its own slot.
        RingBegins,
        /// A ring has at most 62 neighbours.
        ShortRing,
        /// The ring does not end where it closes.
        OpenRing,
        /// The third normal is in the sum of a pair's.
        ThirdInTheSum,
        /// A pair's angle is judged with at most.
        PairAtMost,
        /// Of triples equally far the last is taken.
        LastTriple,
        /// A hit at the length itself is none.
        BeforeTheEnd,
        /// Only the old triangles are hit.
        OldAlone,
        /// Only the shrunk triangles are hit.
        NewAlone,
        /// A vertex' own triangles are hit.
        OwnToo,
        /// A triangle with a corner that is not there is left out of the check.
        BadIgnored,
        /// A triangle with a corner that is not there fails the check, be nothing moved.
        BadAlways,
        /// The floor of the clamp is a minimum that folds NaN.
        NoFloor,
        /// The clamp's high side wins.
        HighWins,
        /// The clamp is not moved by the centre.
        NoCentre,
        /// A vertex in no triangle is not clamped.
        LoneUnclamped,
        /// By normals with the starting margin.
        StartingMargin,
        /// By normals of the vertices as they are.
        NoTransform,
        /// By normals, then clamped.
        ClampedNormals,
        /// By the links that are given.
        GivenLinks,
        /// A corner's bit 15 counts.
        NoMask,
    }
}

/// S7: margins are tried while they are above this.
pub const LEAST: f32 = 1e-6;

/// S8: the clamp takes off no less than this.
pub const FLOOR: f32 = 0.025;

/// A triangle by its number among the polygons.
#[derive(Clone, Debug)]
pub struct Triangle {
    pub polygon: usize,
    pub corners: [usize; 3],
    pub links: [Option<usize>; 3],
    /// S2, over the vertices as given; of one with a corner that is missing zero.
    pub normal: Point,
    /// Whether all corners are there.
    pub whole: bool,
}

/// A margin that was tried, and what it failed on.
#[derive(Clone, Copy, Debug)]
pub struct Trial {
    pub margin: f32,
    pub failed: Option<Failed>,
}

/// How a vertex is moved by a margin: the triangle that has it first, those around it, and what was chosen.
#[derive(Clone, Debug)]
pub struct Way {
    pub polygon: usize,
    pub slot: usize,
    /// The polygons of the ring, behind the first.
    pub ring: Vec<usize>,
    pub normals: Vec<Point>,
    pub choice: Choice,
}

/// The shrinking of a mesh that has vertices.
#[derive(Clone, Debug)]
pub struct Shrinking {
    pub vertices: Vec<Point>,
    pub triangles: Vec<Triangle>,
    /// Of each polygon its triangle.
    places: Vec<Option<usize>>,
    /// S3: of each vertex the triangle and the corner that have it first.
    firsts: Vec<Option<(usize, usize)>>,
    /// S1: half the box on each axis.
    pub halves: Point,
    pub given: f32,
    pub start: f32,
    pub trials: Vec<Trial>,
    /// The margin that passed; none where vertices are moved by their normals.
    pub passed: Option<f32>,
    /// Before the clamp.
    pub moved: Vec<Point>,
    /// S8: what the clamp keeps within.
    pub low: Point,
    pub high: Point,
    /// S9: of each vertex the sum of its triangles' normals; empty where a margin passed.
    pub sums: Vec<Point>,
    pub points: Vec<Point>,
    wrong: Option<Wrong>,
}

/// S1: the margin, or half the box where that is less; Rust's `min` skips a NaN (F5).
pub fn starting_margin(of: &Geometry) -> f32 {
    halves(of).iter().fold(of.margin, |margin, &half| margin.min(half))
}

fn halves(of: &Geometry) -> Point {
    sub(point(of.box_max), point(of.box_min)).map(|x| x.abs() * 0.5)
}

/// The vertices of a geometry shrunk, its polygons being the first `n` of these records. Refusals 1, 6 and 7.
pub fn shrunk(of: &Geometry, records: &[u8], n: usize, wrong: Option<Wrong>) -> Result<Shrunk, Refusal> {
    if n > POLYGONS || of.vertices.len() > VERTICES {
        return Err(Refusal::ListTooLong);
    }
    let of = Geometry { polygons: read_all(&records[..RECORD * n], &[])?, ..of.clone() };
    if of.vertices.is_empty() {
        return Ok(Shrunk { vertices: Vec::new(), by: ShrunkBy::NoVertices });
    }
    if starting_margin(&of) == f32::INFINITY && wrong != Some(Wrong::InfiniteMargin) {
        return Err(Refusal::InfiniteMargin);
    }
    let all = Shrinking::with(&of, &Links::of(of.polygons.iter()), wrong);
    let by = all.passed.map_or(ShrunkBy::Normals, ShrunkBy::Margin);
    Ok(Shrunk { vertices: all.points.into_iter().map(vec3).collect(), by })
}

impl Shrinking {
    /// Of a geometry with vertices, over these links.
    pub fn of(of: &Geometry, links: &Links) -> Shrinking {
        Shrinking::with(of, links, None)
    }

    /// The same, a step of it done wrong.
    pub fn with(of: &Geometry, links: &Links, wrong: Option<Wrong>) -> Shrinking {
        let mut all = Shrinking::new(of, links, wrong);
        let mut margin = all.start;
        let tried = |margin: f32| margin > LEAST || wrong == Some(Wrong::MarginAtLeast) && margin == LEAST;
        // An infinite one would be halved for ever: it is refused before.
        while tried(margin) && margin != f32::INFINITY {
            let moved = all.by_margin(margin);
            let failed = all.failed(&moved);
            all.trials.push(Trial { margin, failed });
            if failed.is_none() {
                all.clamp(of, margin, &moved);
                (all.passed, all.moved) = (Some(margin), moved);
                return all;
            }
            margin *= 0.5;
        }
        all.by_normals(of);
        all
    }

    fn new(of: &Geometry, links: &Links, wrong: Option<Wrong>) -> Shrinking {
        let vertices = points(&of.vertices);
        let kept = wrong == Some(Wrong::NanMargin) && of.margin.is_nan();
        let mut all = Shrinking {
            triangles: Vec::new(),
            places: Vec::new(),
            firsts: vec![None; vertices.len()],
            halves: halves(of),
            given: of.margin,
            start: if kept { f32::NAN } else { starting_margin(of) },
            trials: Vec::new(),
            passed: None,
            moved: Vec::new(),
            low: [0.0; 3],
            high: [0.0; 3],
            sums: Vec::new(),
            points: Vec::new(),
            vertices,
            wrong,
        };
        for (place, polygon) in of.polygons.iter().enumerate() {
            let triangle = all.triangle(place, polygon, links);
            all.places.push(triangle.as_ref().map(|_| all.triangles.len()));
            all.triangles.extend(triangle);
        }
        for (place, triangle) in all.triangles.iter().enumerate() {
            for (slot, &vertex) in triangle.corners.iter().enumerate() {
                if let Some(first) = all.firsts.get_mut(vertex) {
                    *first = first.or(Some((place, slot)));
                }
            }
        }
        all
    }

    fn does(&self, wrong: Wrong) -> bool {
        self.wrong == Some(wrong)
    }

    fn triangle(&self, place: usize, polygon: &Polygon, links: &Links) -> Option<Triangle> {
        let (Polygon::Triangle { v, edges, .. }, Some(masked)) = (polygon, corners(polygon)) else { return None };
        let corners = if self.does(Wrong::NoMask) { v.map(usize::from) } else { masked };
        let whole = corners.iter().all(|&corner| corner < self.vertices.len());
        let mut normal = [0.0; 3];
        if whole {
            let [a, b, c] = corners.map(|corner| self.vertices[corner]);
            normal = norm(cross(sub(c, b), sub(a, b)));
        }
        if self.does(Wrong::OtherSign) && whole {
            normal = scale(normal, -1.0);
        }
        let among = |link: i16| usize::try_from(link).ok().filter(|&to| to < links.links.len());
        let links = if self.does(Wrong::GivenLinks) { edges } else { &links.links[place] };
        Some(Triangle { polygon: place, corners, links: links.map(among), normal, whole })
    }

    /// S8: points clamped within the box, less the margin.
    fn clamp(&mut self, of: &Geometry, margin: f32, moved: &[Point]) {
        let inset = if self.does(Wrong::NoFloor) { margin } else { margin.max(FLOOR) };
        let center = if self.does(Wrong::NoCentre) { [0.0; 3] } else { point(of.center_geom) };
        self.low = sub(point(of.box_min).map(|x| x + inset), center);
        self.high = sub(point(of.box_max).map(|x| x + -inset), center);
        let stays = |vertex: usize| self.does(Wrong::LoneUnclamped) && self.firsts[vertex].is_none();
        let clamped = |(vertex, p): (usize, &Point)| match stays(vertex) {
            true => *p,
            false => std::array::from_fn(|axis| self.clamped(axis, p[axis])),
        };
        self.points = moved.iter().enumerate().map(clamped).collect();
    }

    /// S8 on an axis: the lower of it and the high end, then the higher of that and the low end.
    fn clamped(&self, axis: usize, x: f32) -> f32 {
        let lower = |x: f32| if x < self.high[axis] { x } else { self.high[axis] };
        let higher = |x: f32| if x > self.low[axis] { x } else { self.low[axis] };
        match self.does(Wrong::HighWins) {
            true => lower(higher(x)),
            false => higher(lower(x)),
        }
    }

    /// S9.
    fn by_normals(&mut self, of: &Geometry) {
        let center = point(of.center_geom);
        let stands = |&v: &Point| if self.does(Wrong::NoTransform) { v } else { placed(v, center, &of.transform) };
        let stand: Vec<Point> = self.vertices.iter().map(stands).collect();
        self.sums = vec![[0.0; 3]; self.vertices.len()];
        for triangle in self.triangles.iter().filter(|triangle| triangle.whole) {
            let normal = facing(triangle.corners.map(|corner| stand[corner]));
            for corner in triangle.corners {
                self.sums[corner] = add(self.sums[corner], normal);
            }
        }
        let by = if self.does(Wrong::StartingMargin) { -self.start } else { -of.margin };
        let moved = |(&v, &sum): (&Point, &Point)| add(v, scale(normal_of(sum), by));
        self.moved = self.vertices.iter().zip(&self.sums).map(moved).collect();
        self.points = self.moved.clone();
        if self.does(Wrong::ClampedNormals) {
            self.clamp(of, self.start, &self.points.clone());
        }
    }
}

/// S9: the normal of a triangle, the other way round than S2's.
pub fn facing([a, b, c]: [Point; 3]) -> Point {
    norm(cross(sub(a, b), sub(c, b)))
}

/// S9: a sum of normals, one long; one that is zero stays.
pub fn normal_of(sum: Point) -> Point {
    if sum == [0.0; 3] {
        sum
    } else {
        norm(sum)
    }
}
