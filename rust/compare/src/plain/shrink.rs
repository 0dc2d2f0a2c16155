//! Shrunk vertices in plain Rust, and on purpose wrong ones, which the comparison has to find.

use crate::plain::links;
use crate::plain::polygon::{read, RECORD};
use oracle::geometry::{By, Geometry, Shrunk, VERTICES};
use oracle::polygon::{Polygon, LIMIT};
use oracle::{Mat4, Vec3};

/// A step done in another way.
#[derive(Clone, Copy, PartialEq, Eq, Debug)]
pub enum Wrong {
    /// A margin of 1e-6 is tried too.
    MarginAtLeast,
    /// A NaN margin is kept.
    NanMargin,
    /// An infinite starting margin goes to the normals.
    InfiniteMargin,
    /// A triangle's normal points to the other side.
    OtherSign,
    /// The ring begins with the link of its own slot.
    RingBegins,
    /// A ring has at most 62 neighbours.
    ShortRing,
    /// The ring does not end where it closes.
    OpenRing,
    /// The third normal is in the sum of a pair's.
    ThirdInTheSum,
    /// A pair's angle is judged with at most.
    PairAtMost,
    /// Of triples equally far the last is taken.
    LastTriple,
    /// A hit at the length itself is none.
    BeforeTheEnd,
    /// Only the old triangles are hit.
    OldAlone,
    /// Only the shrunk triangles are hit.
    NewAlone,
    /// A vertex' own triangles are hit.
    OwnToo,
    /// A triangle with a corner that is not there is left out of the check.
    BadIgnored,
    /// A triangle with a corner that is not there fails the check, be nothing moved.
    BadAlways,
    /// The floor of the clamp is a minimum that folds NaN.
    NoFloor,
    /// The clamp's high side wins.
    HighWins,
    /// The clamp is not moved by the centre.
    NoCentre,
    /// A vertex in no triangle is not clamped.
    LoneUnclamped,
    /// By normals with the starting margin.
    StartingMargin,
    /// By normals of the vertices as they are.
    NoTransform,
    /// By normals, then clamped.
    ClampedNormals,
    /// By the links that are given.
    GivenLinks,
    /// A corner's bit 15 counts.
    NoMask,
}

pub const WRONG: [Wrong; 25] = [
    Wrong::MarginAtLeast,
    Wrong::NanMargin,
    Wrong::InfiniteMargin,
    Wrong::OtherSign,
    Wrong::RingBegins,
    Wrong::ShortRing,
    Wrong::OpenRing,
    Wrong::ThirdInTheSum,
    Wrong::PairAtMost,
    Wrong::LastTriple,
    Wrong::BeforeTheEnd,
    Wrong::OldAlone,
    Wrong::NewAlone,
    Wrong::OwnToo,
    Wrong::BadIgnored,
    Wrong::BadAlways,
    Wrong::NoFloor,
    Wrong::HighWins,
    Wrong::NoCentre,
    Wrong::LoneUnclamped,
    Wrong::StartingMargin,
    Wrong::NoTransform,
    Wrong::ClampedNormals,
    Wrong::GivenLinks,
    Wrong::NoMask,
];

fn add(a: Vec3, b: Vec3) -> Vec3 {
    std::array::from_fn(|i| a[i] + b[i])
}

fn sub(a: Vec3, b: Vec3) -> Vec3 {
    std::array::from_fn(|i| a[i] - b[i])
}

fn scale(v: Vec3, by: f32) -> Vec3 {
    v.map(|x| x * by)
}

fn dot(a: Vec3, b: Vec3) -> f32 {
    a[0] * b[0] + a[1] * b[1] + a[2] * b[2]
}

fn cross(a: Vec3, b: Vec3) -> Vec3 {
    [a[1] * b[2] - a[2] * b[1], a[2] * b[0] - a[0] * b[2], a[0] * b[1] - a[1] * b[0]]
}

fn norm(v: Vec3) -> Vec3 {
    let length = dot(v, v).sqrt();
    if length > 1e-6 {
        scale(v, 1.0 / length)
    } else {
        v
    }
}

/// The vertex and the centre through the transform, without its fourth coordinate.
fn placed(m: &Mat4, center: Vec3, v: Vec3) -> Vec3 {
    let [x, y, z] = add(v, center);
    std::array::from_fn(|i| m[i] * x + m[4 + i] * y + m[8 + i] * z + m[12 + i])
}

/// A triangle by its number among the polygons.
struct Triangle {
    polygon: usize,
    corners: [usize; 3],
    links: [Option<usize>; 3],
}

struct Mesh<'a> {
    of: &'a Geometry,
    triangles: Vec<Triangle>,
    /// Of each polygon its triangle.
    places: Vec<Option<usize>>,
    wrong: Option<Wrong>,
}

/// Of the vertices and the box of a geometry, over these polygons. Refusals 1, 6 and 7; the first `n` records are there.
pub fn shrunk(of: &Geometry, records: &[u8], n: usize, wrong: Option<Wrong>) -> Result<Shrunk, u32> {
    if n > LIMIT || of.vertices.len() > VERTICES {
        return Err(1);
    }
    let mesh = Mesh::new(of, &records[..RECORD * n], wrong)?;
    if of.vertices.is_empty() {
        return Ok(Shrunk { points: Vec::new(), by: By::NoVertices });
    }
    let start = mesh.starting_margin();
    if start == f32::INFINITY && !mesh.does(Wrong::InfiniteMargin) {
        return Err(7);
    }
    let mut margin = start;
    while margin != f32::INFINITY && (margin > 1e-6 || mesh.does(Wrong::MarginAtLeast) && margin == 1e-6) {
        let points = mesh.by_margin(margin);
        if mesh.passes(&points) {
            return Ok(Shrunk { points: mesh.clamped(points, margin), by: By::Margin(margin) });
        }
        margin *= 0.5;
    }
    Ok(Shrunk { points: mesh.by_normals(start), by: By::Normals })
}

impl Mesh<'_> {
    fn new<'a>(of: &'a Geometry, records: &[u8], wrong: Option<Wrong>) -> Result<Mesh<'a>, u32> {
        let mut linked = records.to_vec();
        links::update(&mut linked, records.len() / RECORD)?;
        let from = if wrong == Some(Wrong::GivenLinks) { records } else { &linked };
        let mut mesh = Mesh { of, triangles: Vec::new(), places: Vec::new(), wrong };
        for (polygon, record) in from.chunks_exact(RECORD).enumerate() {
            let Polygon::Triangle { v, links, .. } = read(record)? else {
                mesh.places.push(None);
                continue;
            };
            let mask = if wrong == Some(Wrong::NoMask) { u16::MAX } else { 0x7FFF };
            let link = |link: i16| Some(link as u16 as usize).filter(|&to| to < records.len() / RECORD);
            mesh.places.push(Some(mesh.triangles.len()));
            mesh.triangles.push(Triangle {
                polygon,
                corners: v.map(|number| (number & mask) as usize),
                links: links.map(link),
            });
        }
        Ok(mesh)
    }

    fn does(&self, wrong: Wrong) -> bool {
        self.wrong == Some(wrong)
    }

    /// Whether all corners are there.
    fn whole(&self, t: &Triangle) -> bool {
        t.corners.iter().all(|&c| c < self.of.vertices.len())
    }

    /// The margin, or half the box where that is less; Rust's `min` skips a NaN.
    fn starting_margin(&self) -> f32 {
        let size = sub(self.of.box_max, self.of.box_min).map(|x| x.abs() * 0.5);
        if self.does(Wrong::NanMargin) && self.of.margin.is_nan() {
            return f32::NAN;
        }
        size.iter().fold(self.of.margin, |margin, &x| margin.min(x))
    }

    fn normal(&self, t: &Triangle) -> Vec3 {
        if !self.whole(t) {
            return [0.0; 3];
        }
        let [a, b, c] = t.corners.map(|c| self.of.vertices[c]);
        let normal = norm(cross(sub(c, b), sub(a, b)));
        if self.does(Wrong::OtherSign) {
            scale(normal, -1.0)
        } else {
            normal
        }
    }

    /// The numbers of the triangles that are walked from the first one of vertex `v`, which has it in this slot.
    fn ring(&self, v: usize, first: &Triangle, slot: usize) -> Vec<usize> {
        let most = if self.does(Wrong::ShortRing) { 62 } else { 63 };
        let begin = if self.does(Wrong::RingBegins) { slot } else { (slot + 2) % 3 };
        let (mut ring, mut previous) = (Vec::new(), first.polygon);
        let mut next = first.links[begin].or(first.links[slot]);
        while let Some(at) = next {
            let Some(place) = self.places[at] else { break };
            ring.push(place);
            let t = &self.triangles[place];
            let found = (0..3).find(|j| t.corners[(j + 1) % 3] == v);
            let mut new = None;
            if let Some(j) = found {
                new = t.links[j];
                if new == Some(previous) {
                    new = t.links[(j + 1) % 3];
                }
                (previous, next) = (at, new);
            }
            if new == Some(first.polygon) && !self.does(Wrong::OpenRing) || ring.len() >= most {
                break;
            }
        }
        ring
    }

    fn by_margin(&self, margin: f32) -> Vec<Vec3> {
        let normals: Vec<Vec3> = self.triangles.iter().map(|t| self.normal(t)).collect();
        let mut points = self.of.vertices.clone();
        let mut moved = vec![false; points.len()];
        for (place, t) in self.triangles.iter().enumerate() {
            for (slot, &v) in t.corners.iter().enumerate() {
                if v >= points.len() || std::mem::replace(&mut moved[v], true) {
                    continue;
                }
                let mut around = vec![normals[place]];
                around.extend(self.ring(v, t, slot).iter().map(|&place| normals[place]));
                points[v] = self.moved(self.of.vertices[v], around, -margin);
            }
        }
        points
    }

    /// A vertex moved by its own normal, which comes first, and those around it.
    fn moved(&self, v: Vec3, mut normals: Vec<Vec3>, by: f32) -> Vec3 {
        let (own, pair) = (normals[0], normals.len() == 2);
        let mut sum = normals[1..].iter().fold(own, |sum, &n| add(sum, n));
        if pair {
            let third = cross(own, normals[1]);
            let square = dot(third, third);
            if square < 0.1 || self.does(Wrong::PairAtMost) && square <= 0.1 {
                return add(v, scale(own, by));
            }
            normals.push(scale(third, 1.0 / square.sqrt()));
            if self.does(Wrong::ThirdInTheSum) {
                sum = add(sum, normals[2]);
            }
        }
        if normals.len() == 1 {
            return add(v, scale(own, by));
        }
        let mut best = add(v, scale(norm(sum), by));
        for (i, &a) in normals.iter().enumerate() {
            for (j, &b) in normals.iter().enumerate().skip(i + 1) {
                for &c in &normals[j + 1..] {
                    best = self.further(v, [a, b, c], by, best);
                }
            }
        }
        best
    }

    fn further(&self, v: Vec3, [a, b, c]: [Vec3; 3], by: f32, best: Vec3) -> Vec3 {
        let across = cross(b, c);
        let volume = dot(a, across);
        if volume.abs() > 0.25 {
            let point = add(v, scale(scale(add(add(across, cross(c, a)), cross(a, b)), 1.0 / volume), by));
            let far = |p: Vec3| dot(sub(p, v), sub(p, v));
            if far(point) > far(best) || self.does(Wrong::LastTriple) && far(point) == far(best) {
                return point;
            }
        }
        best
    }

    /// Whether no vertex that moved crosses, on its way back, a triangle that is not its own.
    fn passes(&self, points: &[Vec3]) -> bool {
        let bad = self.triangles.iter().any(|t| !self.whole(t));
        if bad && self.does(Wrong::BadAlways) {
            return false;
        }
        (0..points.len()).all(|i| {
            let back = sub(self.of.vertices[i], points[i]);
            let length = dot(back, back).sqrt();
            if length == 0.0 {
                return true;
            }
            if bad && !self.does(Wrong::BadIgnored) {
                return false;
            }
            let ray = Ray { from: points[i], to: scale(back, 1.0 / length), length };
            !self.triangles.iter().filter(|t| self.whole(t)).any(|t| self.crossed(t, i, &ray, points))
        })
    }

    fn crossed(&self, t: &Triangle, i: usize, ray: &Ray, points: &[Vec3]) -> bool {
        if t.corners.contains(&i) && !self.does(Wrong::OwnToo) {
            return false;
        }
        let hit = |among: &[Vec3]| ray.hits(t.corners.map(|c| among[c]), self.wrong);
        !self.does(Wrong::NewAlone) && hit(&self.of.vertices) || !self.does(Wrong::OldAlone) && hit(points)
    }

    fn clamped(&self, mut points: Vec<Vec3>, margin: f32) -> Vec<Vec3> {
        let floor = if self.does(Wrong::NoFloor) { margin } else { margin.max(0.025) };
        let center = if self.does(Wrong::NoCentre) { [0.0; 3] } else { self.of.center_geom };
        let low = sub(self.of.box_min.map(|x| x + floor), center);
        let high = sub(self.of.box_max.map(|x| x + -floor), center);
        let below = |a: f32, b: f32| if a < b { a } else { b };
        let above = |a: f32, b: f32| if a > b { a } else { b };
        for (i, p) in points.iter_mut().enumerate() {
            if self.does(Wrong::LoneUnclamped) && !self.triangles.iter().any(|t| t.corners.contains(&i)) {
                continue;
            }
            *p = std::array::from_fn(|axis| match self.does(Wrong::HighWins) {
                true => below(above(p[axis], low[axis]), high[axis]),
                false => above(below(p[axis], high[axis]), low[axis]),
            });
        }
        points
    }

    fn by_normals(&self, start: f32) -> Vec<Vec3> {
        let mut normals = vec![[0.0; 3]; self.of.vertices.len()];
        for t in self.triangles.iter().filter(|t| self.whole(t)) {
            let [a, b, c] = t.corners.map(|c| match self.does(Wrong::NoTransform) {
                true => self.of.vertices[c],
                false => placed(&self.of.transform, self.of.center_geom, self.of.vertices[c]),
            });
            let normal = norm(cross(sub(a, b), sub(c, b)));
            for corner in t.corners {
                normals[corner] = add(normals[corner], normal);
            }
        }
        let by = if self.does(Wrong::StartingMargin) { -start } else { -self.of.margin };
        let moved = |(&v, &n): (&Vec3, &Vec3)| add(v, scale(if n == [0.0; 3] { n } else { norm(n) }, by));
        let points = self.of.vertices.iter().zip(&normals).map(moved).collect();
        match self.does(Wrong::ClampedNormals) {
            true => self.clamped(points, start),
            false => points,
        }
    }
}

struct Ray {
    from: Vec3,
    to: Vec3,
    length: f32,
}

impl Ray {
    fn hits(&self, [a, b, c]: [Vec3; 3], wrong: Option<Wrong>) -> bool {
        let (first, second) = (sub(b, a), sub(c, a));
        let across = cross(self.to, second);
        let det = dot(first, across);
        if det.abs() < 1e-6 {
            return false;
        }
        let inverse = 1.0 / det;
        let away = sub(self.from, a);
        let u = dot(away, across) * inverse;
        let along = cross(away, first);
        let (v, t) = (dot(self.to, along) * inverse, dot(second, along) * inverse);
        // NaN passes as v and fails as u and t.
        let past = v < 0.0 || u + v > 1.0 || t < 0.0;
        let reached = if wrong == Some(Wrong::BeforeTheEnd) { t < self.length } else { t <= self.length };
        (0.0..=1.0).contains(&u) && !past && reached
    }
}
