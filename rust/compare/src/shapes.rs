//! Geometries to shrink and to prepare: ordinary solids, and what goes wrong easily. All are small: the reference tries up to
//! 148 margins on each, with a ray for each vertex and triangle, and 41,664 triples a vertex where a ring is as long as can be.

use crate::inputs::{hard, Input};
use crate::random::Random;
use oracle::geometry::{Geometry, IDENTITY};
use oracle::polygon::Polygon;
use oracle::{Aabb, Vec3};

/// What a geometry is made for.
#[derive(Clone, Copy, Debug, PartialEq, Eq)]
pub enum Family {
    /// Any triangles over any vertices, of ordinary size.
    Soup,
    /// Small whole numbers: many sides and planes in common.
    Grid,
    /// Powers of two, from 2^-40 to 2^40.
    Powers,
    /// Every hard word.
    Hard,
    /// Any bits.
    Any,
    /// Closed solids, which shrink as they should.
    Solid,
    /// Triangles around one vertex, 1 to 70 of them, closed or open.
    Fan,
    /// Equal triangles, some turned, of few vertices: rings that do not come back.
    Twins,
    /// Fans that have one vertex in common.
    BowTie,
    /// Triangles with a vertex twice or three times.
    Doubled,
    /// Up to five triangles on one edge.
    Edge,
    /// Two parallel sheets 0.01 apart, whose margin is too large.
    Shell,
    /// A needle on a small foot.
    Spike,
    /// A solid in a box that is inside out.
    Inverted,
    /// A solid in a box of 0.02.
    Tiny,
    /// One triangle has a corner that is not there: the first, the last, or alone.
    Bad,
    /// A solid so far away that the margin is lost in rounding.
    Far,
    /// A solid of 1e20: squares overflow.
    Huge,
    /// A solid of 1e-30: squares vanish.
    Small,
}

pub const FAMILIES: [Family; 19] = [
    Family::Soup,
    Family::Grid,
    Family::Powers,
    Family::Hard,
    Family::Any,
    Family::Solid,
    Family::Fan,
    Family::Twins,
    Family::BowTie,
    Family::Doubled,
    Family::Edge,
    Family::Shell,
    Family::Spike,
    Family::Inverted,
    Family::Tiny,
    Family::Bad,
    Family::Far,
    Family::Huge,
    Family::Small,
];

/// Vertices and the corners of triangles over them.
#[derive(Clone, Default)]
pub struct Mesh {
    pub vertices: Vec<Vec3>,
    pub triangles: Vec<[usize; 3]>,
}

/// A sphere of 2 + k (k + 1) vertices and radius 1 about 0, its triangles turned outwards.
pub fn sphere(k: usize) -> Mesh {
    use std::f32::consts::PI;
    let wide = k + 1;
    let mut mesh = Mesh { vertices: vec![[0.0, 0.0, 1.0]], triangles: Vec::new() };
    for ring in 1..=k {
        let (sin, cos) = (PI * ring as f32 / (k + 1) as f32).sin_cos();
        mesh.vertices.extend((0..wide).map(|i| {
            let (y, x) = (2.0 * PI * i as f32 / wide as f32).sin_cos();
            [sin * x, sin * y, cos]
        }));
    }
    mesh.vertices.push([0.0, 0.0, -1.0]);
    let at = |ring: usize, i: usize| 1 + ring * wide + i % wide;
    let last = mesh.vertices.len() - 1;
    for i in 0..wide {
        mesh.triangles.push([0, at(0, i), at(0, i + 1)]);
        for ring in 1..k {
            let (a, b, c, d) = (at(ring - 1, i), at(ring - 1, i + 1), at(ring, i), at(ring, i + 1));
            mesh.triangles.extend([[a, c, b], [b, c, d]]);
        }
        mesh.triangles.push([last, at(k - 1, i + 1), at(k - 1, i)]);
    }
    mesh
}

/// A square of so many cells a side in the plane z = 0, a cell being 1 wide and two triangles.
pub fn sheet(cells: usize) -> Mesh {
    let wide = cells + 1;
    let vertices = (0..wide * wide).map(|i| [(i % wide) as f32, (i / wide) as f32, 0.0]).collect();
    let cell = |i: usize| {
        let low = i / cells * wide + i % cells;
        [[low, low + 1, low + wide], [low + 1, low + wide + 1, low + wide]]
    };
    Mesh { vertices, triangles: (0..cells * cells).flat_map(cell).collect() }
}

/// Two such squares, so far apart.
pub fn sheets(cells: usize, apart: f32) -> Mesh {
    sheet(cells).turned().and(sheet(cells).moved([0.0, 0.0, apart]))
}

/// So many vertices, most of which have a ring that is as long as can be: from a vertex' first triangle a second one leads to
/// a pair of equal ones, which lead to one another.
pub fn rings(vertices: usize) -> Mesh {
    let mut random = Random::new(vertices as u64);
    let mut number = || random.u32() as f32 / 4294967296.0 * 10.0;
    let mut mesh =
        Mesh { vertices: (0..vertices).map(|_| [number(), number(), number()]).collect(), triangles: Vec::new() };
    // No two of these vertices are as far apart as two others, so that an edge has only what is said here. The last vertices
    // come first: a vertex is in its own triangles before it is in another's.
    for v in (0..vertices.saturating_sub(13)).rev() {
        let [x, y, w, u] = [1, 3, 8, 13].map(|away| v + away);
        mesh.triangles.extend([[v, x, y], [v, w, u], [v, w, u], [v, x, w]]);
    }
    mesh
}

fn cube() -> Mesh {
    let side = |bit: usize| if bit & 1 == 1 { 1.0 } else { -1.0 };
    let vertices = (0..8).map(|i| [side(i), side(i >> 1), side(i >> 2)]).collect();
    let sides = [[0, 1, 3, 2], [4, 6, 7, 5], [0, 4, 5, 1], [2, 3, 7, 6], [0, 2, 6, 4], [1, 5, 7, 3]];
    Mesh { vertices, triangles: sides.iter().flat_map(|&[a, b, c, d]| [[a, c, b], [a, d, c]]).collect() }
}

impl Mesh {
    fn scaled(mut self, by: Vec3) -> Mesh {
        self.vertices.iter_mut().for_each(|v| (0..3).for_each(|axis| v[axis] *= by[axis]));
        self
    }

    pub fn moved(mut self, by: Vec3) -> Mesh {
        self.vertices.iter_mut().for_each(|v| (0..3).for_each(|axis| v[axis] += by[axis]));
        self
    }

    /// Another one beside it.
    pub fn and(mut self, other: Mesh) -> Mesh {
        let from = self.vertices.len();
        self.vertices.extend(other.vertices);
        self.triangles.extend(other.triangles.iter().map(|t| t.map(|corner| corner + from)));
        self
    }

    fn turned(mut self) -> Mesh {
        self.triangles.iter_mut().for_each(|t| t.swap(1, 2));
        self
    }

    /// The least box around the vertices.
    pub fn around(&self) -> Aabb {
        let none = Aabb { min: [f32::MAX; 3], max: [f32::MIN; 3] };
        self.vertices.iter().fold(none, |b, v| Aabb {
            min: std::array::from_fn(|axis| b.min[axis].min(v[axis])),
            max: std::array::from_fn(|axis| b.max[axis].max(v[axis])),
        })
    }

    /// As a geometry of this kind and margin, its box being that around the vertices.
    pub fn geometry(&self, kind: u8, margin: f32) -> Geometry {
        let b = self.around();
        let triangle = |t: &[usize; 3]| Polygon::Triangle {
            material: 0,
            area: 1.0,
            v: t.map(|corner| corner.min(u16::MAX as usize) as u16),
            links: [-1; 3],
        };
        Geometry {
            kind,
            box_min: b.min,
            box_max: b.max,
            box_center: [0.0; 3],
            sphere_center: [0.0; 3],
            sphere_radius: 1.0,
            margin,
            center_geom: [0.0; 3],
            transform: IDENTITY,
            vertices: self.vertices.clone(),
            polygons: self.triangles.iter().map(triangle).collect(),
            materials: vec![(1, 2)],
        }
    }
}

/// Random geometries.
pub struct Shapes {
    random: Random,
    hard: Vec<u32>,
}

impl Shapes {
    pub fn new(seed: u64) -> Shapes {
        Shapes { random: Random::new(seed), hard: hard(Input::Float) }
    }

    /// A geometry of this kind and of any family.
    pub fn next(&mut self, kind: u8) -> (Family, Geometry) {
        let family = self.random.pick(&FAMILIES);
        (family, self.of(family, kind))
    }

    pub fn of(&mut self, family: Family, kind: u8) -> Geometry {
        let mut mesh = self.mesh(family);
        if self.random.once_in(3) {
            let n = mesh.triangles.len();
            (1..n).for_each(|i| mesh.triangles.swap(i, self.random.below(i + 1)));
        }
        if self.random.once_in(4) {
            mesh.triangles.iter_mut().for_each(|t| t.rotate_left(self.random.below(3)));
        }
        let margin = self.margin(family);
        let mut geometry = mesh.geometry(kind, margin);
        self.numbers(&mut geometry, family);
        self.place(&mut geometry, family);
        self.others(&mut geometry);
        self.values(&mut geometry);
        geometry
    }

    /// Materials with few values, and a number of one, given or not, for each polygon.
    fn values(&mut self, geometry: &mut Geometry) {
        let r = &mut self.random;
        let given = r.below(7);
        let reach = given + r.below(3);
        let values = r.pick(&[1, 2, 5, 400]);
        geometry.materials = (0..given).map(|_| (r.below(values) as u32, r.below(2) as u32)).collect();
        for p in &mut geometry.polygons {
            let number = if r.once_in(30) { r.u32() as u8 } else { r.below(reach.max(1)) as u8 };
            match p {
                Polygon::Triangle { material, .. }
                | Polygon::Sphere { material, .. }
                | Polygon::Capsule { material, .. }
                | Polygon::Box { material, .. }
                | Polygon::Cylinder { material, .. } => *material = number,
            }
        }
    }

    fn unit(&mut self) -> f32 {
        self.random.u32() as f32 / 4294967296.0 - 0.5
    }

    fn point(&mut self, size: f32) -> Vec3 {
        std::array::from_fn(|_| self.unit() * size)
    }

    fn margin(&mut self, family: Family) -> f32 {
        let signalling = f32::from_bits(0x7F80_0001);
        let odd =
            [0.0, -0.0, -1.0, 1e-6, 1.0000002e-6, 2e-6, 1e30, f32::INFINITY, f32::NEG_INFINITY, f32::NAN, signalling];
        if self.random.once_in(5) {
            return self.random.pick(&odd);
        }
        match family {
            Family::Shell | Family::Spike => self.random.pick(&[1.0, 0.5, 0.3]),
            Family::Solid => self.random.pick(&[0.04, 0.04, 0.1, 0.025, 0.01]),
            _ => self.random.pick(&[0.04, 0.5, 0.1, 1.0, 0.003, 30.0]),
        }
    }

    fn mesh(&mut self, family: Family) -> Mesh {
        use Family::*;
        match family {
            Soup | Grid | Powers | Hard | Any => self.soup(family),
            Solid => self.solid(),
            Fan => self.fan(),
            Twins if self.random.once_in(40) => rings(14 + self.random.below(3)),
            Twins => self.few(),
            BowTie => {
                let (first, second) = (self.fan(), self.fan());
                let at = second.vertices.len();
                let mut both = second.moved([0.0, 0.0, self.random.pick(&[0.0, 3.0, -0.5])]).and(first);
                // The middle of one is the middle of the other.
                both.triangles.iter_mut().flatten().filter(|corner| **corner == at).for_each(|corner| *corner = 0);
                both
            }
            Doubled => self.doubled(),
            Edge => self.edge(),
            Shell => self.shell(),
            Spike => {
                let k = 3 + self.random.below(6);
                let foot = self.random.pick(&[0.01, 0.1, 0.0001]);
                let mut mesh = self.cone(k, true).scaled([foot, foot, 5.0]);
                if self.random.once_in(2) {
                    mesh = mesh.and(cube().scaled([0.2; 3]));
                }
                mesh
            }
            Inverted | Bad => self.solid(),
            Tiny => self.solid().scaled([0.01, 0.01, 0.01]),
            Far => {
                let away = self.point(2e8);
                let wide = self.random.pick(&[1.0, 20.0, 1e5]);
                self.solid().scaled([wide; 3]).moved(away)
            }
            Huge => {
                let wide = self.random.pick(&[1e9, 1e13, 1e19, 1e20, 3e38]);
                self.solid().scaled([wide; 3])
            }
            Small => {
                let wide = self.random.pick(&[1e-3, 1e-7, 1e-20, 1e-30, 1e-38]);
                self.solid().scaled([wide; 3])
            }
        }
    }

    /// Any triangles over up to 60 vertices, now and then one past them.
    fn soup(&mut self, family: Family) -> Mesh {
        let (v, t) = match self.random.below(40) {
            0 => (self.random.below(61), self.random.below(91)),
            1..=9 => (self.random.below(20), self.random.below(30)),
            _ => (self.random.below(9), self.random.below(9)),
        };
        let vertices = (0..v).map(|_| std::array::from_fn(|_| self.coordinate(family))).collect();
        let reach = v + self.random.pick(&[0, 0, 0, 0, 1]);
        let triangles = (0..t).map(|_| std::array::from_fn(|_| self.random.below(reach.max(1)))).collect();
        Mesh { vertices, triangles }
    }

    fn coordinate(&mut self, family: Family) -> f32 {
        let r = &mut self.random;
        match family {
            Family::Grid => r.below(5) as f32 - 2.0,
            Family::Powers => 2f32.powi(r.below(81) as i32 - 40) * r.pick(&[1.0, -1.0]),
            Family::Hard if r.once_in(2) => f32::from_bits(r.pick(&self.hard)),
            Family::Any => f32::from_bits(r.u32()),
            _ => self.unit() * 20.0,
        }
    }

    /// A cube, a double cone or a sphere, perhaps stretched, turned inside out or jittered.
    fn solid(&mut self) -> Mesh {
        let mut mesh = match self.random.below(8) {
            0 => sphere(3 + self.random.below(4)),
            1..=3 => cube(),
            _ => {
                let k = 3 + self.random.below(5);
                self.cone(k, true)
            }
        };
        if self.random.once_in(2) {
            mesh = mesh.scaled(std::array::from_fn(|_| self.random.pick(&[0.3, 1.0, 4.0])));
        }
        if self.random.once_in(3) {
            let by = self.random.pick(&[0.001, 0.1]);
            for at in 0..mesh.vertices.len() {
                let step = self.point(by);
                (0..3).for_each(|axis| mesh.vertices[at][axis] += step[axis]);
            }
        }
        if self.random.once_in(6) {
            mesh = mesh.turned();
        }
        mesh
    }

    /// A fan of k triangles about vertex 0, which stands 1 above or below its rim, closed by a foot or not.
    fn cone(&mut self, k: usize, foot: bool) -> Mesh {
        use std::f32::consts::PI;
        let mut vertices = vec![[0.0, 0.0, 1.0]];
        let rim = |i: usize| (2.0 * PI * i as f32 / k as f32).sin_cos();
        vertices.extend((0..k).map(|i| [rim(i).1, rim(i).0, 0.0]));
        let mut triangles: Vec<[usize; 3]> = (0..k).map(|i| [0, 1 + i, 1 + (i + 1) % k]).collect();
        if foot {
            let below = vertices.len();
            vertices.push([0.0, 0.0, self.random.pick(&[0.0, -1.0])]);
            triangles.extend((0..k).map(|i| [below, 1 + (i + 1) % k, 1 + i]));
        }
        Mesh { vertices, triangles }
    }

    fn fan(&mut self) -> Mesh {
        // Rings of 63 have thousands of triples: few are that long.
        let k = match self.random.below(60) {
            0 => 60 + self.random.below(11),
            1..=4 => 13 + self.random.below(30),
            _ => 1 + self.random.below(12),
        };
        let mut mesh = self.cone(k.max(3), false);
        mesh.triangles.truncate(k);
        if self.random.once_in(2) {
            // Open: the last one's way back is not there.
            mesh.triangles.pop();
        }
        let high = self.random.pick(&[1.0, 0.0, 5.0, -2.0]);
        mesh.vertices[0][2] = high;
        if self.random.once_in(4) {
            let turn = self.random.below(mesh.triangles.len().max(1));
            mesh.triangles.iter_mut().skip(turn).for_each(|t| t.swap(1, 2));
        }
        mesh
    }

    /// Few vertices and many triangles.
    fn few(&mut self) -> Mesh {
        let v = 3 + self.random.below(3);
        let vertices: Vec<Vec3> = (0..v).map(|_| self.point(4.0)).collect();
        let most = if self.random.once_in(12) { 14 } else { 5 };
        let triangle = |r: &mut Random| {
            let first = r.below(v);
            let t = [first, (first + 1 + r.below(v - 1)) % v, r.below(v)];
            r.pick(&[t, t, [0, 1, 2], [2, 1, 0], [1, 2, 0]])
        };
        let triangles = (0..2 + self.random.below(most)).map(|_| triangle(&mut self.random)).collect();
        Mesh { vertices, triangles }
    }

    fn doubled(&mut self) -> Mesh {
        let mut mesh = self.few();
        for t in &mut mesh.triangles {
            let (a, b) = (t[0], t[1]);
            *t = self.random.pick(&[[a, a, b], [a, b, a], [b, a, a], [a, a, a], *t]);
        }
        mesh
    }

    /// A book: pages on the edge from 0 to 1, evenly or not, some the other way about; or two at the angle whose sine squared
    /// is 0.1, where two normals begin to have a third.
    fn edge(&mut self) -> Mesh {
        let (even, near) = (self.random.once_in(2), self.random.once_in(3));
        let k = if near { 2 } else { 1 + self.random.below(5) };
        let least = 0.32175055 + self.unit() * 1e-6;
        let mut mesh = Mesh { vertices: vec![[0.0, 0.0, -1.0], [0.0, 0.0, 1.0]], triangles: Vec::new() };
        for i in 0..k {
            let angle = match (near, even) {
                (true, _) => i as f32 * least,
                (_, true) => i as f32 * 6.2831855 / k as f32,
                _ => self.unit() * 6.2831855,
            };
            mesh.vertices.push([angle.cos() * 2.0, angle.sin() * 2.0, self.unit()]);
            mesh.triangles.push(self.random.pick(&[[0, 1, 2 + i], [1, 0, 2 + i], [2 + i, 0, 1]]));
        }
        mesh
    }

    fn shell(&mut self) -> Mesh {
        let cells = self.random.pick(&[1, 1, 1, 1, 2, 2, 2, 2, 3, 5]);
        let apart = self.random.pick(&[0.01, 0.01, 0.1, 0.001, 0.0]);
        let (low, high) = (sheet(cells), sheet(cells).moved([0.0, 0.0, apart]));
        match self.random.below(3) {
            0 => low.turned().and(high),
            1 => low.and(high.turned()),
            _ => low.and(high),
        }
    }

    /// Bit 15 on some corners, corners that are not there, and the links that were before.
    fn numbers(&mut self, geometry: &mut Geometry, family: Family) {
        let (count, v) = (geometry.polygons.len(), geometry.vertices.len());
        let r = &mut self.random;
        let bad = match family {
            Family::Bad if r.once_in(4) => {
                geometry.polygons.truncate(1);
                0
            }
            Family::Bad => r.pick(&[0, count.saturating_sub(1)]),
            _ if r.once_in(40) => r.below(count.max(1)),
            _ => usize::MAX,
        };
        let (flags, links) = (r.pick(&[0, 0, 2, 1]), r.once_in(2));
        for (at, polygon) in geometry.polygons.iter_mut().enumerate() {
            let Polygon::Triangle { v: corners, links: given, area, .. } = polygon else { continue };
            if at == bad {
                corners[r.below(3)] = r.pick(&[v as u16, v as u16 + 3, 40_000, 0x7FFF]);
            }
            if flags > 0 {
                corners.iter_mut().filter(|_| r.once_in(flags)).for_each(|corner| *corner ^= 0x8000);
            }
            if links {
                *given = std::array::from_fn(|_| r.below(count + 2) as i16 - 1);
                *area = f32::from_bits(r.u32());
            }
        }
    }

    /// The box, the centre and the transform.
    fn place(&mut self, geometry: &mut Geometry, family: Family) {
        if family == Family::Inverted || self.random.once_in(30) {
            std::mem::swap(&mut geometry.box_min, &mut geometry.box_max);
        }
        match self.random.below(12) {
            0 => (geometry.box_min, geometry.box_max) = (self.point(8.0), self.point(8.0)),
            1 => (geometry.box_min, geometry.box_max) = ([-4.0; 3], [4.0; 3]),
            2 => (geometry.box_min, geometry.box_max) = ([-f32::MAX; 3], [f32::INFINITY; 3]),
            3 => {
                let corner = if self.random.once_in(2) { &mut geometry.box_min } else { &mut geometry.box_max };
                corner[self.random.below(3)] = f32::from_bits(self.random.pick(&self.hard));
            }
            _ => {}
        }
        match family {
            Family::Tiny => (geometry.box_min, geometry.box_max) = ([-0.01; 3], [0.01; 3]),
            // Not as thin as the sheets: half the box is no margin then.
            Family::Shell if self.random.once_in(2) => (geometry.box_min[2], geometry.box_max[2]) = (-2.0, 2.0),
            _ => {}
        }
        geometry.center_geom = match self.random.below(8) {
            0 => self.point(20.0),
            1 => [10.0, 0.0, 0.0],
            2 => std::array::from_fn(|_| f32::from_bits(self.random.pick(&self.hard))),
            _ => [0.0; 3],
        };
        match self.random.below(8) {
            0 => (0..16).for_each(|i| geometry.transform[i] = self.unit() * 4.0),
            1 => (0..16).for_each(|i| geometry.transform[i] = f32::from_bits(self.random.pick(&self.hard))),
            2 => geometry.transform = [0., 1., 0., 0., 1., 0., 0., 0., 0., 0., 1., 0., 5., 6., 7., 9.],
            _ => {}
        }
        let mut word = || if self.random.once_in(4) { f32::from_bits(self.random.u32()) } else { self.unit() };
        geometry.box_center = std::array::from_fn(|_| word());
        geometry.sphere_center = std::array::from_fn(|_| word());
        geometry.sphere_radius = word();
    }

    /// Polygons of other kinds among the triangles.
    fn others(&mut self, geometry: &mut Geometry) {
        if !self.random.once_in(3) {
            return;
        }
        for _ in 0..1 + self.random.below(4) {
            let r = &mut self.random;
            let reach = geometry.vertices.len() + 3;
            let mut index = || if r.once_in(20) { r.u32() as u16 } else { r.below(reach) as u16 };
            let (material, i1, i2, i3, i4) = (0, index(), index(), index(), index());
            let radius = f32::from_bits(if r.once_in(4) { r.pick(&self.hard) } else { 0x3F00_0000 });
            let polygon = match r.below(4) {
                0 => Polygon::Sphere { material, index: i1, radius },
                1 => Polygon::Capsule { material, i1, i2, radius },
                2 => Polygon::Box { material, i: [i1, i2, i3, i4].map(|i| i as i16) },
                _ => Polygon::Cylinder { material, i1, i2, radius },
            };
            geometry.polygons.insert(r.below(geometry.polygons.len() + 1), polygon);
        }
    }
}

#[cfg(test)]
mod tests {
    use super::*;

    #[test]
    fn a_sphere_is_closed_and_as_large_as_it_says() {
        for (k, vertices) in [(22, 508), (44, 1_982), (70, 4_972)] {
            let mesh = sphere(k);
            assert_eq!((mesh.vertices.len(), mesh.triangles.len()), (vertices, 2 * vertices - 4));
            let mut sides = std::collections::HashMap::new();
            for t in &mesh.triangles {
                (0..3).for_each(|i| *sides.entry((t[i], t[(i + 1) % 3])).or_insert(0) += 1);
            }
            assert!(sides.iter().all(|((a, b), &times)| times == 1 && sides.contains_key(&(*b, *a))), "closed");
        }
    }

    #[test]
    fn every_family_is_made() {
        let mut shapes = Shapes::new(1);
        for family in FAMILIES {
            let most = (0..200).map(|_| shapes.of(family, 4).polygons.len()).max();
            assert!(most > Some(0), "{family:?}");
        }
    }
}
