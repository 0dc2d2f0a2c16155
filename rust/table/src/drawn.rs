//! Many small meshes, drawn by a fixed seed, for the program `prepare_replay`: their inputs one after another.

use crate::meshes::{input, printed};
use oracle::geometry::{Geometry, IDENTITY};
use oracle::polygon::{read, to_bytes, Polygon};
use oracle::Vec3;
use std::fs;
use std::io::{self, Write};
use std::path::Path;

const MESHES: usize = 300;

/// Values at which float code goes wrong.
const HARD: [u32; 12] = [
    0x0000_0000,
    0x8000_0000,
    0x0000_0001,
    0x807F_FFFF,
    0x7F7F_FFFF,
    0xFF7F_FFFF,
    0x7F80_0000,
    0xFF80_0000,
    0x7FC0_0000,
    0x7F80_0001,
    0xFFA0_1234,
    0x3F80_0001,
];

/// splitmix64
struct Draws(u64);

impl Draws {
    fn u32(&mut self) -> u32 {
        self.0 = self.0.wrapping_add(0x9E37_79B9_7F4A_7C15);
        let mut z = self.0;
        z = (z ^ (z >> 30)).wrapping_mul(0xBF58_476D_1CE4_E5B9);
        z = (z ^ (z >> 27)).wrapping_mul(0x94D0_49BB_1331_11EB);
        ((z ^ (z >> 31)) >> 32) as u32
    }

    fn below(&mut self, n: usize) -> usize {
        ((self.u32() as u64 * n as u64) >> 32) as usize
    }

    fn once_in(&mut self, n: usize) -> bool {
        self.below(n) == 0
    }

    fn pick<T: Copy>(&mut self, from: &[T]) -> T {
        from[self.below(from.len())]
    }

    /// Between −1 and 1.
    fn unit(&mut self) -> f32 {
        self.u32() as f32 / 2_147_483_648.0 - 1.0
    }

    fn point(&mut self, size: f32) -> Vec3 {
        [(); 3].map(|()| size * self.unit())
    }

    /// Such a point, a coordinate of which is seldom a hard value.
    fn vertex(&mut self, size: f32, hard: usize) -> Vec3 {
        self.point(size).map(|x| if hard > 0 && self.once_in(hard) { f32::from_bits(self.pick(&HARD)) } else { x })
    }

    fn polygon(&mut self, vertices: usize) -> Polygon {
        let past = self.once_in(12);
        let mut at = || if past { self.u32() as u16 } else { self.below(vertices.max(1)) as u16 };
        let i = [at(), at(), at(), at()];
        let material = self.below(7) as u8;
        let radius = self.vertex(2.0, 9)[0];
        match self.below(8) {
            0 => Polygon::Sphere { material, index: i[0], radius },
            1 => Polygon::Capsule { material, i1: i[0], i2: i[1], radius },
            2 => Polygon::Box { material, i: i.map(|i| i as i16) },
            3 => Polygon::Cylinder { material, i1: i[0], i2: i[1], radius },
            _ => self.triangle([i[0], i[1], i[2]]),
        }
    }

    fn triangle(&mut self, v: [u16; 3]) -> Polygon {
        let links = [(); 3].map(|()| self.u32() as i16);
        Polygon::Triangle { material: self.below(7) as u8, area: self.unit().abs(), v, links }
    }

    /// Any polygons over any points, some of them several times.
    fn soup(&mut self) -> (Vec<Vec3>, Vec<Polygon>) {
        let (size, hard) = (self.pick(&[1.0, 100.0, 1e-3, 1e20]), self.pick(&[0, 0, 60, 8]));
        let vertices: Vec<Vec3> = (0..self.below(20)).map(|_| self.vertex(size, hard)).collect();
        let mut polygons: Vec<Polygon> = (0..self.below(24)).map(|_| self.polygon(vertices.len())).collect();
        for _ in 0..self.below(3) {
            polygons.extend(polygons.last().copied());
        }
        (vertices, polygons)
    }

    /// Triangles on few edges: of more than two on an edge the last two are linked.
    fn fan(&mut self) -> (Vec<Vec3>, Vec<Polygon>) {
        let vertices: Vec<Vec3> = (0..3 + self.below(6)).map(|_| self.point(4.0)).collect();
        let n = vertices.len();
        let corner = |draws: &mut Draws| [draws.below(2) as u16, draws.below(3) as u16, draws.below(n) as u16];
        let polygons = (0..4 + self.below(14)).map(|_| corner(self)).collect::<Vec<_>>();
        (vertices, polygons.into_iter().map(|v| self.triangle(v)).collect())
    }

    /// An octahedron of uneven axes, whose triangles are cut in four once or not at all; seldom one is missing.
    fn solid(&mut self) -> (Vec<Vec3>, Vec<Polygon>) {
        let axes = [(); 3].map(|()| self.pick(&[1.0f32, 1.0, 0.02, 3.0]) * (1.5 + self.unit()));
        let mut vertices: Vec<Vec3> = vec![];
        for axis in 0..3 {
            for sign in [1.0, -1.0] {
                vertices.push(std::array::from_fn(|k| if k == axis { sign * axes[k] } else { 0.0 }));
            }
        }
        let mut faces: Vec<[u16; 3]> = (0..8u16)
            .map(|o| {
                let [x, y, z] = [o & 1, 2 + (o >> 1 & 1), 4 + (o >> 2)];
                if (o.count_ones() & 1) == 0 {
                    [x, y, z]
                } else {
                    [x, z, y]
                }
            })
            .collect();
        if self.once_in(3) {
            faces = cut(&mut vertices, &faces, 1.0 + 0.3 * self.unit());
        }
        if self.once_in(6) {
            faces.remove(0);
        }
        let shift = self.pick(&[0.0, 0.0, 0.1, 50.0]);
        let by = self.point(shift);
        vertices.iter_mut().for_each(|v| *v = [v[0] + by[0], v[1] + by[1], v[2] + by[2]]);
        (vertices, faces.into_iter().map(|v| self.triangle(v)).collect())
    }

    fn transform(&mut self) -> [f32; 16] {
        match self.below(3) {
            0 => IDENTITY,
            1 => {
                let mut m: [f32; 16] = std::array::from_fn(|_| 2.0 * self.unit());
                (m[3], m[7], m[11], m[15]) = (0.0, 0.0, 0.0, 1.0);
                m
            }
            _ => std::array::from_fn(|_| self.vertex(1.0, 40)[0]),
        }
    }

    fn geometry(&mut self) -> Geometry {
        let kind = self.pick(&[4, 8]);
        let (vertices, polygons) = match self.below(5) {
            0 | 1 => self.soup(),
            2 => self.fan(),
            _ => self.solid(),
        };
        let least = |axis: usize| vertices.iter().map(|v| v[axis]).fold(f32::MAX, f32::min);
        let most = |axis: usize| vertices.iter().map(|v| v[axis]).fold(f32::MIN, f32::max);
        let (mut box_min, mut box_max) = (std::array::from_fn(least), std::array::from_fn(most));
        if self.once_in(6) {
            (box_min, box_max) = (self.vertex(5.0, 12), self.vertex(5.0, 12));
        }
        let margins = [0.04, 0.25, 0.5, 0.0, -0.0, -0.1, 3.0, 1e-6];
        Geometry {
            kind,
            box_min,
            box_max,
            box_center: self.vertex(3.0, 10),
            sphere_center: self.vertex(3.0, 10),
            sphere_radius: self.vertex(3.0, 5)[0],
            margin: if self.once_in(9) { f32::from_bits(self.pick(&HARD)) } else { self.pick(&margins) },
            center_geom: if self.once_in(2) { [0.0; 3] } else { self.vertex(2.0, 30) },
            transform: self.transform(),
            vertices,
            polygons: polygons.into_iter().map(stored).collect(),
            materials: (0..self.below(8)).map(|_| (self.below(3) as u32, self.below(2) as u32)).collect(),
        }
    }
}

/// Each triangle in four, the new corners moved out or in by a factor.
fn cut(vertices: &mut Vec<Vec3>, faces: &[[u16; 3]], by: f32) -> Vec<[u16; 3]> {
    let mut halves: Vec<([u16; 2], u16)> = vec![];
    let mut half = |a: u16, b: u16| {
        let key = [a.min(b), a.max(b)];
        if let Some(&(_, at)) = halves.iter().find(|(k, _)| *k == key) {
            return at;
        }
        let (p, q) = (vertices[a as usize], vertices[b as usize]);
        vertices.push(std::array::from_fn(|k| (p[k] + q[k]) * 0.5 * by));
        halves.push((key, vertices.len() as u16 - 1));
        vertices.len() as u16 - 1
    };
    faces
        .iter()
        .flat_map(|&[a, b, c]| {
            let (x, y, z) = (half(a, b), half(b, c), half(c, a));
            [[a, x, z], [x, b, y], [z, y, c], [x, y, z]]
        })
        .collect()
}

/// As its record has it, with the number of its material.
fn stored(mut polygon: Polygon) -> Polygon {
    let number = match polygon {
        Polygon::Triangle { material, .. }
        | Polygon::Sphere { material, .. }
        | Polygon::Capsule { material, .. }
        | Polygon::Box { material, .. }
        | Polygon::Cylinder { material, .. } => material,
    };
    if let Ok(read) = read(&to_bytes(polygon)) {
        polygon = read;
    }
    match &mut polygon {
        Polygon::Triangle { material, .. }
        | Polygon::Sphere { material, .. }
        | Polygon::Capsule { material, .. }
        | Polygon::Box { material, .. }
        | Polygon::Cylinder { material, .. } => *material = number,
    }
    polygon
}

/// The next mesh, and its input: seldom of another kind, with a record of no kind, too many materials or an infinite margin.
fn draw(draws: &mut Draws) -> (Geometry, Vec<u8>) {
    let mut g = draws.geometry();
    match draws.below(40) {
        0 => g.kind = draws.pick(&[0, 3, 5, 9, 255]),
        1 => g.materials.resize(257, (1, 2)),
        2 | 3 => (g.kind, g.margin, g.box_max) = (4, f32::INFINITY, [f32::INFINITY; 3]),
        _ => {}
    }
    let mut bytes = input(&g);
    if draws.once_in(20) && g.materials.len() <= 256 && !g.polygons.is_empty() {
        let records = bytes.len() - 17 * g.polygons.len();
        bytes[records + 16 * draws.below(g.polygons.len())] |= 7;
    }
    (g, bytes)
}

/// The inputs one after another, and what is printed for them.
fn all() -> (Vec<u8>, String) {
    let mut draws = Draws(16);
    let (mut inputs, mut text) = (vec![], String::new());
    for _ in 0..MESHES {
        let (g, bytes) = draw(&mut draws);
        text += &printed(&g, &bytes);
        inputs.extend(bytes);
    }
    (inputs, text)
}

/// Writes the inputs to one file, and prints what is printed for each.
pub fn print(out: &mut impl Write, file: &Path) -> io::Result<()> {
    let (inputs, text) = all();
    fs::write(file, inputs)?;
    out.write_all(text.as_bytes())
}

#[cfg(test)]
mod tests {
    #[test]
    fn the_program_reads_and_must_print_this() {
        if oracle::missing().is_none() {
            let (inputs, text) = super::all();
            assert!(inputs == include_bytes!("../../../crates/prepare_replay/stdin"));
            assert!(text == include_str!("../../../crates/prepare_replay/stdout"));
            assert!([1, 6, 7].iter().all(|number| text.contains(&format!("refused {number}\n"))));
        }
    }
}
