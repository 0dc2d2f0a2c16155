//! Random meshes of every kind of polygon, tame and hostile, from a seed.

use super::{value, Random, Spread};
use bounds::{BoundMaterial, Geometry, Mat4, Polygon, Vec3};
use tool::mesh::{Form, Mesh, MeshFolder, Origin};

type Corners = [usize; 3];

/// What a mesh is made of before it is dressed up.
#[derive(Default)]
struct Shape {
    vertices: Vec<Vec3>,
    triangles: Vec<Corners>,
}

/// A mesh of this kind.
pub fn mesh(random: &mut Random, kind: u8) -> Geometry {
    let shape = match random.below(8) {
        0 if random.below(3) == 0 => grid(random),
        0 => solid(random),
        1 => ball(random),
        2 => fan(random),
        3 => sheets(random),
        4 => twins(random),
        _ => soup(random),
    };
    let mut geometry = Geometry::new(kind);
    geometry.vertices = shape.vertices;
    geometry.polygons = shape.triangles.iter().map(|&corners| triangle(random, corners)).collect();
    others(random, &mut geometry);
    match random.below(30) {
        0 => geometry.polygons.clear(),
        1 => geometry.vertices.clear(),
        _ => (),
    }
    materials(random, &mut geometry);
    frame(random, &mut geometry);
    geometry
}

/// Small changes of a mesh, as an exporter or a hand makes them.
pub fn changed(random: &mut Random, geometry: &Geometry) -> Geometry {
    let mut changed = geometry.clone();
    for _ in 0..1 + random.below(2) {
        let spread = random.pick(&[Spread::Small, Spread::Street, Spread::Hard]);
        let x = value(random, spread);
        let (v, p, m) = (changed.vertices.len(), changed.polygons.len(), changed.materials.len());
        match random.below(14) {
            0 => changed.box_max.x = x,
            1 => changed.margin = random.pick(&[0.0, 0.01, 0.3, f32::NAN]),
            2 => changed.center_geom.z = x,
            3 => changed.transform.0[random.below(16)] = x,
            4 => changed.vertices.push(Vec3::new(x, 0.0, 1.0)),
            5 => drop(changed.vertices.pop()),
            6 => changed.polygons.push(triangle(random, [0, 1, 2])),
            7 => drop(changed.polygons.pop()),
            8 if m > 0 => changed.materials[random.below(m)].data1 ^= 1 + random.below(3) as u32,
            9 if p > 0 => changed.polygons[random.below(p)] = triangle(random, [1, 0, 2]),
            10 if p > 1 => changed.polygons.swap(0, p - 1),
            11 => changed.sphere_radius = x,
            _ if v > 0 => changed.vertices[random.below(v)].y = x,
            _ => changed.box_min.y = x,
        }
    }
    changed
}

fn point(random: &mut Random, spread: Spread) -> Vec3 {
    Vec3::new(value(random, spread), value(random, spread), value(random, spread))
}

fn triangle(random: &mut Random, corners: Corners) -> Polygon {
    let flags = random.below(12) == 0;
    let v = corners.map(|corner| corner as u16 | if flags && random.below(2) == 0 { 0x8000 } else { 0 });
    let area = if random.below(6) == 0 { value(random, Spread::Hard) } else { random.below(100) as f32 * 0.37 };
    let edges = random.pick(&[[-1; 3], [0; 3], [7, -1, 300]]);
    Polygon::Triangle { material: random.below(5) as u8, area, v, edges }
}

/// A cube or a pyramid, somewhere.
fn solid(random: &mut Random) -> Shape {
    let side = |bit: usize| if bit & 1 == 1 { 1.0 } else { -1.0 };
    let cube: Vec<Vec3> = (0..8).map(|i| Vec3::new(side(i), side(i >> 1), side(i >> 2))).collect();
    let sides = [[0, 1, 3, 2], [4, 6, 7, 5], [0, 4, 5, 1], [2, 3, 7, 6], [0, 2, 6, 4], [1, 5, 7, 3]];
    let halves = |[a, b, c, d]: [usize; 4]| [[a, b, c], [a, c, d]];
    let (mut vertices, mut triangles) = (cube, sides.into_iter().flat_map(halves).collect::<Vec<_>>());
    if random.below(2) == 0 {
        vertices.truncate(4);
        triangles = vec![[0, 2, 1], [0, 1, 3], [1, 2, 3], [2, 0, 3]];
    }
    let (size, at) = (random.pick(&[1.0, 0.1, 0.03, 3.0, 1e20, 1e-30]), point(random, Spread::Small));
    let place = |v: &Vec3| Vec3::new(v.x * size + at.x, v.y * size + at.y, v.z * size + at.z);
    vertices = vertices.iter().map(place).collect();
    Shape { vertices, triangles }
}

/// A ball of rings.
fn ball(random: &mut Random) -> Shape {
    let (rings, wide) = (1 + random.below(3), 3 + random.below(4));
    let size = random.pick(&[1.0f32, 0.5, 20.0]);
    let mut vertices = vec![Vec3::new(0.0, 0.0, size)];
    for ring in 1..=rings {
        let (sin, cos) = (std::f32::consts::PI * ring as f32 / (rings + 1) as f32).sin_cos();
        for i in 0..wide {
            let (y, x) = (2.0 * std::f32::consts::PI * i as f32 / wide as f32).sin_cos();
            vertices.push(Vec3::new(size * sin * x, size * sin * y, size * cos));
        }
    }
    vertices.push(Vec3::new(0.0, 0.0, -size));
    let (at, last) = (|ring: usize, i: usize| 1 + ring * wide + i % wide, vertices.len() - 1);
    let mut triangles = Vec::new();
    for i in 0..wide {
        triangles.push([0, at(0, i), at(0, i + 1)]);
        for ring in 1..rings {
            let (a, b, c, d) = (at(ring - 1, i), at(ring - 1, i + 1), at(ring, i), at(ring, i + 1));
            triangles.extend([[a, c, b], [b, c, d]]);
        }
        triangles.push([last, at(rings - 1, i + 1), at(rings - 1, i)]);
    }
    Shape { vertices, triangles }
}

/// Triangles about one vertex, closed or open, up to a ring as long as can be.
fn fan(random: &mut Random) -> Shape {
    let n = if random.below(6) == 0 { 60 + random.below(10) } else { 1 + random.below(9) };
    let turn = |i: usize| (i as f32 * 6.3 / n as f32).sin_cos();
    let mut vertices = vec![Vec3::new(0.0, 0.0, 0.5)];
    vertices.extend((0..=n).map(|i| Vec3::new(turn(i).0, turn(i).1, 0.1 * (i % 3) as f32)));
    let closed = random.below(2) == 0;
    let next = |i: usize| if closed && i + 1 == n { 1 } else { i + 2 };
    Shape { triangles: (0..n).map(|i| [0, i + 1, next(i)]).collect(), vertices }
}

/// Two sheets, so close that the margin is too large.
fn sheets(random: &mut Random) -> Shape {
    let apart = random.pick(&[0.01, 0.05, 1.0]);
    let corner = |i: usize| Vec3::new((i & 1) as f32, (i >> 1 & 1) as f32, if i > 3 { apart } else { 0.0 });
    Shape { vertices: (0..8).map(corner).collect(), triangles: vec![[0, 2, 1], [1, 2, 3], [4, 5, 6], [5, 7, 6]] }
}

/// A field of hills, large enough for a tree of several ranges.
fn grid(random: &mut Random) -> Shape {
    let wide = 10 + random.below(8);
    let height = |random: &mut Random| random.below(100) as f32 * 0.01;
    let vertices = (0..wide * wide).map(|i| Vec3::new((i % wide) as f32, (i / wide) as f32, height(random))).collect();
    let cell = |i: usize| {
        let low = i / (wide - 1) * wide + i % (wide - 1);
        [[low, low + 1, low + wide], [low + 1, low + wide + 1, low + wide]]
    };
    Shape { vertices, triangles: (0..(wide - 1) * (wide - 1)).flat_map(cell).collect() }
}

/// Equal triangles of few vertices: several on an edge, rings that do not come back.
fn twins(random: &mut Random) -> Shape {
    let vertices = (0..3 + random.below(3)).map(|_| point(random, Spread::Small)).collect::<Vec<_>>();
    let n = vertices.len();
    let triangles = (0..1 + random.below(9)).map(|_| std::array::from_fn(|_| random.below(n))).collect();
    Shape { vertices, triangles }
}

/// Any triangles over any vertices; a corner may be missing, and there may be none of either.
fn soup(random: &mut Random) -> Shape {
    let scaled = Spread::Scaled(random.below(254) as u32);
    let spread = random.pick(&[Spread::Small, Spread::Small, Spread::Street, scaled, Spread::Any, Spread::Hard]);
    let n = random.below(16);
    let mut vertices: Vec<Vec3> = (0..n).map(|_| point(random, spread)).collect();
    if n > 0 && random.below(3) == 0 {
        vertices[random.below(n)].y = value(random, Spread::Hard);
    }
    let past = if random.below(3) == 0 { 1 + n / 4 } else { 0 };
    let triangles = (0..random.below(24)).map(|_| std::array::from_fn(|_| random.below((n + past).max(1)))).collect();
    Shape { vertices, triangles }
}

/// Round ones and boxes among the triangles, most of the time.
fn others(random: &mut Random, geometry: &mut Geometry) {
    let v = geometry.vertices.len();
    for _ in 0..random.below(8) {
        let mut at = || random.below(v + 2) as u16;
        let [a, b, c, d] = [at(), at(), at(), at()];
        let radius = random.pick(&[0.5, 0.25, 0.0, -1.0, f32::NAN, f32::INFINITY]);
        let material = random.below(7) as u8;
        let polygon = match random.below(4) {
            0 => Polygon::Sphere { material, index: a, radius },
            1 => Polygon::Capsule { material, i1: a, i2: b, radius },
            2 => Polygon::Cylinder { material, i1: a, i2: b, radius },
            _ => Polygon::Box {
                material,
                i: [a as i16, b as i16, c as i16, if random.below(5) == 0 { -1 } else { d as i16 }],
            },
        };
        let place = random.below(geometry.polygons.len() + 1);
        geometry.polygons.insert(place, polygon);
    }
}

/// Some of them equal, fewer than the polygons name.
fn materials(random: &mut Random, geometry: &mut Geometry) {
    let n = random.below(7);
    let one = |random: &mut Random| BoundMaterial { data1: random.below(3) as u32, data2: random.below(2) as u32 };
    geometry.materials = (0..n).map(|_| one(random)).collect();
}

fn frame(random: &mut Random, geometry: &mut Geometry) {
    let of = |pick: fn(f32, f32) -> f32, start: f32| {
        let fold = |axis: fn(&Vec3) -> f32| geometry.vertices.iter().map(axis).fold(start, pick);
        Vec3::new(fold(|v| v.x), fold(|v| v.y), fold(|v| v.z))
    };
    (geometry.box_min, geometry.box_max) = (of(f32::min, f32::INFINITY), of(f32::max, f32::NEG_INFINITY));
    if geometry.vertices.is_empty() || random.below(6) == 0 {
        let spread = random.pick(&[Spread::Small, Spread::Hard]);
        (geometry.box_min, geometry.box_max) = (point(random, spread), point(random, spread));
    }
    geometry.box_center = point(random, Spread::Small);
    geometry.sphere_center = point(random, Spread::Hard);
    geometry.sphere_radius = random.pick(&[1.0, 0.0, f32::NAN]);
    geometry.margin = random.pick(&[0.04, 0.04, 0.1, 0.005, 0.0, 1e-7, 5.0, f32::NAN]);
    if random.below(4) == 0 {
        geometry.center_geom = point(random, Spread::Small);
    }
    if random.below(3) == 0 {
        let spread = random.pick(&[Spread::Small, Spread::Small, Spread::Hard]);
        geometry.transform = Mat4(std::array::from_fn(|_| value(random, spread)));
    }
}

/// What the library makes of a mesh; none where it is refused.
pub fn folder(name: &str, geometry: Geometry) -> Option<MeshFolder> {
    let mesh = Mesh { geometry, origin: Origin::new(name, Form::Text), names: Vec::new() };
    MeshFolder::prepare(name, mesh).ok()
}
