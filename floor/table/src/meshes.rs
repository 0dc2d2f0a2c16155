//! Inputs for the program `prepare`, and what it must print for them, by the reference.

use bounds::prepare::Quantised;
use bounds::{BoundMaterial, BoundVertex, Geometry, Mat4, Polygon, Prepared, Refusal, Vec3};
use compare::operation::made;
use oracle::geometry::prepare;
use oracle::polygon::{read, to_bytes};
use std::fs;
use std::io::{self, Write};
use std::path::Path;

/// The most bytes of an input.
const LIMIT: usize = 8_192;

fn triangle(material: u8, v: [u16; 3]) -> Polygon {
    Polygon::Triangle { material, area: 1.5, v, edges: [7, -1, 0] }
}

/// In the box around its vertices.
fn mesh(kind: u8, margin: f32, vertices: Vec<[f32; 3]>, polygons: Vec<Polygon>) -> Geometry {
    let (box_min, box_max) = around(&vertices);
    Geometry {
        box_min,
        box_max,
        box_center: Vec3::new(1.0, 2.0, 3.0),
        sphere_center: Vec3::new(4.0, 5.0, 6.0),
        sphere_radius: 7.0,
        margin,
        vertices: vertices.into_iter().map(Vec3::from).collect(),
        polygons,
        materials: [(1, 2), (3, 4), (1, 2)].map(material).to_vec(),
        ..Geometry::new(kind)
    }
}

pub fn material((data1, data2): (u32, u32)) -> BoundMaterial {
    BoundMaterial { data1, data2 }
}

/// The least box around them.
pub fn around(vertices: &[[f32; 3]]) -> (Vec3, Vec3) {
    let least = |axis: usize| vertices.iter().map(|v| v[axis]).fold(f32::MAX, f32::min);
    let most = |axis: usize| vertices.iter().map(|v| v[axis]).fold(f32::MIN, f32::max);
    (std::array::from_fn(least).into(), std::array::from_fn(most).into())
}

fn pyramid(kind: u8) -> Geometry {
    let vertices = vec![[-1.0, -1.0, 0.0], [1.0, -1.0, 0.0], [0.0, 1.0, 0.0], [0.0, 0.0, 1.0]];
    let faces = [[0, 2, 1], [0, 1, 3], [1, 2, 3], [2, 0, 3]];
    let number = [2, 1, 9, 0];
    mesh(kind, 0.04, vertices, (0..4).map(|i| triangle(number[i], faces[i])).collect())
}

fn cube(kind: u8, margin: f32) -> Geometry {
    let side = |bit: usize| if bit & 1 == 1 { 1.0 } else { -1.0 };
    let vertices = (0..8).map(|i| [side(i), side(i >> 1), side(i >> 2)]).collect();
    let sides = [[0, 1, 3, 2], [4, 6, 7, 5], [0, 4, 5, 1], [2, 3, 7, 6], [0, 2, 6, 4], [1, 5, 7, 3]];
    let halves = |[a, b, c, d]: [u16; 4]| [triangle(0, [a, c, b]), triangle(1, [a, d, c])];
    mesh(kind, margin, vertices, sides.into_iter().flat_map(halves).collect())
}

/// A plate so thin that half its thickness is too large a margin.
fn plate() -> Geometry {
    let mut g = cube(4, 0.25);
    g.vertices.iter_mut().for_each(|v| v.z *= 0.01);
    (g.box_min.z, g.box_max.z) = (-0.01, 0.01);
    g
}

/// Twelve polygons of every kind, moved and turned, three triangles on one edge: the second pass alters links.
fn mixed(kind: u8) -> Geometry {
    let vertices: Vec<[f32; 3]> =
        (0..12u32).map(|i| [37 * i % 16, 91 * i % 16, 53 * i % 16].map(|k| k as f32 - 8.0)).collect();
    let mut polygons: Vec<Polygon> = (0..9u16).map(|i| triangle((i % 4) as u8, [0, 1, i % 7 + 2])).collect();
    polygons[3] = triangle(5, [0x8000, 4, 40_000]);
    polygons.insert(2, Polygon::Sphere { material: 1, index: 11, radius: 0.5 });
    polygons.insert(4, Polygon::Capsule { material: 2, i1: 3, i2: 9, radius: 1.25 });
    polygons.insert(6, Polygon::Box { material: 3, i: [0, 5, 7, -1] });
    polygons.insert(8, Polygon::Cylinder { material: 0, i1: 90, i2: 2, radius: f32::from_bits(0x7F80_0001) });
    let mut g = mesh(kind, 0.5, vertices, polygons);
    g.center_geom = Vec3::new(5.0, -3.0, 0.25);
    g.transform = Mat4([0., 1., 0., 0., -1., 0., 0., 0., 0., 0., 2., 0., 10., 20., 30., 1.]);
    g
}

/// Nothing but a box, whose words are copied.
fn empty(kind: u8) -> Geometry {
    let mut g = mesh(kind, 0.04, Vec::new(), Vec::new());
    g.box_min = Vec3::new(f32::from_bits(0x7F80_0001), -1.0, 0.0);
    g.box_max = Vec3::new(1.0, f32::INFINITY, f32::from_bits(0xFFC0_1234));
    g.sphere_radius = f32::from_bits(0xFFA0_0000);
    g
}

/// A vertex that is no number, in no triangle, and one that is infinite.
fn odd() -> Geometry {
    let mut g = cube(4, 0.5);
    g.vertices.push(Vec3::new(f32::NAN, 0.0, -0.0));
    g.vertices[2].y = f32::INFINITY;
    g
}

fn bad() -> Geometry {
    let mut g = cube(4, 0.25);
    g.polygons.push(triangle(0, [0, 1, 8]));
    g
}

fn many() -> Geometry {
    let mut g = pyramid(8);
    g.polygons = (0..=255).map(|material| Polygon::Sphere { material, index: 1, radius: 0.5 }).collect();
    g.materials = (0..256).map(|i| material((i, 0))).collect();
    g
}

/// Rings of vertices between two poles.
fn ball(kind: u8) -> Geometry {
    const RINGS: u16 = 7;
    const SIDES: u16 = 12;
    let corner = |ring: u16, side: u16| 1 + SIDES * ring + side % SIDES;
    let vertex = |(ring, side): (u16, u16)| {
        let x = (2 * side + 1).abs_diff(SIDES) as f32 - 6.0;
        let y = (2 * side + 7).abs_diff(2 * SIDES).min(SIDES) as f32 - 6.0;
        let wide = 4 - ring.abs_diff(3);
        [x * wide as f32, y * wide as f32, 4.0 * ring as f32 - 12.0]
    };
    let mut vertices = vec![[0.0, 0.0, -18.0]];
    vertices.extend((0..RINGS).flat_map(|ring| (0..SIDES).map(move |side| (ring, side))).map(vertex));
    vertices.push([0.0, 0.0, 18.0]);
    let last = vertices.len() as u16 - 1;
    let mut faces = vec![];
    for side in 0..SIDES {
        faces.push([0, corner(0, side + 1), corner(0, side)]);
        faces.push([last, corner(RINGS - 1, side), corner(RINGS - 1, side + 1)]);
        for ring in 1..RINGS {
            let [a, b] = [ring - 1, ring].map(|ring| [corner(ring, side), corner(ring, side + 1)]);
            faces.extend([[a[0], a[1], b[1]], [a[0], b[1], b[0]]]);
        }
    }
    mesh(kind, 0.3, vertices, faces.into_iter().map(|v| triangle((v[0] % 3) as u8, v)).collect())
}

/// As many polygons, and as many vertices, as an input has room for.
fn most_polygons() -> Geometry {
    let mut g = pyramid(8);
    let sphere = |i: u16| Polygon::Sphere { material: i as u8, index: i % 5, radius: 0.25 * (i % 37) as f32 };
    (g.polygons, g.materials) = ((0..470).map(sphere).collect(), vec![]);
    g
}

fn most_vertices() -> Geometry {
    let vertices = (0..670u32).map(|i| [i * i % 97, i * 31 % 89, i * 7 % 101].map(|k| k as f32 - 45.0)).collect();
    let mut g = mesh(4, 0.5, vertices, vec![]);
    g.materials.clear();
    g
}

fn endless() -> Geometry {
    let mut g = pyramid(4);
    (g.margin, g.box_max) = (f32::NAN, [f32::INFINITY; 3].into());
    g
}

fn words(out: &mut Vec<u8>, words: impl IntoIterator<Item = u32>) {
    words.into_iter().for_each(|word| out.extend(word.to_le_bytes()));
}

fn floats(points: &[Vec3]) -> impl Iterator<Item = f32> + '_ {
    points.iter().flat_map(|&p| <[f32; 3]>::from(p))
}

fn pairs(materials: &[BoundMaterial]) -> impl Iterator<Item = u32> + '_ {
    materials.iter().flat_map(|m| [m.data1, m.data2])
}

pub fn input(g: &Geometry) -> Vec<u8> {
    let mut out = Vec::new();
    words(&mut out, [g.kind as u32, g.polygons.len() as u32, g.vertices.len() as u32, g.materials.len() as u32]);
    let frame = [g.box_min, g.box_max, g.box_center, g.sphere_center];
    words(&mut out, floats(&frame).chain([g.sphere_radius, g.margin]).map(f32::to_bits));
    words(&mut out, floats(&[g.center_geom]).chain(g.transform.0).map(f32::to_bits));
    words(&mut out, pairs(&g.materials));
    words(&mut out, floats(&g.vertices).map(f32::to_bits));
    out.extend(g.polygons.iter().flat_map(|&p| to_bytes(p)));
    out.extend(g.polygons.iter().map(Polygon::material));
    out
}

fn line(out: &mut String, name: &str, bytes: &[u8]) {
    *out += name;
    *out += " ";
    bytes.iter().for_each(|byte| *out += &format!("{byte:02X}"));
    *out += "\n";
}

fn stored(q: &Quantised) -> Vec<u8> {
    q.stored.iter().flat_map(|&BoundVertex(x, y, z)| [x, y, z]).flat_map(i16::to_le_bytes).collect()
}

fn listing(kind: u8, p: &Prepared) -> String {
    let mut out = String::new();
    let bytes = |list: &mut dyn Iterator<Item = u32>| list.flat_map(u32::to_le_bytes).collect::<Vec<u8>>();
    let frame = [p.box_min, p.box_max, p.box_center, p.sphere_center];
    let word = if p.bvh.is_some() { made } else { f32::to_bits };
    line(&mut out, "frame", &bytes(&mut floats(&frame).chain([p.sphere_radius]).map(word)));
    line(&mut out, "quantum", &bytes(&mut floats(&[p.quantum]).map(made)));
    line(&mut out, "materials", &(p.materials_count as u32).to_le_bytes());
    let octants = p.octants.clone().unwrap_or_default().items;
    line(&mut out, "octants", &bytes(&mut octants.iter().map(|list| list.len() as u32)));
    let tree = p.bvh.as_ref().map_or(vec![0; 19], |tree| {
        let b = &tree.built;
        let counts = [b.nodes_count, b.nodes_capacity, b.trees_count, b.items_count];
        let vectors = [b.bb_min, b.bb_max, b.bb_center, b.quantum_inverse, b.quantum];
        counts.into_iter().chain(floats(&vectors).map(made)).collect()
    });
    line(&mut out, "tree", &bytes(&mut tree.into_iter()));
    line(&mut out, "list", &bytes(&mut pairs(&p.materials)));
    line(&mut out, "indices", &p.polygon_material_indices);
    line(&mut out, "polygons", &p.polygons);
    line(&mut out, "vertices", &stored(&p.vertices));
    line(&mut out, "floats", &bytes(&mut floats(&p.vertices.floats).map(made)));
    if kind == 4 {
        let shrunk = p.vertices_shrunk.clone().unwrap_or_default();
        line(&mut out, "shrunk", &stored(&shrunk));
        line(&mut out, "shrunk_floats", &bytes(&mut floats(&shrunk.floats).map(made)));
        line(&mut out, "lists", &bytes(&mut octants.iter().flatten().copied()));
    }
    if let Some(t) = &p.bvh {
        line(&mut out, "nodes", &t.node_bytes);
        line(&mut out, "trees", &t.tree_bytes);
        line(&mut out, "order", &t.order.iter().flat_map(|place| place.to_le_bytes()).collect::<Vec<u8>>());
    }
    out
}

/// What is printed for an input that holds this geometry, or is damaged.
pub fn printed(g: &Geometry, input: &[u8]) -> String {
    let whole = 148 + 8 * g.materials.len() + 12 * g.vertices.len() + 17 * g.polygons.len();
    let records = input.get(whole.wrapping_sub(17 * g.polygons.len())..).unwrap_or_default();
    let unknown = records.chunks_exact(16).take(g.polygons.len()).any(|record| read(record).is_err());
    let known = [4, 8].contains(&g.kind);
    let answer = match () {
        _ if input.len() > LIMIT => Err(Refusal::ListTooLong),
        _ if input.len() != whole => Err(Refusal::RaggedInput),
        _ if known && unknown => Err(Refusal::UnknownKind),
        _ => prepare(g),
    };
    answer.map_or_else(|refusal| format!("refused {}\n", refusal.number()), |p| listing(g.kind, &p))
}

fn cases() -> Vec<(&'static str, Geometry, Vec<u8>)> {
    let whole = |name, g: Geometry| (name, g.clone(), input(&g));
    let mut cases = vec![
        whole("pyramid_4", pyramid(4)),
        whole("pyramid_8", pyramid(8)),
        whole("cube", cube(4, 0.25)),
        whole("plate", plate()),
        whole("mixed_4", mixed(4)),
        whole("mixed_8", mixed(8)),
        whole("ball_4", ball(4)),
        whole("ball_8", ball(8)),
        whole("most_polygons", most_polygons()),
        whole("most_vertices", most_vertices()),
        whole("empty_4", empty(4)),
        whole("empty_8", empty(8)),
        whole("odd", odd()),
        whole("bad", bad()),
        whole("materials", many()),
        whole("endless", endless()),
        whole("kind", pyramid(5)),
    ];
    let (name, g, mut bytes) = whole("polygon", endless());
    let first = 148 + 8 * g.materials.len() + 12 * g.vertices.len();
    bytes[first] = 6;
    cases.push((name, g, bytes));
    let (name, g, mut bytes) = whole("ragged", pyramid(4));
    bytes.pop();
    cases.push((name, g, bytes));
    let (name, g, mut bytes) = whole("over", pyramid(4));
    bytes.resize(LIMIT + 1, 0);
    cases.push((name, g, bytes));
    cases
}

/// Writes each input to a file of the folder, and prints its name and what is printed for it.
pub fn print(out: &mut impl Write, folder: &Path) -> io::Result<()> {
    for (name, g, input) in cases() {
        fs::write(folder.join(name), &input)?;
        write!(out, "case {name}\n{}", printed(&g, &input))?;
    }
    Ok(())
}

#[cfg(test)]
mod tests {
    use super::*;

    #[test]
    fn the_program_must_print_this() {
        if oracle::missing().is_none() {
            let text: String =
                cases().iter().map(|(name, g, input)| format!("case {name}\n{}", printed(g, input))).collect();
            assert!(text == include_str!("../../../crates/prepare_cases/stdout"));
        }
    }

    #[test]
    fn each_refusal_and_both_kinds_are_there() {
        if let Some(why) = oracle::missing() {
            return eprintln!("left out: {why}");
        }
        let printed: Vec<String> = cases().iter().map(|(_, g, input)| printed(g, input)).collect();
        for number in [1, 6, 7, 8, 13] {
            assert!(printed.contains(&format!("refused {number}\n")), "{number}");
        }
        assert!(cases().iter().all(|(name, _, input)| input.len() <= LIMIT || *name == "over"));
        assert!(
            printed.iter().any(|text| text.contains("\nshrunk "))
                && printed.iter().any(|text| text.contains("\norder "))
        );
    }
}
