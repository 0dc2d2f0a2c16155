//! Inputs for the program `prepare`, and what it must print for them, by the reference.

use oracle::geometry::{prepare, Geometry, Prepared, Quantised, IDENTITY};
use oracle::polygon::{read, to_bytes, Polygon};
use oracle::Vec3;
use std::fs;
use std::io::{self, Write};
use std::path::Path;

/// The most bytes of an input.
const LIMIT: usize = 8_192;

fn triangle(material: u8, v: [u16; 3]) -> Polygon {
    Polygon::Triangle { material, area: 1.5, v, links: [7, -1, 0] }
}

/// In the box around its vertices.
fn mesh(kind: u8, margin: f32, vertices: Vec<Vec3>, polygons: Vec<Polygon>) -> Geometry {
    let least = |axis: usize| vertices.iter().map(|v| v[axis]).fold(f32::MAX, f32::min);
    let most = |axis: usize| vertices.iter().map(|v| v[axis]).fold(f32::MIN, f32::max);
    Geometry {
        kind,
        box_min: std::array::from_fn(least),
        box_max: std::array::from_fn(most),
        box_center: [1.0, 2.0, 3.0],
        sphere_center: [4.0, 5.0, 6.0],
        sphere_radius: 7.0,
        margin,
        center_geom: [0.0; 3],
        transform: IDENTITY,
        vertices,
        polygons,
        materials: vec![(1, 2), (3, 4), (1, 2)],
    }
}

fn pyramid(kind: u8) -> Geometry {
    let vertices = vec![[-1.0, -1.0, 0.0], [1.0, -1.0, 0.0], [0.0, 1.0, 0.0], [0.0, 0.0, 1.0]];
    let faces = [[0, 2, 1], [0, 1, 3], [1, 2, 3], [2, 0, 3]];
    let number = [2, 1, 9, 0];
    mesh(kind, 0.04, vertices, (0..4).map(|i| triangle(number[i], faces[i])).collect())
}

fn cube(kind: u8, margin: f32) -> Geometry {
    let side = |bit: usize| if bit & 1 == 1 { 1.0 } else { -1.0 };
    let vertices = (0..8).map(|i| [side(i), side(i >> 1), side(i >> 2)]).collect();
    let sides = [[0, 1, 3, 2], [4, 6, 7, 5], [0, 4, 5, 1], [2, 3, 7, 6], [0, 2, 6, 4], [1, 5, 7, 3]];
    let halves = |[a, b, c, d]: [u16; 4]| [triangle(0, [a, c, b]), triangle(1, [a, d, c])];
    mesh(kind, margin, vertices, sides.into_iter().flat_map(halves).collect())
}

/// A plate so thin that half its thickness is too large a margin.
fn plate() -> Geometry {
    let mut g = cube(4, 0.25);
    g.vertices.iter_mut().for_each(|v| v[2] *= 0.01);
    (g.box_min[2], g.box_max[2]) = (-0.01, 0.01);
    g
}

/// Twelve polygons of every kind, moved and turned, three triangles on one edge: the second pass alters links.
fn mixed(kind: u8) -> Geometry {
    let vertices: Vec<Vec3> =
        (0..12u32).map(|i| [37 * i % 16, 91 * i % 16, 53 * i % 16].map(|k| k as f32 - 8.0)).collect();
    let mut polygons: Vec<Polygon> = (0..9u16).map(|i| triangle((i % 4) as u8, [0, 1, i % 7 + 2])).collect();
    polygons[3] = triangle(5, [0x8000, 4, 40_000]);
    polygons.insert(2, Polygon::Sphere { material: 1, index: 11, radius: 0.5 });
    polygons.insert(4, Polygon::Capsule { material: 2, i1: 3, i2: 9, radius: 1.25 });
    polygons.insert(6, Polygon::Box { material: 3, i: [0, 5, 7, -1] });
    polygons.insert(8, Polygon::Cylinder { material: 0, i1: 90, i2: 2, radius: f32::from_bits(0x7F80_0001) });
    let mut g = mesh(kind, 0.5, vertices, polygons);
    g.center_geom = [5.0, -3.0, 0.25];
    g.transform = [0., 1., 0., 0., -1., 0., 0., 0., 0., 0., 2., 0., 10., 20., 30., 1.];
    g
}

/// Nothing but a box, whose words are copied.
fn empty(kind: u8) -> Geometry {
    let mut g = mesh(kind, 0.04, Vec::new(), Vec::new());
    (g.box_min, g.box_max) =
        ([f32::from_bits(0x7F80_0001), -1.0, 0.0], [1.0, f32::INFINITY, f32::from_bits(0xFFC0_1234)]);
    g.sphere_radius = f32::from_bits(0xFFA0_0000);
    g
}

/// A vertex that is no number, in no triangle, and one that is infinite.
fn odd() -> Geometry {
    let mut g = cube(4, 0.5);
    g.vertices.push([f32::NAN, 0.0, -0.0]);
    g.vertices[2][1] = f32::INFINITY;
    g
}

fn bad() -> Geometry {
    let mut g = cube(4, 0.25);
    g.polygons.push(triangle(0, [0, 1, 8]));
    g
}

fn many() -> Geometry {
    let mut g = pyramid(8);
    g.polygons = (0..=255).map(|material| Polygon::Sphere { material, index: 1, radius: 0.5 }).collect();
    g.materials = (0..256).map(|i| (i, 0)).collect();
    g
}

/// Rings of vertices between two poles.
fn ball(kind: u8) -> Geometry {
    const RINGS: u16 = 7;
    const SIDES: u16 = 12;
    let corner = |ring: u16, side: u16| 1 + SIDES * ring + side % SIDES;
    let vertex = |(ring, side): (u16, u16)| {
        let x = (2 * side + 1).abs_diff(SIDES) as f32 - 6.0;
        let y = (2 * side + 7).abs_diff(2 * SIDES).min(SIDES) as f32 - 6.0;
        let wide = 4 - ring.abs_diff(3);
        [x * wide as f32, y * wide as f32, 4.0 * ring as f32 - 12.0]
    };
    let mut vertices = vec![[0.0, 0.0, -18.0]];
    vertices.extend((0..RINGS).flat_map(|ring| (0..SIDES).map(move |side| (ring, side))).map(vertex));
    vertices.push([0.0, 0.0, 18.0]);
    let last = vertices.len() as u16 - 1;
    let mut faces = vec![];
    for side in 0..SIDES {
        faces.push([0, corner(0, side + 1), corner(0, side)]);
        faces.push([last, corner(RINGS - 1, side), corner(RINGS - 1, side + 1)]);
        for ring in 1..RINGS {
            let [a, b] = [ring - 1, ring].map(|ring| [corner(ring, side), corner(ring, side + 1)]);
            faces.extend([[a[0], a[1], b[1]], [a[0], b[1], b[0]]]);
        }
    }
    mesh(kind, 0.3, vertices, faces.into_iter().map(|v| triangle((v[0] % 3) as u8, v)).collect())
}

/// As many polygons, and as many vertices, as an input has room for.
fn most_polygons() -> Geometry {
    let mut g = pyramid(8);
    let sphere = |i: u16| Polygon::Sphere { material: i as u8, index: i % 5, radius: 0.25 * (i % 37) as f32 };
    (g.polygons, g.materials) = ((0..470).map(sphere).collect(), vec![]);
    g
}

fn most_vertices() -> Geometry {
    let vertices = (0..670u32).map(|i| [i * i % 97, i * 31 % 89, i * 7 % 101].map(|k| k as f32 - 45.0)).collect();
    let mut g = mesh(4, 0.5, vertices, vec![]);
    g.materials.clear();
    g
}

fn endless() -> Geometry {
    let mut g = pyramid(4);
    (g.margin, g.box_max) = (f32::NAN, [f32::INFINITY; 3]);
    g
}

fn words(out: &mut Vec<u8>, words: impl IntoIterator<Item = u32>) {
    words.into_iter().for_each(|word| out.extend(word.to_le_bytes()));
}

fn number(p: &Polygon) -> u8 {
    match *p {
        Polygon::Triangle { material, .. }
        | Polygon::Sphere { material, .. }
        | Polygon::Capsule { material, .. }
        | Polygon::Box { material, .. }
        | Polygon::Cylinder { material, .. } => material,
    }
}

pub fn input(g: &Geometry) -> Vec<u8> {
    let mut out = Vec::new();
    words(&mut out, [g.kind as u32, g.polygons.len() as u32, g.vertices.len() as u32, g.materials.len() as u32]);
    let frame = [g.box_min, g.box_max, g.box_center, g.sphere_center];
    words(&mut out, frame.into_iter().flatten().chain([g.sphere_radius, g.margin]).map(f32::to_bits));
    words(&mut out, g.center_geom.into_iter().chain(g.transform).map(f32::to_bits));
    words(&mut out, g.materials.iter().flat_map(|&(a, b)| [a, b]));
    words(&mut out, g.vertices.iter().flatten().map(|x| x.to_bits()));
    out.extend(g.polygons.iter().flat_map(|&p| to_bytes(p)));
    out.extend(g.polygons.iter().map(number));
    out
}

/// What is made has one NaN.
fn made(x: f32) -> u32 {
    if x.is_nan() {
        0x7FC0_0000
    } else {
        x.to_bits()
    }
}

fn line(out: &mut String, name: &str, bytes: &[u8]) {
    *out += name;
    *out += " ";
    bytes.iter().for_each(|byte| *out += &format!("{byte:02X}"));
    *out += "\n";
}

fn floats(q: &Quantised) -> Vec<u8> {
    q.floats.iter().flatten().flat_map(|&x| made(x).to_le_bytes()).collect()
}

fn stored(q: &Quantised) -> Vec<u8> {
    q.stored.iter().flatten().flat_map(|n| n.to_le_bytes()).collect()
}

fn listing(kind: u8, p: &Prepared) -> String {
    let mut out = String::new();
    let bytes = |list: Vec<u32>| list.into_iter().flat_map(u32::to_le_bytes).collect::<Vec<u8>>();
    let frame = [p.box_min, p.box_max, p.box_center, p.sphere_center].into_iter().flatten().chain([p.sphere_radius]);
    let word = if p.tree.is_some() { made } else { f32::to_bits };
    line(&mut out, "frame", &bytes(frame.map(word).collect()));
    line(&mut out, "quantum", &bytes(p.quantum.map(made).to_vec()));
    line(&mut out, "materials", &(p.materials_count as u32).to_le_bytes());
    let counts = p.octants.as_ref().map_or([0; 8], |lists| lists.each_ref().map(|list| list.len() as u32));
    line(&mut out, "octants", &bytes(counts.to_vec()));
    let tree = p.tree.as_ref().map_or(vec![0; 19], |t| {
        let counts = [t.nodes_count, t.nodes.len(), t.trees.len(), t.order.len()].map(|n| n as u32);
        let vectors = [t.min, t.max, t.cen, t.inverse, t.quantum].into_iter().flat_map(|[x, y, z, _]| [x, y, z]);
        counts.into_iter().chain(vectors.map(made)).collect()
    });
    line(&mut out, "tree", &bytes(tree));
    line(&mut out, "list", &bytes(p.materials.iter().flat_map(|&(a, b)| [a, b]).collect()));
    line(&mut out, "indices", &p.material_indices);
    line(&mut out, "polygons", &p.polygon_bytes);
    line(&mut out, "vertices", &stored(&p.vertices));
    line(&mut out, "floats", &floats(&p.vertices));
    if kind == 4 {
        let shrunk = p.shrunk.clone().unwrap_or_default();
        line(&mut out, "shrunk", &stored(&shrunk));
        line(&mut out, "shrunk_floats", &floats(&shrunk));
        line(&mut out, "lists", &bytes(p.octants.iter().flatten().flatten().copied().collect()));
    }
    if let Some(t) = &p.tree {
        line(&mut out, "nodes", &t.node_bytes);
        line(&mut out, "trees", &t.tree_bytes);
        line(&mut out, "order", &t.order.iter().flat_map(|&place| (place as u16).to_le_bytes()).collect::<Vec<u8>>());
    }
    out
}

/// What is printed for an input that holds this geometry, or is damaged.
pub fn printed(g: &Geometry, input: &[u8]) -> String {
    let whole = 148 + 8 * g.materials.len() + 12 * g.vertices.len() + 17 * g.polygons.len();
    let records = input.get(whole.wrapping_sub(17 * g.polygons.len())..).unwrap_or_default();
    let unknown = records.chunks_exact(16).take(g.polygons.len()).any(|record| read(record).is_err());
    let known = [4, 8].contains(&g.kind);
    let answer = match () {
        _ if input.len() > LIMIT => Err(1),
        _ if input.len() != whole => Err(13),
        _ if known && unknown => Err(6),
        _ => prepare(g).map_err(|refused| refused.0),
    };
    answer.map_or_else(|number| format!("refused {number}\n"), |p| listing(g.kind, &p))
}

fn cases() -> Vec<(&'static str, Geometry, Vec<u8>)> {
    let whole = |name, g: Geometry| (name, g.clone(), input(&g));
    let mut cases = vec![
        whole("pyramid_4", pyramid(4)),
        whole("pyramid_8", pyramid(8)),
        whole("cube", cube(4, 0.25)),
        whole("plate", plate()),
        whole("mixed_4", mixed(4)),
        whole("mixed_8", mixed(8)),
        whole("ball_4", ball(4)),
        whole("ball_8", ball(8)),
        whole("most_polygons", most_polygons()),
        whole("most_vertices", most_vertices()),
        whole("empty_4", empty(4)),
        whole("empty_8", empty(8)),
        whole("odd", odd()),
        whole("bad", bad()),
        whole("materials", many()),
        whole("endless", endless()),
        whole("kind", pyramid(5)),
    ];
    let (name, g, mut bytes) = whole("polygon", endless());
    let first = 148 + 8 * g.materials.len() + 12 * g.vertices.len();
    bytes[first] = 6;
    cases.push((name, g, bytes));
    let (name, g, mut bytes) = whole("ragged", pyramid(4));
    bytes.pop();
    cases.push((name, g, bytes));
    let (name, g, mut bytes) = whole("over", pyramid(4));
    bytes.resize(LIMIT + 1, 0);
    cases.push((name, g, bytes));
    cases
}

/// Writes each input to a file of the folder, and prints its name and what is printed for it.
pub fn print(out: &mut impl Write, folder: &Path) -> io::Result<()> {
    for (name, g, input) in cases() {
        fs::write(folder.join(name), &input)?;
        write!(out, "case {name}\n{}", printed(&g, &input))?;
    }
    Ok(())
}

#[cfg(test)]
mod tests {
    use super::*;

    #[test]
    fn the_program_must_print_this() {
        if oracle::missing().is_none() {
            let text: String =
                cases().iter().map(|(name, g, input)| format!("case {name}\n{}", printed(g, input))).collect();
            assert!(text == include_str!("../../../crates/prepare_cases/stdout"));
        }
    }

    #[test]
    fn each_refusal_and_both_kinds_are_there() {
        if let Some(why) = oracle::missing() {
            return eprintln!("left out: {why}");
        }
        let printed: Vec<String> = cases().iter().map(|(_, g, input)| printed(g, input)).collect();
        for number in [1, 6, 7, 8, 13] {
            assert!(printed.contains(&format!("refused {number}\n")), "{number}");
        }
        assert!(cases().iter().all(|(name, _, input)| input.len() <= LIMIT || *name == "over"));
        assert!(
            printed.iter().any(|text| text.contains("\nshrunk "))
                && printed.iter().any(|text| text.contains("\norder "))
        );
    }
}
