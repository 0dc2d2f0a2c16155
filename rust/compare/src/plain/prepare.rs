//! All that is derived of a geometry, in plain Rust but for the tree, which is the reference's; and on purpose wrong ones, which
//! the comparison has to find.

use crate::plain::polygon::{bbox, read, write, RECORD};
use crate::plain::{links, octants, shrink, vertex};
use oracle::geometry::{Geometry, Prepared, Quantised, VERTICES};
use oracle::polygon::{Material, Polygon, LIMIT};
use oracle::tree::{self, Built};
use oracle::{Aabb, Vec3};

/// A step done in another way.
#[derive(Clone, Copy, PartialEq, Eq, Debug)]
pub enum Wrong {
    /// Octants are listed of the shrunk vertices as they are stored.
    OctantsAfterStoring,
    /// Vertices are stored before they are shrunk.
    StoredBeforeShrinking,
    /// The box of kind 4 is folded anew.
    FoldedBox,
    /// Vertices are stored in units of the tree's quantum.
    TreesQuantum,
    /// The quantum is of the box that was given.
    GivenBox,
    /// Links are those of the given order, renumbered.
    FirstPass,
    /// Links are those of the given order.
    NotRenumbered,
    /// Materials are listed in the given order.
    GivenMaterials,
    /// The polygons stay in the given order.
    GivenOrder,
    /// 256 materials are taken.
    EightAt257,
    /// The margin is looked at before the materials.
    MarginFirst,
    /// A kind 8 with an infinite margin is refused.
    MarginOfBoth,
    /// Materials are not filled up to four.
    NotFilled,
    /// The count is that of the filled list.
    CountFilled,
    /// The radius reaches to the least corner.
    RadiusToMin,
    /// The sphere's centre stays.
    CentreStays,
    /// Boxes are those of the vertices as they are.
    NoTransform,
    /// A vertex that is not there goes through the transform.
    MissingMoved,
    /// Leaves have up to five polygons.
    FiveInALeaf,
    /// The floats are the vertices as they were given.
    GivenFloats,
    /// Bytes that a kind does not use stay.
    SameBytes,
    /// Bit 15 of a corner goes.
    FlagGoes,
    /// Kind 8 without polygons has an empty box.
    EmptyBox,
}

pub const WRONG: [Wrong; 23] = [
    Wrong::OctantsAfterStoring,
    Wrong::StoredBeforeShrinking,
    Wrong::FoldedBox,
    Wrong::TreesQuantum,
    Wrong::GivenBox,
    Wrong::FirstPass,
    Wrong::NotRenumbered,
    Wrong::GivenMaterials,
    Wrong::GivenOrder,
    Wrong::EightAt257,
    Wrong::MarginFirst,
    Wrong::MarginOfBoth,
    Wrong::NotFilled,
    Wrong::CountFilled,
    Wrong::RadiusToMin,
    Wrong::CentreStays,
    Wrong::NoTransform,
    Wrong::MissingMoved,
    Wrong::FiveInALeaf,
    Wrong::GivenFloats,
    Wrong::SameBytes,
    Wrong::FlagGoes,
    Wrong::EmptyBox,
];

/// Of a geometry whose polygons are these records, with these numbers of materials, all of which are there. Refusals 6, 1, 6
/// of a polygon, 8, 7 and 4.
pub fn prepare(of: &Geometry, records: &[u8], numbers: &[u8], wrong: Option<Wrong>) -> Result<Prepared, u32> {
    let n = numbers.len();
    if of.kind != 4 && of.kind != 8 {
        return Err(6);
    }
    if n > LIMIT || of.vertices.len() > VERTICES || of.materials.len() > 256 {
        return Err(1);
    }
    let records = &records[..RECORD * n];
    if records.chunks_exact(RECORD).any(|record| record[0] % 8 > 4) {
        return Err(6);
    }
    let does = |step: Wrong| wrong == Some(step);
    let endless =
        !of.vertices.is_empty() && (of.kind == 4 || does(Wrong::MarginOfBoth)) && starting(of) == f32::INFINITY;
    if endless && does(Wrong::MarginFirst) {
        return Err(7);
    }
    if listed(&of.materials, numbers).0.len() >= if does(Wrong::EightAt257) { 257 } else { 256 } {
        return Err(8);
    }
    if endless {
        return Err(7);
    }
    let tree = (of.kind == 8 && n > 0).then(|| tree_of(of, records, wrong)).transpose()?;
    Ok(prepared(of, records, numbers, tree, wrong))
}

fn starting(of: &Geometry) -> f32 {
    (0..3).fold(of.margin, |margin, axis| margin.min((of.box_max[axis] - of.box_min[axis]).abs() * 0.5))
}

/// Each material once, and the place of each number's.
fn listed(given: &[Material], numbers: &[u8]) -> (Vec<Material>, Vec<u8>) {
    let mut list: Vec<Material> = Vec::new();
    let mut place = |&number: &u8| {
        let material = given.get(number as usize).copied().unwrap_or_default();
        let at = list.iter().position(|&other| other == material).unwrap_or(list.len());
        if at == list.len() {
            list.push(material);
        }
        at as u8
    };
    let indices = numbers.iter().map(&mut place).collect();
    (list, indices)
}

/// The vertex and the centre through the transform, without its fourth coordinate.
fn placed(of: &Geometry, v: Vec3) -> Vec3 {
    let [x, y, z] = std::array::from_fn(|axis| v[axis] + of.center_geom[axis]);
    let m = &of.transform;
    std::array::from_fn(|i| m[i] * x + m[4 + i] * y + m[8 + i] * z + m[12 + i])
}

/// Over the polygons' boxes, at threshold 4. Refusal 4.
fn tree_of(of: &Geometry, records: &[u8], wrong: Option<Wrong>) -> Result<Built, u32> {
    let mut vertices: Vec<Vec3> = match wrong {
        Some(Wrong::NoTransform) => of.vertices.clone(),
        _ => of.vertices.iter().map(|&v| placed(of, v)).collect(),
    };
    if wrong == Some(Wrong::MissingMoved) {
        vertices.resize(vertices.len() + 3, placed(of, [0.0; 3]));
    }
    let item = |record: &[u8]| Some(bbox(read(record).expect("a known kind"), &vertices));
    let items: Vec<Option<Aabb>> = records.chunks_exact(RECORD).map(item).collect();
    let threshold = if wrong == Some(Wrong::FiveInALeaf) { 5 } else { 4 };
    tree::build(&items, threshold).map_err(|refused| refused.0 as u32)
}

fn prepared(of: &Geometry, records: &[u8], numbers: &[u8], tree: Option<Built>, wrong: Option<Wrong>) -> Prepared {
    let does = |step: Wrong| wrong == Some(step);
    let n = numbers.len();
    let order: Vec<usize> = match &tree {
        Some(tree) if !does(Wrong::GivenOrder) => tree.order.clone(),
        _ => (0..n).collect(),
    };
    let mut bytes = vec![0; RECORD * n];
    for (out, &old) in bytes.chunks_exact_mut(RECORD).zip(&order) {
        let record = &records[RECORD * old..RECORD * (old + 1)];
        match does(Wrong::SameBytes) {
            true => out.copy_from_slice(record),
            false => write(out, flagged(read(record).expect("a known kind"), wrong)).expect("room"),
        }
    }
    link(&mut bytes, records, &order, wrong);
    let sorted: Vec<u8> = order.iter().map(|&old| numbers[old]).collect();
    let (mut materials, mut indices) = listed(&of.materials, &sorted);
    if does(Wrong::GivenMaterials) {
        (materials, indices) = listed(&of.materials, numbers);
    }
    let mut count = materials.len();
    if !does(Wrong::NotFilled) {
        materials.resize(count.max(4), (0, 0));
    }
    if does(Wrong::CountFilled) {
        count = materials.len();
    }
    let mut out = Prepared {
        quantum: [0.0; 3],
        box_min: of.box_min,
        box_max: of.box_max,
        box_center: of.box_center,
        sphere_center: of.sphere_center,
        sphere_radius: of.sphere_radius,
        polygons: Vec::new(),
        polygon_bytes: bytes,
        materials,
        materials_count: count,
        material_indices: indices,
        vertices: Quantised::default(),
        shrunk: None,
        octants: None,
        tree,
    };
    frame(&mut out, of, wrong);
    vertices(&mut out, of, records, wrong);
    out
}

fn flagged(polygon: Polygon, wrong: Option<Wrong>) -> Polygon {
    match polygon {
        Polygon::Triangle { material, area, v, links } if wrong == Some(Wrong::FlagGoes) => {
            Polygon::Triangle { material, area, v: v.map(|corner| corner & 0x7FFF), links }
        }
        polygon => polygon,
    }
}

/// Links of the triangles in their order.
fn link(bytes: &mut [u8], records: &[u8], order: &[usize], wrong: Option<Wrong>) {
    let n = order.len();
    if !matches!(wrong, Some(Wrong::FirstPass | Wrong::NotRenumbered)) {
        links::update(bytes, n).expect("known kinds");
        return;
    }
    let mut given = records.to_vec();
    links::update(&mut given, n).expect("known kinds");
    for (out, &old) in bytes.chunks_exact_mut(RECORD).zip(order).filter(|(out, _)| out[0] % 8 == 0) {
        for at in [10, 12, 14] {
            let from = RECORD * old + at;
            let mut link = u16::from_le_bytes([given[from], given[from + 1]]);
            if wrong == Some(Wrong::FirstPass) {
                link = order.iter().position(|&old| old == link as usize).map_or(u16::MAX, |new| new as u16);
            }
            out[at..at + 2].copy_from_slice(&link.to_le_bytes());
        }
    }
}

/// Box, centres, radius and quantum.
fn frame(out: &mut Prepared, of: &Geometry, wrong: Option<Wrong>) {
    let does = |step: Wrong| wrong == Some(step);
    let xyz = |[x, y, z, _]: [f32; 4]| [x, y, z];
    if let Some(tree) = &out.tree {
        (out.box_min, out.box_max, out.box_center) = (xyz(tree.min), xyz(tree.max), xyz(tree.cen));
        let corner = if does(Wrong::RadiusToMin) { out.box_min } else { out.box_max };
        let away: Vec3 = std::array::from_fn(|axis| corner[axis] - out.box_center[axis]);
        out.sphere_radius = (away[0] * away[0] + away[1] * away[1] + away[2] * away[2]).sqrt();
        if !does(Wrong::CentreStays) {
            out.sphere_center = out.box_center;
        }
    } else if of.kind == 4 && does(Wrong::FoldedBox) || of.kind == 8 && does(Wrong::EmptyBox) {
        let none = Aabb { min: [f32::MAX; 3], max: [f32::MIN; 3] };
        let b = of.vertices.iter().filter(|_| of.kind == 4).fold(none, |b, v| Aabb {
            min: std::array::from_fn(|axis| b.min[axis].min(v[axis])),
            max: std::array::from_fn(|axis| b.max[axis].max(v[axis])),
        });
        (out.box_min, out.box_max) = (b.min, b.max);
    }
    let b = match does(Wrong::GivenBox) {
        true => Aabb { min: of.box_min, max: of.box_max },
        false => Aabb { min: out.box_min, max: out.box_max },
    };
    out.quantum = vertex::quantum(b);
    if let (Some(tree), true) = (&out.tree, does(Wrong::TreesQuantum)) {
        out.quantum = xyz(tree.quantum);
    }
}

/// Vertices and, of kind 4, shrunk ones and octants.
fn vertices(out: &mut Prepared, of: &Geometry, records: &[u8], wrong: Option<Wrong>) {
    let does = |step: Wrong| wrong == Some(step);
    let q = out.quantum;
    let quantised = |points: &[Vec3]| {
        let stored: Vec<[i16; 3]> = points.iter().map(|&p| vertex::stored(p, q)).collect();
        let floats = match does(Wrong::GivenFloats) {
            true => points.to_vec(),
            false => stored.iter().map(|&s| vertex::read_back(s, q)).collect(),
        };
        Quantised { stored, floats }
    };
    out.vertices = quantised(&of.vertices);
    if of.kind == 8 {
        return;
    }
    let mut from = of.clone();
    if does(Wrong::StoredBeforeShrinking) {
        from.vertices = out.vertices.floats.clone();
    }
    let points =
        shrink::shrunk(&from, records, records.len() / RECORD, None).map_or(Vec::new(), |shrunk| shrunk.points);
    let shrunk = quantised(&points);
    out.octants = Some(octants::all(if does(Wrong::OctantsAfterStoring) { &shrunk.floats } else { &points }));
    out.shrunk = (!of.vertices.is_empty()).then_some(shrunk);
}
