//! The bytes of a prepared mesh, part by part as a folder has them, and the values that they stand for.

use crate::dump::{entry_bytes, Records};
use bounds::prepare::Quantised;
use bounds::{BoundMaterial, BoundVertex, Geometry, Octants, Prepared, Refusal, Vec3};

/// Bytes of quantum, box_min, box_max, box_center, sphere_center, sphere_radius and center_geom, one behind the other.
pub const FRAME: usize = 76;

/// Bytes of the octants before their lists: eight counts.
pub const COUNTS: usize = 32;

/// The bytes of a prepared mesh.
#[derive(Clone, Debug, PartialEq)]
pub struct Parts {
    /// Of the bound: 4 or 8.
    pub kind: u8,
    pub polygons_count: usize,
    pub vertices_count: usize,
    /// Before they were filled up to four.
    pub materials_count: usize,
    pub frame: Vec<u8>,
    /// 16 bytes a polygon.
    pub polygons: Vec<u8>,
    /// 8 bytes a material.
    pub materials: Vec<u8>,
    /// A byte a polygon.
    pub indices: Vec<u8>,
    /// 6 bytes a vertex, and 12 for the floats that it stands for.
    pub vertices: Vec<u8>,
    pub floats: Vec<u8>,
    /// Kind 4 with vertices: the same of the shrunk ones; else empty.
    pub shrunk: Vec<u8>,
    pub shrunk_floats: Vec<u8>,
    /// Kind 4: eight counts, then the lists one behind the other, four bytes each; else empty.
    pub octants: Vec<u8>,
    /// Kind 8 with polygons: 28 bytes a polygon, its box where the given vertices stand; else empty.
    pub boxes: Vec<u8>,
    /// Kind 8 with polygons.
    pub tree: Option<Records>,
}

impl Parts {
    /// What the library made, of a bound of this kind.
    pub fn of(kind: u8, prepared: &Prepared) -> Result<Parts, Refusal> {
        let &Prepared { quantum, box_min, box_max, box_center, sphere_center, sphere_radius, .. } = prepared;
        let points = [quantum, box_min, box_max, box_center, sphere_center];
        let center = point_bytes(&[prepared.center_geom]);
        let frame = point_bytes(&points).into_iter().chain(sphere_radius.to_le_bytes()).chain(center).collect();
        let shrunk = prepared.vertices_shrunk.as_ref();
        Ok(Parts {
            kind,
            polygons_count: prepared.polygon_material_indices.len(),
            vertices_count: prepared.vertices.stored.len(),
            materials_count: prepared.materials_count,
            frame,
            polygons: prepared.polygons.clone(),
            materials: prepared.materials.iter().flat_map(|m| [m.data1, m.data2]).flat_map(u32::to_le_bytes).collect(),
            indices: prepared.polygon_material_indices.clone(),
            vertices: stored_bytes(&prepared.vertices.stored),
            floats: point_bytes(&prepared.vertices.floats),
            shrunk: shrunk.map_or(Vec::new(), |vertices| stored_bytes(&vertices.stored)),
            shrunk_floats: shrunk.map_or(Vec::new(), |vertices| point_bytes(&vertices.floats)),
            octants: prepared.octants.as_ref().map_or(Vec::new(), octant_bytes),
            boxes: prepared.bvh.iter().flat_map(|tree| tree.boxes()).flat_map(entry_bytes).collect(),
            tree: prepared.bvh.as_ref().map(|tree| Records::of(tree)).transpose()?,
        })
    }

    /// The values that they stand for, but for the tree: its records may be damaged, and stay bytes.
    pub fn prepared(&self) -> Prepared {
        let at = |k: usize| floats3(&self.frame, 12 * k);
        let (plain, v) = (self.kind == Geometry::PLAIN, self.vertices_count);
        let quantised = |bytes: &[u8], floats: &[u8]| Quantised { stored: stored(bytes), floats: points(floats) };
        Prepared {
            quantum: at(0),
            box_min: at(1),
            box_max: at(2),
            box_center: at(3),
            sphere_center: at(4),
            sphere_radius: f32::from_bits(word(&self.frame, 60)),
            center_geom: floats3(&self.frame, 64),
            polygons: self.polygons.clone(),
            materials: self.materials.chunks_exact(8).map(material).collect(),
            materials_count: self.materials_count,
            polygon_material_indices: self.indices.clone(),
            vertices: quantised(&self.vertices, &self.floats),
            vertices_shrunk: (plain && v > 0).then(|| quantised(&self.shrunk, &self.shrunk_floats)),
            octants: plain.then(|| Octants { items: std::array::from_fn(|k| self.octant(k)) }),
            bvh: None,
        }
    }

    /// How many indices octant list k has, by its count.
    pub fn octant_count(&self, k: usize) -> usize {
        if self.octants.is_empty() {
            0
        } else {
            word(&self.octants, 4 * k) as usize
        }
    }

    /// The byte at which octant list k begins, by the counts before it.
    pub fn octant_start(&self, k: usize) -> usize {
        COUNTS + 4 * (0..k).map(|before| self.octant_count(before)).sum::<usize>()
    }

    fn octant(&self, k: usize) -> Vec<u32> {
        let (start, n) = (self.octant_start(k), self.octant_count(k));
        let list = self.octants.get(start..start + 4 * n).unwrap_or_default();
        list.chunks_exact(4).map(|index| word(index, 0)).collect()
    }
}

fn octant_bytes(octants: &Octants) -> Vec<u8> {
    let counts = octants.items.iter().map(|list| list.len() as u32);
    counts.chain(octants.items.iter().flatten().copied()).flat_map(u32::to_le_bytes).collect()
}

/// The word at a byte.
pub fn word(bytes: &[u8], at: usize) -> u32 {
    u32::from_le_bytes(std::array::from_fn(|k| bytes[at + k]))
}

fn floats3(bytes: &[u8], at: usize) -> Vec3 {
    let [x, y, z] = [0, 4, 8].map(|k| f32::from_bits(word(bytes, at + k)));
    Vec3::new(x, y, z)
}

fn material(bytes: &[u8]) -> BoundMaterial {
    BoundMaterial { data1: word(bytes, 0), data2: word(bytes, 4) }
}

fn point_bytes(points: &[Vec3]) -> Vec<u8> {
    points.iter().flat_map(|v| [v.x, v.y, v.z]).flat_map(f32::to_le_bytes).collect()
}

fn points(bytes: &[u8]) -> Vec<Vec3> {
    bytes.chunks_exact(12).map(|point| floats3(point, 0)).collect()
}

fn stored_bytes(vertices: &[BoundVertex]) -> Vec<u8> {
    vertices.iter().flat_map(|v| [v.0, v.1, v.2]).flat_map(i16::to_le_bytes).collect()
}

fn stored(bytes: &[u8]) -> Vec<BoundVertex> {
    let short = |v: &[u8], at: usize| i16::from_le_bytes([v[at], v[at + 1]]);
    bytes.chunks_exact(6).map(|v| BoundVertex(short(v, 0), short(v, 2), short(v, 4))).collect()
}
