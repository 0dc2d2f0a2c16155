//! Buffers of one's own, used from one geometry to the next.

use super::{prepare, Bound, Buffers, Frame, Geometry, Lengths, Mesh, Prepared, Quantised, Values, MATERIALS};
use crate::bvh::RECORD;
use crate::octants::VERTICES;
use crate::prepared::PreparedTree;
use crate::records::TreeRecords;
use crate::shrink::POLYGONS;
use crate::{polygon_items, BoundMaterial, BoundVertex, BvhItem, Octants, Polygon, Refusal, Vec3};

/// Prepares geometries one after the other in buffers of its own. Once these are long enough only what is handed out is
/// allocated.
///
/// ```
/// # use bounds::{prepare::Prepare, Geometry, Vec3};
/// let at = |x: f32, y: f32| Vec3::new(x, y, 0.0);
/// let mut buffers = Prepare::with_capacity(1, 3);
/// for x in [0.0, 100.0] {
///     let geometry = Geometry::from_triangles(&[at(x, 0.0), at(x + 1.0, 0.0), at(x, 1.0)], &[[0, 1, 2]]);
///     assert_eq!(buffers.prepare(&geometry)?, geometry.prepare()?);
/// }
/// # Ok::<(), bounds::Refusal>(())
/// ```
#[derive(Clone, Debug, Default)]
pub struct Prepare {
    records: Vec<u8>,
    numbers: Vec<u8>,
    materials: Vec<u8>,
    indices: Vec<u8>,
    polygons: Vec<u8>,
    vertices: Vec<u8>,
    floats: Vec<Vec3>,
    shrunk: Vec<u8>,
    shrunk_floats: Vec<Vec3>,
    octants: Vec<u32>,
    node_bytes: Vec<u8>,
    tree_bytes: Vec<u8>,
    order: Vec<u16>,
    work: Vec<u32>,
    positions: Vec<Vec3>,
    items: Vec<BvhItem>,
}

/// A buffer of at least this length: it grows, and is never cut.
fn grow<T: Clone>(buffer: &mut Vec<T>, length: usize, with: T) {
    if buffer.len() < length {
        buffer.resize(length, with);
    }
}

impl Prepare {
    /// Buffers for geometries of up to so many polygons and vertices. Of a larger one they grow.
    ///
    /// ```
    /// # use bounds::{prepare::Prepare, Geometry};
    /// assert!(Prepare::with_capacity(0, 0).prepare(&Geometry::new(Geometry::BVH)).is_ok());
    /// ```
    pub fn with_capacity(polygons: usize, vertices: usize) -> Prepare {
        let mut own = Prepare::default();
        own.grow(polygons, vertices);
        own
    }

    /// [`Geometry::prepare`] in these buffers.
    ///
    /// # Errors
    ///
    /// As there.
    ///
    /// ```
    /// # use bounds::{prepare::Prepare, Geometry, Refusal};
    /// let mut buffers = Prepare::default();
    /// assert_eq!(buffers.prepare(&Geometry::new(5)).err(), Some(Refusal::UnknownKind));
    /// assert!(buffers.prepare(&Geometry::new(Geometry::PLAIN)).is_ok()); // a refusal leaves no trace
    /// ```
    pub fn prepare(&mut self, geometry: &Geometry) -> Result<Prepared, Refusal> {
        let (p, v) = (geometry.polygons.len(), geometry.vertices.len());
        let limits = p <= POLYGONS && v <= VERTICES && geometry.materials.len() <= MATERIALS;
        let known = [Geometry::PLAIN, Geometry::BVH].contains(&geometry.kind);
        // Of what is refused by its kind or its numbers nothing is allocated.
        let (p, v) = if limits && known { (p, v) } else { (0, 0) };
        self.grow(p, v);
        self.records.clear();
        self.records.extend(geometry.polygons[..p].iter().flat_map(Polygon::to_bytes));
        self.numbers.clear();
        self.numbers.extend(geometry.polygons[..p].iter().map(Polygon::material));
        let values = self.prepare_lent(geometry)?;
        let tree = values.built.map(|_| self.boxes(geometry)).transpose()?;
        Ok(self.prepared(geometry, values, tree))
    }

    fn grow(&mut self, polygons: usize, vertices: usize) {
        let of = Lengths::of(polygons, vertices);
        self.records.reserve(of.polygons.saturating_sub(self.records.len()));
        self.numbers.reserve(of.indices.saturating_sub(self.numbers.len()));
        grow(&mut self.materials, of.materials, 0);
        grow(&mut self.indices, of.indices, 0);
        grow(&mut self.polygons, of.polygons, 0);
        grow(&mut self.vertices, of.vertices, 0);
        grow(&mut self.floats, of.floats, Vec3::ZERO);
        grow(&mut self.shrunk, of.shrunk, 0);
        grow(&mut self.shrunk_floats, of.shrunk_floats, Vec3::ZERO);
        grow(&mut self.octants, of.octants, 0);
        grow(&mut self.node_bytes, of.node_bytes, 0);
        grow(&mut self.tree_bytes, of.tree_bytes, 0);
        grow(&mut self.order, of.order, 0);
        grow(&mut self.work, of.work, 0);
        self.positions.reserve(vertices.saturating_sub(self.positions.len()));
        grow(&mut self.items, polygons, BvhItem::ABSENT);
    }

    fn prepare_lent(&mut self, geometry: &Geometry) -> Result<Values, Refusal> {
        let mesh = Mesh {
            bound: Bound::of(geometry),
            polygon_count: geometry.polygons.len(),
            polygons: &self.records,
            numbers: &self.numbers,
            materials: &geometry.materials,
            vertices: &geometry.vertices,
        };
        let to = Buffers {
            materials: &mut self.materials,
            indices: &mut self.indices,
            polygons: &mut self.polygons,
            vertices: &mut self.vertices,
            floats: &mut self.floats,
            shrunk: &mut self.shrunk,
            shrunk_floats: &mut self.shrunk_floats,
            octants: &mut self.octants,
            node_bytes: &mut self.node_bytes,
            tree_bytes: &mut self.tree_bytes,
            order: &mut self.order,
            work: &mut self.work,
        };
        prepare(&mesh, to)
    }

    /// The polygons' boxes where the vertices stand, in the order of the leaves.
    fn boxes(&mut self, geometry: &Geometry) -> Result<Vec<BvhItem>, Refusal> {
        let p = geometry.polygons.len();
        self.positions.clear();
        self.positions.extend(geometry.standing());
        polygon_items(&self.records, p, &self.positions, &mut self.items)?;
        Ok(self.order[..p].iter().map(|&given| self.items[given as usize]).collect())
    }

    /// What was written, as long as it is.
    fn prepared(&self, geometry: &Geometry, values: Values, boxes: Option<Vec<BvhItem>>) -> Prepared {
        let (p, v) = (geometry.polygons.len(), geometry.vertices.len());
        let Frame { box_min, box_max, box_center, sphere_center, sphere_radius } = values.frame;
        let plain = geometry.kind == Geometry::PLAIN;
        let quantised = |stored: &[u8], floats: &[Vec3]| Quantised {
            stored: stored_vertices(&stored[..6 * v]),
            floats: floats[..v].to_vec(),
        };
        let lists = || std::array::from_fn(|k| self.octants[k * v..k * v + values.octants[k]].to_vec());
        let tree = |(built, boxes): (crate::BuiltTree, Vec<BvhItem>)| {
            let of = |bytes: &[u8], count: u32| bytes[..RECORD * count as usize].to_vec();
            let (nodes, trees) = (of(&self.node_bytes, built.nodes_capacity), of(&self.tree_bytes, built.trees_count));
            PreparedTree::of(TreeRecords::written(built, nodes, trees, self.order[..p].to_vec(), p), boxes)
        };
        Prepared {
            quantum: values.quantum,
            box_min,
            box_max,
            box_center,
            sphere_center,
            sphere_radius,
            center_geom: geometry.center_geom,
            polygons: self.polygons[..RECORD * p].to_vec(),
            materials: self.materials.chunks_exact(8).take(values.materials_count.max(4)).map(material).collect(),
            materials_count: values.materials_count,
            polygon_material_indices: self.indices[..p].to_vec(),
            vertices: quantised(&self.vertices, &self.floats),
            vertices_shrunk: (plain && v > 0).then(|| quantised(&self.shrunk, &self.shrunk_floats)),
            octants: plain.then(|| Octants { items: lists() }),
            bvh: values.built.zip(boxes).map(tree),
        }
    }
}

/// The material of eight bytes.
pub(crate) fn material(bytes: &[u8]) -> BoundMaterial {
    let word = |at: usize| u32::from_le_bytes([bytes[at], bytes[at + 1], bytes[at + 2], bytes[at + 3]]);
    BoundMaterial { data1: word(0), data2: word(4) }
}

/// The vertices of six bytes each.
pub(crate) fn stored_vertices(bytes: &[u8]) -> Vec<BoundVertex> {
    let short = |v: &[u8], at: usize| i16::from_le_bytes([v[at], v[at + 1]]);
    bytes.chunks_exact(6).map(|v| BoundVertex(short(v, 0), short(v, 2), short(v, 4))).collect()
}

#[cfg(test)]
mod tests {
    use super::*;

    /// Where each buffer lies, and how long it can be.
    fn places(own: &Prepare) -> Vec<(usize, usize)> {
        fn of<T>(buffer: &Vec<T>) -> (usize, usize) {
            (buffer.as_ptr() as usize, buffer.capacity())
        }
        let bytes =
            [&own.records, &own.numbers, &own.materials, &own.indices, &own.polygons, &own.vertices, &own.shrunk];
        let records = [&own.node_bytes, &own.tree_bytes];
        let points = [&own.floats, &own.shrunk_floats, &own.positions];
        let mut all: Vec<(usize, usize)> = bytes.into_iter().chain(records).map(of).collect();
        all.extend(points.map(of));
        all.extend([of(&own.octants), of(&own.work), of(&own.order), of(&own.items)]);
        all
    }

    /// A strip of triangles.
    fn strip(kind: u8, triangles: u16) -> Geometry {
        let at = |i: u16| Vec3::new(i as f32, (i % 2) as f32, (i % 5) as f32);
        let vertices: Vec<Vec3> = (0..triangles + 2).map(at).collect();
        let corners: Vec<[u16; 3]> = (0..triangles).map(|i| [i, i + 1, i + 2]).collect();
        Geometry { kind, margin: 0.04, ..Geometry::from_triangles(&vertices, &corners) }
    }

    #[test]
    fn buffers_stay_where_they_are() {
        let mut own = Prepare::with_capacity(100, 102);
        let before = places(&own);
        for kind in [Geometry::BVH, Geometry::PLAIN] {
            for triangles in [100, 3, 60, 0] {
                let geometry = strip(kind, triangles);
                assert_eq!(own.prepare(&geometry), geometry.prepare(), "what is left of one changes no other");
            }
        }
        assert_eq!(places(&own), before);
        own.prepare(&strip(Geometry::BVH, 101)).expect("they grow");
        assert_ne!(places(&own), before);
    }
}
