//! Polygons, their materials and the links between triangles.

#[cfg(reference)]
use crate::{at_most, reference::blocks::bounds::inside};
use crate::{Aabb, Refusal, Vec3};
use bounds::{BoundMaterial, Polygon};

/// The most polygons of a geometry.
pub const LIMIT: usize = 32_767;

/// What `build_materials` leaves: each material once, and for each polygon its place among them.
#[derive(Clone, Debug, PartialEq, Eq)]
pub struct Materials {
    pub list: Vec<BoundMaterial>,
    pub indices: Vec<u8>,
}

answers! {
    /// bounds.rs, `Polygon::read`. Refusals 5, 6.
    fn read(bytes: &[u8]) -> Result<Polygon, Refusal> {
        if bytes.len() < 16 {
            return Err(Refusal::ShortRecord);
        }
        inside::read(bytes).ok_or(Refusal::UnknownKind)
    }

    /// bounds.rs, `Polygon::to_bytes`.
    fn to_bytes(polygon: Polygon) -> [u8; 16] { inside::polygon(polygon).to_bytes() }

    /// bounds.rs, `Polygon::bbox`.
    fn bbox(polygon: Polygon, vertices: &[Vec3]) -> Aabb { inside::bbox(polygon, vertices) }

    /// `Polygon::bbox` alone, to be timed: each call makes the boxes of all polygons, one after another.
    fn boxer(polygons: &[Polygon], vertices: &[Vec3]) -> Box<dyn FnMut() + Send> { inside::boxer(polygons, vertices) }

    /// The list of items that a tree over the polygons is built from, to be timed: each call makes it anew.
    fn itemizer(polygons: &[Polygon], vertices: &[Vec3]) -> Box<dyn FnMut() + Send> { inside::itemizer(polygons, vertices) }

    /// bounds.rs, `Geometry::build_materials`, for polygons with these material numbers. Refusal 1; 8 cannot happen
    /// with numbers of one byte.
    fn materials(numbers: &[u8], materials: &[BoundMaterial]) -> Result<Materials, Refusal> {
        at_most(numbers.len(), LIMIT)?;
        at_most(materials.len(), 256)?;
        Ok(inside::materials(numbers, materials))
    }

    /// `build_materials` alone, to be timed: each call answers how many there are. A call finds the list that the last one
    /// left, which has the same materials. Nothing is refused.
    fn lister(numbers: &[u8], materials: &[BoundMaterial]) -> Box<dyn FnMut() -> usize + Send> {
        inside::lister(numbers, materials)
    }

    /// bounds.rs, `Geometry::update_edge_indices`. Refusal 1.
    fn edges(polygons: &[Polygon]) -> Result<Vec<Polygon>, Refusal> {
        at_most(polygons.len(), LIMIT)?;
        Ok(inside::edges(polygons))
    }

    /// `update_edge_indices` alone, to be timed: each call links the polygons anew. Nothing is refused.
    fn linker(polygons: &[Polygon]) -> Box<dyn FnMut() + Send> { inside::linker(polygons) }
}
