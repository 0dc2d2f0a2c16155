//! `Geometry::prepare`, its shrinking and its octants.

#[cfg(reference)]
use crate::{at_most, polygon, reference::blocks::bounds::inside};
use crate::{Refusal, Vec3};
use bounds::{Geometry, Octants, Prepared, Shrunk};

/// The most vertices of a geometry.
pub const VERTICES: usize = 32_768;

answers! {
    /// bounds.rs, `Geometry::calculate_verts_shrunk` of a geometry of kind 4, whatever kind is given, over the links that
    /// `update_edge_indices` gives its polygons. Refusals 1, 7.
    fn calculate_verts_shrunk(geometry: &Geometry) -> Result<Shrunk, Refusal> {
        at_most(geometry.polygons.len(), polygon::LIMIT)?;
        at_most(geometry.vertices.len(), VERTICES)?;
        inside::shrunk(geometry)
    }

    /// `update_edge_indices` and `calculate_verts_shrunk` alone, to be timed: each call answers [`summed`] of the points.
    /// Nothing is refused.
    fn shrinker(geometry: &Geometry) -> Box<dyn FnMut() -> usize + Send> { inside::shrinker(geometry) }

    /// `prepare` alone, to be timed: each call prepares the geometry as it was given, and answers how many materials, indices
    /// of octants and nodes there are. Nothing is refused.
    fn preparer(geometry: &Geometry) -> Box<dyn FnMut() -> usize> { inside::mesh_preparer(geometry) }

    /// bounds.rs, `Geometry::prepare` without areas. Refusals 6, 1, 8, 7, 4.
    fn prepare(geometry: &Geometry) -> Result<Prepared, Refusal> {
        if geometry.kind != 4 && geometry.kind != 8 {
            return Err(Refusal::UnknownKind);
        }
        at_most(geometry.polygons.len(), polygon::LIMIT)?;
        at_most(geometry.materials.len(), 256)?;
        at_most(geometry.vertices.len(), VERTICES)?;
        inside::prepare(geometry)
    }

    /// bounds.rs, `Geometry::calculate_octants`, of these shrunk vertices. Refusal 1.
    fn octants(shrunk: &[Vec3]) -> Result<Octants, Refusal> {
        at_most(shrunk.len(), VERTICES)?;
        Ok(inside::octants(shrunk))
    }

    /// `calculate_octants` alone, to be timed: each call answers how many indices there are in all. Nothing is refused.
    fn shadower(shrunk: &[Vec3]) -> Box<dyn FnMut() -> usize + Send> { inside::shadower(shrunk) }

    /// bounds.rs, `Octants::write`, at this address. Refusals 1, 12.
    fn octant_bytes(octants: &Octants, address: u64) -> Result<Vec<u8>, Refusal> {
        for list in &octants.items {
            at_most(list.len(), VERTICES)?;
        }
        let all: u64 = octants.items.iter().map(|list| list.len() as u64).sum();
        address.checked_add(96 + 4 * all).ok_or(Refusal::Address)?;
        Ok(inside::octant_bytes(octants, address))
    }
}

/// The sum of the points' words, any NaN as one: to tell other points by.
pub fn summed(points: impl Iterator<Item = Vec3>) -> usize {
    let word = |x: f32| if x.is_nan() { 1 } else { x.to_bits() as usize };
    points.flat_map(<[f32; 3]>::from).fold(0, |sum, x| (sum ^ word(x)).wrapping_mul(0x9E37_79B9_7F4A_7C15))
}
