//! `Geometry::prepare`, its shrinking and its octants.

#[cfg(reference)]
use crate::{at_most, polygon, reference::blocks::bounds::inside};
use crate::{
    polygon::{Material, Polygon},
    tree::Built,
    Mat4, Refused, Vec3,
};

/// The most vertices of a geometry.
pub const VERTICES: usize = 32_768;

pub const IDENTITY: Mat4 = [1.0, 0.0, 0.0, 0.0, 0.0, 1.0, 0.0, 0.0, 0.0, 0.0, 1.0, 0.0, 0.0, 0.0, 0.0, 1.0];

/// What `prepare` reads. The kind is 4 or 8; a geometry of its own has the identity as transform.
#[derive(Clone, Debug)]
pub struct Geometry {
    pub kind: u8,
    pub box_min: Vec3,
    pub box_max: Vec3,
    pub box_center: Vec3,
    pub sphere_center: Vec3,
    pub sphere_radius: f32,
    pub margin: f32,
    pub center_geom: Vec3,
    pub transform: Mat4,
    pub vertices: Vec<Vec3>,
    pub polygons: Vec<Polygon>,
    pub materials: Vec<Material>,
}

/// What the reference holds or has added afterwards. `materials` is filled to four; `materials_count` is before that.
/// The order in `tree` is of the polygons as they were given.
#[derive(Clone, Debug)]
pub struct Prepared {
    pub quantum: Vec3,
    pub box_min: Vec3,
    pub box_max: Vec3,
    pub box_center: Vec3,
    pub sphere_center: Vec3,
    pub sphere_radius: f32,
    pub polygons: Vec<Polygon>,
    pub polygon_bytes: Vec<u8>,
    pub materials: Vec<Material>,
    pub materials_count: usize,
    pub material_indices: Vec<u8>,
    pub vertices: Quantised,
    pub shrunk: Option<Quantised>,
    pub octants: Option<[Vec<u32>; 8]>,
    pub tree: Option<Built>,
}

/// Vertices as stored and as the floats read back.
#[derive(Clone, Debug, Default)]
pub struct Quantised {
    pub stored: Vec<[i16; 3]>,
    pub floats: Vec<Vec3>,
}

/// What `calculate_verts_shrunk` leaves, as floats that are not yet stored, and how it came to them.
#[derive(Clone, Debug)]
pub struct Shrunk {
    pub points: Vec<Vec3>,
    pub by: By,
}

#[derive(Clone, Copy, Debug)]
pub enum By {
    /// By this margin, the first that passed the check, and clamped to the box.
    Margin(f32),
    /// Along the normals, since no margin passed.
    Normals,
    /// There is nothing to shrink.
    NoVertices,
}

answers! {
    /// bounds.rs, `Geometry::calculate_verts_shrunk` of a geometry of kind 4, whatever kind is given, over the links that
    /// `update_edge_indices` gives its polygons. Refusals 1, 7.
    fn calculate_verts_shrunk(geometry: &Geometry) -> Result<Shrunk, Refused> {
        at_most(geometry.polygons.len(), polygon::LIMIT)?;
        at_most(geometry.vertices.len(), VERTICES)?;
        inside::shrunk(geometry)
    }

    /// `update_edge_indices` and `calculate_verts_shrunk` alone, to be timed: each call answers [`summed`] of the points.
    /// Nothing is refused.
    fn shrinker(geometry: &Geometry) -> Box<dyn FnMut() -> usize + Send> { inside::shrinker(geometry) }

    /// `prepare` alone, to be timed: each call prepares the geometry as it was given, and answers how many materials, indices
    /// of octants and nodes there are. Nothing is refused.
    fn preparer(geometry: &Geometry) -> Box<dyn FnMut() -> usize> { inside::mesh_preparer(geometry) }

    /// bounds.rs, `Geometry::prepare` without areas. Refusals 6, 1, 8, 7, 4.
    fn prepare(geometry: &Geometry) -> Result<Prepared, Refused> {
        if geometry.kind != 4 && geometry.kind != 8 {
            return Err(Refused(6));
        }
        at_most(geometry.polygons.len(), polygon::LIMIT)?;
        at_most(geometry.materials.len(), 256)?;
        at_most(geometry.vertices.len(), VERTICES)?;
        inside::prepare(geometry)
    }

    /// bounds.rs, `Geometry::calculate_octants`, of these shrunk vertices. Refusal 1.
    fn octants(shrunk: &[Vec3]) -> Result<[Vec<u32>; 8], Refused> {
        at_most(shrunk.len(), VERTICES)?;
        Ok(inside::octants(shrunk))
    }

    /// `calculate_octants` alone, to be timed: each call answers how many indices there are in all. Nothing is refused.
    fn shadower(shrunk: &[Vec3]) -> Box<dyn FnMut() -> usize + Send> { inside::shadower(shrunk) }

    /// bounds.rs, `Octants::write`, at this address. Refusals 1, 12.
    fn octant_bytes(lists: &[Vec<u32>; 8], address: u64) -> Result<Vec<u8>, Refused> {
        for list in lists {
            at_most(list.len(), VERTICES)?;
        }
        let all: u64 = lists.iter().map(|l| l.len() as u64).sum();
        address.checked_add(96 + 4 * all).ok_or(Refused(12))?;
        Ok(inside::octant_bytes(lists, address))
    }
}

/// The sum of the points' words, any NaN as one: to tell other points by.
pub fn summed(points: impl Iterator<Item = Vec3>) -> usize {
    let word = |x: f32| if x.is_nan() { 1 } else { x.to_bits() as usize };
    points.flatten().fold(0, |sum, x| (sum ^ word(x)).wrapping_mul(0x9E37_79B9_7F4A_7C15))
}
