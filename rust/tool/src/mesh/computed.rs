//! What a file leaves out of a bound: its box and what follows from that.

use super::origin::{Of, Origin};
use bounds::{Geometry, Vec3};

/// The least and the greatest of points; a NaN is passed over. Of no point it is zero.
pub fn around(points: impl Iterator<Item = Vec3>) -> (Vec3, Vec3) {
    let each = |a: Vec3, b: Vec3, of: fn(f32, f32) -> f32| Vec3::new(of(a.x, b.x), of(a.y, b.y), of(a.z, b.z));
    let grown = |found: Option<(Vec3, Vec3)>, v: Vec3| {
        Some(found.map_or((v, v), |(min, max)| (each(min, v, f32::min), each(max, v, f32::max))))
    };
    points.fold(None, grown).unwrap_or((Vec3::ZERO, Vec3::ZERO))
}

/// Puts in what was not said: the box about the vertices and the centre, its middle, and the sphere around it.
pub fn complete(geometry: &mut Geometry, origin: &Origin) {
    let missing = |of: Of| !origin.bound.iter().any(|&(said, _)| said == of);
    let center = geometry.center_geom;
    let (min, max) = around(geometry.vertices.iter().map(|&v| v + center));
    let put = |of: Of, to: &mut Vec3, value: Vec3| {
        if missing(of) {
            *to = value;
        }
    };
    put(Of::BoxMin, &mut geometry.box_min, min);
    put(Of::BoxMax, &mut geometry.box_max, max);
    let middle = (geometry.box_min + geometry.box_max) * 0.5;
    put(Of::BoxCenter, &mut geometry.box_center, middle);
    let center = geometry.box_center;
    put(Of::SphereCenter, &mut geometry.sphere_center, center);
    if missing(Of::SphereRadius) {
        geometry.sphere_radius = (geometry.box_max - center).length();
    }
}
