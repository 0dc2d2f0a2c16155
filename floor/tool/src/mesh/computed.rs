//! What a file leaves out of a bound: its box and what follows from that.

use super::origin::{Of, Origin};
use bounds::prepare::Frame;
use bounds::{Geometry, Vec3};

/// Puts vertices that lie at these places about the middle of their box, which becomes the centre.
pub fn centre(geometry: &mut Geometry, places: &[Vec3]) {
    geometry.center_geom = Frame::around(places.iter().copied()).box_center;
    geometry.vertices = places.iter().map(|&v| v - geometry.center_geom).collect();
}

/// Puts in what was not said: the box about the vertices and the centre, its middle, and the sphere around it.
pub fn complete(geometry: &mut Geometry, origin: &Origin) {
    let missing = |of: Of| !origin.bound.iter().any(|&(said, _)| said == of);
    let center = geometry.center_geom;
    let Frame { box_min, box_max, .. } = Frame::around(geometry.vertices.iter().map(|&v| v + center));
    let put = |of: Of, to: &mut Vec3, value: Vec3| {
        if missing(of) {
            *to = value;
        }
    };
    put(Of::BoxMin, &mut geometry.box_min, box_min);
    put(Of::BoxMax, &mut geometry.box_max, box_max);
    let middle = (geometry.box_min + geometry.box_max) * 0.5;
    put(Of::BoxCenter, &mut geometry.box_center, middle);
    let center = geometry.box_center;
    put(Of::SphereCenter, &mut geometry.sphere_center, center);
    if missing(Of::SphereRadius) {
        geometry.sphere_radius = (geometry.box_max - center).length();
    }
}
