//! Random meshes of every kind of polygon, tame and hostile, from a seed: those over which the library is compared with the
//! reference.

use super::Random;
use bounds::{Geometry, Polygon, Vec3};
use compare::inputs::{hard, Input};
use compare::shapes::{sheet, Shapes};
use tool::mesh::{Form, Mesh, MeshFolder, Origin};

/// A mesh of this kind: of any family, now and then so large that its tree has several ranges, or without polygons or vertices.
pub fn mesh(random: &mut Random, kind: u8) -> Geometry {
    if random.once_in(24) {
        return sheet(9 + random.below(8)).geometry(kind, 0.04);
    }
    let (_, mut geometry) = Shapes::new(random.u64()).next(kind);
    match random.below(30) {
        0 => geometry.polygons.clear(),
        1 => geometry.vertices.clear(),
        _ => (),
    }
    geometry
}

/// A value that a hand or an exporter might put there.
fn value(random: &mut Random) -> f32 {
    match random.below(3) {
        0 => random.below(17) as f32 - 8.0,
        1 => random.below(2_000_000) as f32 * 0.001 - 1000.0,
        _ => f32::from_bits(random.pick(&hard(Input::Float))),
    }
}

/// Small changes of a mesh, as an exporter or a hand makes them.
pub fn changed(random: &mut Random, geometry: &Geometry) -> Geometry {
    let triangle =
        |v: [u16; 3], material: usize| Polygon::Triangle { material: material as u8, area: 0.37, v, edges: [-1; 3] };
    let mut changed = geometry.clone();
    for _ in 0..1 + random.below(2) {
        let x = value(random);
        let (v, p, m) = (changed.vertices.len(), changed.polygons.len(), changed.materials.len());
        match random.below(14) {
            0 => changed.box_max.x = x,
            1 => changed.margin = random.pick(&[0.0, 0.01, 0.3, f32::NAN]),
            2 => changed.center_geom.z = x,
            3 => changed.transform.0[random.below(16)] = x,
            4 => changed.vertices.push(Vec3::new(x, 0.0, 1.0)),
            5 => drop(changed.vertices.pop()),
            6 => changed.polygons.push(triangle([0, 1, 2], random.below(5))),
            7 => drop(changed.polygons.pop()),
            8 if m > 0 => changed.materials[random.below(m)].data1 ^= 1 + random.below(3) as u32,
            9 if p > 0 => changed.polygons[random.below(p)] = triangle([1, 0, 2], random.below(5)),
            10 if p > 1 => changed.polygons.swap(0, p - 1),
            11 => changed.sphere_radius = x,
            _ if v > 0 => changed.vertices[random.below(v)].y = x,
            _ => changed.box_min.y = x,
        }
    }
    changed
}

/// What the library makes of a mesh; none where it is refused.
pub fn folder(name: &str, geometry: Geometry) -> Option<MeshFolder> {
    let mesh = Mesh { geometry, origin: Origin::new(name, Form::Text), names: Vec::new() };
    match MeshFolder::prepare(name, mesh) {
        Ok(folder) => Some(folder),
        Err(refused) if refused.status() == 1 => None,
        Err(other) => panic!("{other}"),
    }
}
