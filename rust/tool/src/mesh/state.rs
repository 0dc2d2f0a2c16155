//! What there is to say of a prepared mesh beside its bytes: premises, what was cut, what is not there.

use super::{items, MeshFolder};
use crate::failure::Failure;
use bounds::premises::{ordinary, Broken};
use bounds::{BvhItem, Geometry, Polygon, Vec3};

/// Vertices that are further from the centre than half the box, for which the quantum is made, and were stored cut to that: now
/// more than a unit from where they were, or nowhere.
pub fn cut_vertices(geometry: &Geometry, stored: &[Vec3], quantum: Vec3) -> usize {
    let far = |a: f32, b: f32, unit: f32| {
        let near = (a as f64 - b as f64).abs() <= 1.001 * unit as f64 + 1e-6 * (a as f64).abs();
        !near
    };
    let cut = |(a, b): (&Vec3, &Vec3)| far(a.x, b.x, quantum.x) || far(a.y, b.y, quantum.y) || far(a.z, b.z, quantum.z);
    geometry.vertices.iter().zip(stored).filter(|&pair| cut(pair)).count()
}

/// The vertices that a polygon names, those of a triangle without their flags.
pub fn corners(polygon: &Polygon) -> Vec<usize> {
    match *polygon {
        Polygon::Triangle { v, .. } => v.map(|v| (v & 0x7FFF) as usize).to_vec(),
        Polygon::Sphere { index, .. } => vec![index as usize],
        Polygon::Capsule { i1, i2, .. } | Polygon::Cylinder { i1, i2, .. } => vec![i1 as usize, i2 as usize],
        Polygon::Box { i, .. } => i.map(|i| i as u16 as usize).to_vec(),
    }
}

/// Polygons that name a vertex that is not there, and those whose material is not.
pub fn missing(geometry: &Geometry) -> (usize, usize) {
    let (v, m) = (geometry.vertices.len(), geometry.materials.len());
    let open = |polygon: &&Polygon| corners(polygon).into_iter().any(|k| k >= v);
    let plain = |polygon: &&Polygon| polygon.material() as usize >= m;
    (geometry.polygons.iter().filter(open).count(), geometry.polygons.iter().filter(plain).count())
}

/// Of a mesh with a tree what breaks the premises of its polygons' boxes first, and those boxes.
pub struct Premises {
    pub items: Vec<BvhItem>,
    pub broken: Option<Broken>,
}

/// None for a mesh that has no tree.
pub fn premises(folder: &MeshFolder) -> Result<Option<Premises>, Failure> {
    let Some(geometry) = folder.geometry().filter(|_| folder.parts.tree.is_some()) else { return Ok(None) };
    let items = items(geometry)?;
    Ok(Some(Premises { broken: ordinary(&items).err(), items }))
}

/// `polygon 12: min x is not finite, or above 2^100 in size`: what breaks the premises, in a mesh's words.
pub fn broken_words(broken: Broken) -> String {
    broken.to_string().replacen("entry", "polygon", 1)
}
