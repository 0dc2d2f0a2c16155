//! What there is to say of a prepared mesh beside its bytes: premises, and what was cut.

use super::MeshFolder;
use crate::failure::Failure;
use bounds::premises::{ordinary, Broken};
use bounds::{BvhItem, Polygon, Vec3};

/// Whether a vertex is further from the centre than half the box, for which the quantum is made, and was stored cut to that: now
/// more than a unit from where it was, or nowhere.
pub fn is_cut(vertex: Vec3, stored: Vec3, quantum: Vec3) -> bool {
    let far = |a: f32, b: f32, unit: f32| {
        let near = (a as f64 - b as f64).abs() <= 1.001 * unit.abs() as f64 + 1e-6 * (a as f64).abs();
        !(near && a.is_finite())
    };
    let (a, b) = (vertex, stored);
    far(a.x, b.x, quantum.x) || far(a.y, b.y, quantum.y) || far(a.z, b.z, quantum.z)
}

/// The vertices that a polygon names, those of a triangle without their flags.
pub fn corners(polygon: &Polygon) -> Vec<usize> {
    match *polygon {
        Polygon::Triangle { v, .. } => v.map(|v| (v & 0x7FFF) as usize).to_vec(),
        Polygon::Sphere { index, .. } => vec![index as usize],
        Polygon::Capsule { i1, i2, .. } | Polygon::Cylinder { i1, i2, .. } => vec![i1 as usize, i2 as usize],
        Polygon::Box { i, .. } => i.map(|i| i as u16 as usize).to_vec(),
    }
}

/// Of a mesh with a tree what breaks the premises of its polygons' boxes first, and those boxes.
pub struct Premises {
    pub items: Vec<BvhItem>,
    pub broken: Option<Broken>,
}

/// None for a mesh that has no tree.
pub fn premises(folder: &MeshFolder) -> Result<Option<Premises>, Failure> {
    let Some(geometry) = folder.geometry().filter(|_| folder.parts.tree.is_some()) else { return Ok(None) };
    let items = geometry.items()?;
    Ok(Some(Premises { broken: ordinary(&items).err(), items }))
}

/// `polygon 12: min x is not finite, or above 2^100 in size`: what breaks the premises, in a mesh's words.
pub fn broken_words(broken: Broken) -> String {
    broken.to_string().replacen("entry", "polygon", 1)
}
