//! Rules M1 and M2: the materials that polygons use, by first appearance.

use bounds::{BoundMaterial, Polygon};

/// Each material once, with the polygon at which it appears first, and each polygon's place among them.
#[derive(Clone, Debug, Default)]
pub struct Materials {
    pub list: Vec<BoundMaterial>,
    pub firsts: Vec<usize>,
    pub indices: Vec<u8>,
}

/// M1: the material of a polygon; one that is not given is (0, 0).
pub fn material_of(given: &[BoundMaterial], polygon: &Polygon) -> BoundMaterial {
    given.get(polygon.material() as usize).copied().unwrap_or_default()
}

impl Materials {
    /// Of polygons in this order.
    pub fn of<'a>(given: &[BoundMaterial], polygons: impl Iterator<Item = &'a Polygon>) -> Materials {
        let mut all = Materials::default();
        for (polygon, material) in polygons.map(|polygon| material_of(given, polygon)).enumerate() {
            let at = all.list.iter().position(|&other| other == material).unwrap_or(all.list.len());
            if at == all.list.len() {
                all.list.push(material);
                all.firsts.push(polygon);
            }
            all.indices.push(at as u8);
        }
        all
    }
}
