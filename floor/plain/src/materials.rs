//! Rules M1 to M3: the materials that polygons use, by first appearance.

use crate::{MATERIALS, POLYGONS};
use bounds::{BoundMaterial, Polygon, Refusal};

/// Each material once, with the polygon at which it appears first, and each polygon's place among them.
#[derive(Clone, Debug, Default)]
pub struct Materials {
    pub list: Vec<BoundMaterial>,
    pub firsts: Vec<usize>,
    pub indices: Vec<u8>,
}

/// M1: the material of a number; one that is not given is (0, 0).
fn numbered(given: &[BoundMaterial], number: u8) -> BoundMaterial {
    given.get(number as usize).copied().unwrap_or_default()
}

/// M1: the material of a polygon.
pub fn material_of(given: &[BoundMaterial], polygon: &Polygon) -> BoundMaterial {
    numbered(given, polygon.material())
}

impl Materials {
    /// Of polygons in this order.
    pub fn of<'a>(given: &[BoundMaterial], polygons: impl Iterator<Item = &'a Polygon>) -> Materials {
        Materials::listed(polygons.map(|polygon| material_of(given, polygon)))
    }

    /// M2.
    fn listed(materials: impl Iterator<Item = BoundMaterial>) -> Materials {
        let mut all = Materials::default();
        for (polygon, material) in materials.enumerate() {
            let at = all.list.iter().position(|&other| other == material).unwrap_or(all.list.len());
            if at == all.list.len() {
                all.list.push(material);
                all.firsts.push(polygon);
            }
            all.indices.push(at as u8);
        }
        all
    }
}

/// Bytes of a material, and of the list that has to be lent.
pub const MATERIAL: usize = 8;
pub const LIST: usize = MATERIALS * MATERIAL;

/// The materials of polygons with these numbers, as bytes, and each polygon's place among them. Answers how many there are.
/// M3: refusals 1 and 2; 8 cannot happen with numbers of one byte.
pub fn build(numbers: &[u8], given: &[BoundMaterial], list: &mut [u8], indices: &mut [u8]) -> Result<usize, Refusal> {
    if numbers.len() > POLYGONS || given.len() > MATERIALS {
        return Err(Refusal::ListTooLong);
    }
    if list.len() < LIST || indices.len() < numbers.len() {
        return Err(Refusal::BufferTooShort);
    }
    let built = Materials::listed(numbers.iter().map(|&number| numbered(given, number)));
    indices[..numbers.len()].copy_from_slice(&built.indices);
    for (bytes, material) in list.chunks_exact_mut(MATERIAL).zip(&built.list) {
        bytes.copy_from_slice([material.data1, material.data2].map(u32::to_le_bytes).as_flattened());
    }
    Ok(built.list.len())
}

#[cfg(test)]
mod tests {
    use super::*;

    /// The scope document's own value.
    #[test]
    fn first_appearance() {
        let (mut list, mut indices) = ([7; LIST], [7; 4]);
        let materials = [1, 2, 1].map(|data1| BoundMaterial { data1, data2: 0 });
        assert_eq!(build(&[2, 0, 2, 9], &materials, &mut list, &mut indices), Ok(2));
        assert_eq!(indices, [0, 0, 0, 1]);
        assert_eq!(list[..16], [1, 0, 0, 0, 0, 0, 0, 0, 0, 0, 0, 0, 0, 0, 0, 0]);
        assert_eq!(list[16], 7, "the rest stays");
    }
}
