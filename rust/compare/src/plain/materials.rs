//! The list of materials that polygons use.

use oracle::polygon::{Material, LIMIT};

/// Bytes of a material, and of the list that has to be lent.
pub const MATERIAL: usize = 8;
pub const LIST: usize = 256 * MATERIAL;

/// Each material once, by first appearance, as bytes, and for each polygon its place among them; a material that is not
/// given is (0, 0). Answers how many there are. Refusals 1 and 2; 8 cannot happen with numbers of one byte.
pub fn build(numbers: &[u8], materials: &[Material], list: &mut [u8], indices: &mut [u8]) -> Result<usize, u32> {
    if numbers.len() > LIMIT || materials.len() > 256 {
        return Err(1);
    }
    if list.len() < LIST || indices.len() < numbers.len() {
        return Err(2);
    }
    let mut built: Vec<Material> = Vec::new();
    for (index, &number) in indices.iter_mut().zip(numbers) {
        let material = materials.get(number as usize).copied().unwrap_or_default();
        let place = built.iter().position(|&other| other == material).unwrap_or(built.len());
        if place == built.len() {
            built.push(material);
        }
        *index = place as u8;
    }
    for (bytes, (first, second)) in list.chunks_exact_mut(MATERIAL).zip(&built) {
        bytes[..4].copy_from_slice(&first.to_le_bytes());
        bytes[4..].copy_from_slice(&second.to_le_bytes());
    }
    Ok(built.len())
}

#[cfg(test)]
mod tests {
    use super::*;

    /// The scope document's own value.
    #[test]
    fn first_appearance() {
        let (mut list, mut indices) = ([7; LIST], [7; 4]);
        let materials = [(1, 0), (2, 0), (1, 0)];
        assert_eq!(build(&[2, 0, 2, 9], &materials, &mut list, &mut indices), Ok(2));
        assert_eq!(indices, [0, 0, 0, 1]);
        assert_eq!(list[..16], [1, 0, 0, 0, 0, 0, 0, 0, 0, 0, 0, 0, 0, 0, 0, 0]);
        assert_eq!(list[16], 7, "the rest stays");
    }
}
