//! A geometry's quantum, and vertices in units of it.

use oracle::{Aabb, Vec3};

/// Half the box by 32,767 on each axis; not a tree's quantum.
pub fn quantum(b: Aabb) -> Vec3 {
    std::array::from_fn(|axis| (b.max[axis] - b.min[axis]) * 0.5 / 32_767.0)
}

/// By the vertex rule: NaN to 0, clamped to 32,767 either way, truncated.
pub fn stored(v: Vec3, quantum: Vec3) -> [i16; 3] {
    std::array::from_fn(|axis| {
        let x = v[axis] / quantum[axis];
        if x.is_nan() {
            0
        } else {
            x.clamp(-32_767.0, 32_767.0).trunc() as i16
        }
    })
}

pub fn read_back(stored: [i16; 3], quantum: Vec3) -> Vec3 {
    std::array::from_fn(|axis| stored[axis] as f32 * quantum[axis])
}

#[cfg(test)]
mod tests {
    use super::*;

    #[test]
    fn a_quantum_of_zero_and_none() {
        assert_eq!(
            quantum(Aabb { min: [1.0, 0.0, 0.0], max: [1.0, 65_534.0, f32::INFINITY] }),
            [0.0, 1.0, f32::INFINITY]
        );
        assert_eq!(stored([3.0, -3.0, 0.0], [0.0; 3]), [32_767, -32_767, 0]);
        assert_eq!(stored([3.9, -3.9, f32::NAN], [1.0; 3]), [3, -3, 0]);
        assert!(read_back([1, 2, 3], [f32::NAN; 3]).iter().all(|x| x.is_nan()));
    }
}
