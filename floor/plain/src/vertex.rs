//! Rules Q1 to Q3 and F9: a geometry's quantum, and vertices in units of it.

use crate::points::{per_axis, point};
use bounds::prepare::Quantised;
use bounds::{BoundVertex, Vec3};

/// Q1: half the box in 32,767 parts; not a tree's quantum.
pub fn quantum(min: Vec3, max: Vec3) -> Vec3 {
    let (min, max) = (point(min), point(max));
    per_axis(|axis| (max[axis] - min[axis]) * 0.5 / 32_767.0)
}

/// F9: NaN to 0, clamped to 32,767 either way, truncated.
pub fn vertex_value(x: f32) -> i16 {
    if x.is_nan() {
        0
    } else {
        x.clamp(-32_767.0, 32_767.0) as i16
    }
}

/// Q2.
pub fn stored(v: Vec3, quantum: Vec3) -> BoundVertex {
    let (v, quantum) = (point(v), point(quantum));
    let [x, y, z] = std::array::from_fn(|axis| vertex_value(v[axis] / quantum[axis]));
    BoundVertex(x, y, z)
}

/// Q3.
pub fn read_back(BoundVertex(x, y, z): BoundVertex, quantum: Vec3) -> Vec3 {
    let (stored, quantum) = ([x, y, z], point(quantum));
    per_axis(|axis| stored[axis] as f32 * quantum[axis])
}

/// Q4: as they are stored, and the points that these stand for.
pub fn quantised(vertices: impl Iterator<Item = Vec3>, quantum: Vec3) -> Quantised {
    let stored: Vec<BoundVertex> = vertices.map(|v| stored(v, quantum)).collect();
    let floats = stored.iter().map(|&v| read_back(v, quantum)).collect();
    Quantised { stored, floats }
}

#[cfg(test)]
mod tests {
    use super::*;
    use crate::points::vec3;

    #[test]
    fn a_quantum_of_zero_and_none() {
        let unit = quantum(vec3([1.0, 0.0, 0.0]), vec3([1.0, 65_534.0, f32::INFINITY]));
        assert_eq!(unit, vec3([0.0, 1.0, f32::INFINITY]));
        assert_eq!(stored(vec3([3.0, -3.0, 0.0]), vec3([0.0; 3])), BoundVertex(32_767, -32_767, 0));
        assert_eq!(stored(vec3([3.9, -3.9, f32::NAN]), vec3([1.0; 3])), BoundVertex(3, -3, 0));
        assert!(point(read_back(BoundVertex(1, 2, 3), vec3([f32::NAN; 3]))).iter().all(|x| x.is_nan()));
    }
}
