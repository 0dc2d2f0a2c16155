//! Lists of boxes to build trees of.

use compare::deep;
use compare::random::Random;
use oracle::Aabb;

/// Floats of ordinary size.
pub struct Tame(pub Random);

impl Tame {
    pub fn float(&mut self) -> f32 {
        (self.0.u32() as f32 / 4294967296.0 - 0.5) * 80000.0
    }
    pub fn point(&mut self) -> [f32; 3] {
        std::array::from_fn(|_| self.float())
    }
    pub fn matrix(&mut self) -> [f32; 16] {
        std::array::from_fn(|_| self.float())
    }
}

pub fn inputs<T>(n: usize, seed: u64, one: impl Fn(&mut Tame) -> T) -> Vec<T> {
    let mut tame = Tame(Random::new(seed));
    (0..n).map(|_| one(&mut tame)).collect()
}

/// Boxes of up to 10 on each axis, spread over 400.
pub fn spread(n: usize, seed: u64) -> Vec<Aabb> {
    inputs(n, seed, |t| {
        let min = t.point().map(|x| x / 200.0);
        Aabb { min, max: min.map(|low| low + t.float().abs() / 4000.0) }
    })
}

/// The same, so small that every coordinate is subnormal.
pub fn subnormal(n: usize, seed: u64) -> Vec<Aabb> {
    let small = |corner: [f32; 3]| corner.map(|x| x * SMALL);
    spread(n, seed).into_iter().map(|b| Aabb { min: small(b.min), max: small(b.max) }).collect()
}

/// 2^-134: 210 of it are below 2^-126, the least normal number.
const SMALL: f32 = f32::MIN_POSITIVE / 256.0;

/// The spread boxes, the middle one with a NaN.
pub fn one_nan(n: usize, seed: u64) -> Vec<Aabb> {
    let mut boxes = spread(n, seed);
    boxes[n / 2].min[0] = f32::NAN;
    boxes
}

pub fn equal(n: usize) -> Vec<Aabb> {
    vec![Aabb { min: [1.0; 3], max: [2.0; 3] }; n]
}

/// Boxes around one centre, each within the next: every node is sorted, and the list is falling.
pub fn nested(n: usize) -> Vec<Aabb> {
    (1..=n).map(|k| k as f32).map(|half| Aabb { min: [-half; 3], max: [half; 3] }).collect()
}

/// Boxes of which the split rule takes off a few at a time.
pub fn hostile(n: usize) -> Vec<Aabb> {
    chain(n, false, 0.0)
}

/// Likewise with y and z subnormal, so that each centre of each level may cost what subnormals cost. The strict list is
/// less deep: of it even the longest has not too many nodes.
pub fn deep_subnormal(n: usize) -> Vec<Aabb> {
    chain(n, true, SMALL)
}

fn chain(n: usize, strict: bool, across: f32) -> Vec<Aabb> {
    let at = |&(low, high): &(f32, f32)| Aabb { min: [low, across, across], max: [high, across, across] };
    deep::corners(n, strict).iter().map(at).collect()
}

#[cfg(test)]
mod tests {
    use super::*;

    #[test]
    fn subnormal_boxes_are_subnormal_and_differ() {
        let boxes = subnormal(1_000, 1);
        assert!(boxes.iter().all(|b| b.min.iter().chain(&b.max).all(|x| x.is_subnormal())));
        assert!(boxes.windows(2).all(|pair| pair[0] != pair[1]));
        assert!(boxes.iter().all(|b| (0..3).all(|axis| b.min[axis] <= b.max[axis])));
    }
}
