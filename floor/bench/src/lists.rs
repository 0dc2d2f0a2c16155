//! Lists of boxes to build trees of, and triangles of a square.

use bounds::{BvhItem, Mat4, Vec3};
use compare::deep;
use compare::random::Random;
use compare::shapes::{sheet, Mesh};

/// Floats of ordinary size.
pub struct Tame(pub Random);

impl Tame {
    pub fn float(&mut self) -> f32 {
        (self.0.unit() - 0.5) * 80000.0
    }
    pub fn floats(&mut self) -> [f32; 3] {
        std::array::from_fn(|_| self.float())
    }
    pub fn point(&mut self) -> Vec3 {
        self.floats().into()
    }
    pub fn matrix(&mut self) -> Mat4 {
        Mat4(std::array::from_fn(|_| self.float()))
    }
}

pub fn inputs<T>(n: usize, seed: u64, one: impl Fn(&mut Tame) -> T) -> Vec<T> {
    let mut tame = Tame(Random::new(seed));
    (0..n).map(|_| one(&mut tame)).collect()
}

/// So many triangles of a square, two in each cell.
pub fn square(triangles: usize) -> Mesh {
    let mut mesh = sheet((1..).find(|c| 2 * c * c >= triangles).expect("a square is large enough"));
    mesh.triangles.truncate(triangles);
    mesh
}

/// Boxes of up to 10 on each axis, spread over 400.
pub fn spread(n: usize, seed: u64) -> Vec<BvhItem> {
    inputs(n, seed, |t| {
        let min = t.floats().map(|x| x / 200.0);
        BvhItem::new(min.into(), min.map(|low| low + t.float().abs() / 4000.0).into())
    })
}

/// The same, so small that every coordinate is subnormal.
pub fn subnormal(n: usize, seed: u64) -> Vec<BvhItem> {
    let small = |corner: Vec3| <[f32; 3]>::from(corner).map(|x| x * SMALL).into();
    spread(n, seed).into_iter().map(|b| BvhItem::new(small(b.min), small(b.max))).collect()
}

/// 2^-134: 210 of it are below 2^-126, the least normal number.
const SMALL: f32 = f32::MIN_POSITIVE / 256.0;

/// The spread boxes, the middle one with a NaN.
pub fn one_nan(n: usize, seed: u64) -> Vec<BvhItem> {
    let mut boxes = spread(n, seed);
    boxes[n / 2].min.x = f32::NAN;
    boxes
}

pub fn equal(n: usize) -> Vec<BvhItem> {
    vec![BvhItem::new([1.0; 3].into(), [2.0; 3].into()); n]
}

/// Boxes around one centre, each within the next: every node is sorted, and the list is falling.
pub fn nested(n: usize) -> Vec<BvhItem> {
    (1..=n).map(|k| k as f32).map(|half| BvhItem::new([-half; 3].into(), [half; 3].into())).collect()
}

/// Boxes of which the split rule takes off a few at a time.
pub fn hostile(n: usize) -> Vec<BvhItem> {
    chain(n, false, 0.0)
}

/// Likewise with y and z subnormal, so that each centre of each level may cost what subnormals cost. The strict list is
/// less deep: of it even the longest has not too many nodes.
pub fn deep_subnormal(n: usize) -> Vec<BvhItem> {
    chain(n, true, SMALL)
}

fn chain(n: usize, strict: bool, across: f32) -> Vec<BvhItem> {
    let at = |&(low, high): &(f32, f32)| BvhItem::new(Vec3::new(low, across, across), Vec3::new(high, across, across));
    deep::corners(n, strict).iter().map(at).collect()
}

#[cfg(test)]
mod tests {
    use super::*;

    #[test]
    fn subnormal_boxes_are_subnormal_and_differ() {
        let boxes = subnormal(1_000, 1);
        assert!(boxes.iter().all(|b| (0..3).all(|axis| b.min[axis].is_subnormal() && b.max[axis].is_subnormal())));
        assert!(boxes.windows(2).all(|pair| pair[0] != pair[1]));
        assert!(boxes.iter().all(|b| (0..3).all(|axis| b.min[axis] <= b.max[axis])));
    }
}
