//! From above: which axis is up, and where a place then is on the paper.

use bounds::Vec3;

/// The axis that is up. x goes to the right, so that of a space with y up z comes down the paper.
#[derive(Clone, Copy, Debug, Default, PartialEq, Eq)]
pub enum View {
    #[default]
    Z,
    Y,
}

impl View {
    /// What a picture says of it.
    pub fn words(self) -> &'static str {
        match self {
            View::Z => "from above: x to the right, y up",
            View::Y => "from above, y being up: x to the right, z down",
        }
    }

    /// The axis of the paper's height, by its number.
    pub fn axis(self) -> usize {
        match self {
            View::Z => 1,
            View::Y => 2,
        }
    }

    /// A place of that axis, as the paper has it: downwards.
    pub fn down(self, place: f64) -> f64 {
        match self {
            View::Z => -place,
            View::Y => place,
        }
    }

    /// A point's places to the right and on the axis of the height.
    pub fn flat(self, v: Vec3) -> (f64, f64) {
        (v.x as f64, [v.x, v.y, v.z][self.axis()] as f64)
    }

    /// A box by its spans to the right and on the axis of the height.
    pub fn spans(self, min: Vec3, max: Vec3) -> ((f64, f64), (f64, f64)) {
        let ((left, low), (right, high)) = (self.flat(min), self.flat(max));
        ((left, right), (low, high))
    }
}
