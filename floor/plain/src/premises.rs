//! Rule P4's premises on a list of boxes.

use crate::fold::{fold, words};
use crate::scale::Scale;
use bounds::BvhItem;

/// Which of the premises a list breaks: that all present boxes are finite with min at most max, that no coordinate
/// exceeds 2^100 in size, and that the half extent on each axis is 0 or at least 2^-100.
#[derive(Clone, Copy, Debug, PartialEq, Eq)]
pub enum Broken {
    NotANumber,
    Infinite,
    InsideOut,
    Large,
    Small,
}

/// The first premise that a list breaks, if it breaks one.
pub fn broken(items: &[BvhItem]) -> Option<Broken> {
    let present: Vec<usize> = (0..items.len()).filter(|&place| items[place].present != 0).collect();
    let boxes = || present.iter().map(|&place| words(&items[place]).map(f32::from_bits));
    let any = |wrong: fn(f32) -> bool| boxes().any(|b| b.into_iter().any(wrong));
    let all = fold(items, &present).map(f32::from_bits);
    let extents = [0, 1, 2].map(|axis| Scale::of(all[axis], all[axis + 3]).extent);
    if any(f32::is_nan) {
        Some(Broken::NotANumber)
    } else if any(f32::is_infinite) {
        Some(Broken::Infinite)
    } else if boxes().any(|b| (0..3).any(|axis| b[axis] > b[axis + 3])) {
        Some(Broken::InsideOut)
    } else if any(|x| x.abs() > 2f32.powi(100)) {
        Some(Broken::Large)
    } else if extents.into_iter().any(|q| q != 0.0 && q < 2f32.powi(-100)) {
        Some(Broken::Small)
    } else {
        None
    }
}

#[cfg(test)]
mod tests {
    use super::*;
    use crate::fold::entry;

    fn at(min: f32, max: f32) -> BvhItem {
        entry(1, [min, min, min, max, max, max].map(f32::to_bits))
    }

    #[test]
    fn premises_are_told_apart() {
        let large = 2f32.powi(100);
        let points = |x: f32| broken(&[at(0.0, 0.0), at(x, x)]);
        let absent = BvhItem { present: 0, ..at(f32::NAN, f32::NAN) };
        assert_eq!(broken(&[]), None);
        assert_eq!(broken(&[absent, at(-large, large), at(5.0, 5.0)]), None);
        assert_eq!(broken(&[at(-large, large.next_up())]), Some(Broken::Large));
        assert_eq!(broken(&[at(0.0, f32::INFINITY)]), Some(Broken::Infinite));
        assert_eq!(broken(&[at(0.0, 1.0), at(f32::NAN, 1.0)]), Some(Broken::NotANumber));
        assert_eq!(broken(&[at(0.0, 1.0), at(1.0, 0.5)]), Some(Broken::InsideOut));
        assert_eq!([2f32.powi(-99), 0.0, -0.0].map(points), [None; 3]);
        assert_eq!([2f32.powi(-99).next_down(), 2f32.powi(-130)].map(points), [Some(Broken::Small); 2]);
    }
}
