//! Rule T1: the box of some items, folded in the order in which a node got them. Words are copied (F4).

use bounds::premises::Corner;
use bounds::{BvhItem, Vec3};

/// Six words: min x, y, z, max x, y, z.
pub type Words = [u32; 6];

/// The six words of an entry's box.
pub fn words(item: &BvhItem) -> Words {
    [item.min.x, item.min.y, item.min.z, item.max.x, item.max.y, item.max.z].map(f32::to_bits)
}

/// The entry of a mark and six words.
pub fn entry(present: u32, words: Words) -> BvhItem {
    let [a, b, c, d, e, f] = words.map(f32::from_bits);
    BvhItem { present, min: Vec3 { x: a, y: b, z: c }, max: Vec3 { x: d, y: e, z: f } }
}

/// What a fold starts from.
pub const START: Words = {
    let (least, most) = (f32::MAX.to_bits(), f32::MIN.to_bits());
    [least, least, least, most, most, most]
};

/// Rule F3: whether a is kept, being less (of minima) or greater (of maxima) than b.
fn keeps(corner: Corner, a: u32, b: u32) -> bool {
    let (x, y) = (f32::from_bits(a), f32::from_bits(b));
    match corner {
        Corner::Min => x < y,
        Corner::Max => x > y,
    }
}

/// Rule F3 on words: a where it is kept, else b.
pub fn pick(corner: Corner, a: u32, b: u32) -> u32 {
    if keeps(corner, a, b) {
        a
    } else {
        b
    }
}

/// The corner of one of the six values.
pub fn corner_of(value: usize) -> Corner {
    if value < 3 {
        Corner::Min
    } else {
        Corner::Max
    }
}

/// The box of the items at these places.
pub fn fold(items: &[BvhItem], places: &[usize]) -> Words {
    let grown = |sum: Words, &place: &usize| {
        let next = words(&items[place]);
        std::array::from_fn(|k| pick(corner_of(k), sum[k], next[k]))
    };
    places.iter().fold(START, grown)
}

/// The fold of one of the six values, step by step: what it is after each item.
pub fn steps(items: &[BvhItem], places: &[usize], value: usize) -> Vec<u32> {
    let mut sum = START[value];
    let mut step = |&place: &usize| {
        sum = pick(corner_of(value), sum, words(&items[place])[value]);
        sum
    };
    places.iter().map(&mut step).collect()
}

/// The item whose word the fold ended with, by its index in `places`; none where the start was kept.
pub fn winner(items: &[BvhItem], places: &[usize], value: usize) -> Option<usize> {
    let mut sum = START[value];
    let mut won = None;
    for (at, &place) in places.iter().enumerate() {
        let next = words(&items[place])[value];
        if !keeps(corner_of(value), sum, next) {
            (sum, won) = (next, Some(at)); // a tie is the later item's
        }
    }
    won
}

#[cfg(test)]
mod tests {
    use super::*;

    fn at(x: f32) -> BvhItem {
        entry(1, [x, 0.0, 0.0, x, 0.0, 0.0].map(f32::to_bits))
    }

    /// 01: "x minima 1, NaN, 3 fold to 3, and 1, NaN to NaN".
    #[test]
    fn a_nan_wipes_what_came_before() {
        let items = [at(1.0), at(f32::NAN), at(3.0)];
        assert_eq!(f32::from_bits(fold(&items, &[0, 1, 2])[0]), 3.0);
        assert!(f32::from_bits(fold(&items, &[0, 1])[0]).is_nan());
        assert_eq!(winner(&items, &[0, 1, 2], 0), Some(2));
        assert_eq!(winner(&items, &[], 0), None);
        assert_eq!(steps(&items, &[0, 1, 2], 3).len(), 3);
    }
}
