//! Rules T3 to T7: how a node's items are divided between its two children.

use crate::fold::words;
use bounds::BvhItem;
use std::cmp::Ordering;

/// What a split looked at, and what it came to.
#[derive(Clone, Debug)]
pub struct Split {
    /// T4.
    pub average: [f32; 3],
    /// T5: centres below the average, on each axis.
    pub below: [usize; 3],
    /// T5: the axis whose count is nearest to half.
    pub axis: usize,
    /// T5: how many centres are above the average on that axis.
    pub above: usize,
    /// T6: whether a group was empty, so that all were sorted and cut.
    pub sorted: bool,
    pub one: Vec<usize>,
    pub two: Vec<usize>,
}

/// T3: (min + max) · 0.5 on an axis.
pub fn centre(item: &BvhItem, axis: usize) -> f32 {
    let w = words(item).map(f32::from_bits);
    (w[axis] + w[axis + 3]) * 0.5
}

/// T4: min, then max, item after item, times 0.5/n.
fn average(items: &[BvhItem], places: &[usize]) -> [f32; 3] {
    let mut sum = [0f32; 3];
    for &place in places {
        let w = words(&items[place]).map(f32::from_bits);
        for axis in 0..3 {
            sum[axis] += w[axis];
            sum[axis] += w[axis + 3];
        }
    }
    let factor = 0.5 / places.len() as f32;
    sum.map(|s| s * factor)
}

/// T5: the axis whose count is nearest to n/2, x before y before z.
fn nearest(below: [usize; 3], n: usize) -> usize {
    let target = n as f32 / 2.0;
    let [x, y, z] = below.map(|count| (target - count as f32).abs());
    if x <= y && x <= z {
        0
    } else if y <= z {
        1
    } else {
        2
    }
}

/// The split of a node's items.
pub fn split(items: &[BvhItem], places: &[usize]) -> Split {
    let average = average(items, places);
    let below = std::array::from_fn(|axis| places.iter().filter(|&&p| centre(&items[p], axis) < average[axis]).count());
    let axis = nearest(below, places.len());
    let (one, two): (Vec<usize>, Vec<usize>) = places.iter().partition(|&&p| centre(&items[p], axis) > average[axis]);
    let mut split = Split { average, below, axis, above: one.len(), sorted: false, one, two };
    if split.one.is_empty() || split.two.is_empty() {
        cut(items, &mut split);
    }
    split
}

/// F2: NaN below all else, two NaNs equal, -0 equal to 0.
pub fn compare(a: f32, b: f32) -> Ordering {
    a.partial_cmp(&b).unwrap_or_else(|| b.is_nan().cmp(&a.is_nan()))
}

/// T6: all of them, sorted stably by min then max, cut at half.
fn cut(items: &[BvhItem], split: &mut Split) {
    let mut all: Vec<usize> = split.one.iter().chain(&split.two).copied().collect();
    let values = |&place: &usize| words(&items[place]).map(f32::from_bits);
    all.sort_by(|a, b| {
        let pairs = values(a).into_iter().zip(values(b));
        pairs.map(|(x, y)| compare(x, y)).find(|order| order.is_ne()).unwrap_or(Ordering::Equal)
    });
    split.two = all.split_off(all.len() / 2);
    split.one = all;
    split.sorted = true;
}

impl Split {
    /// T7: group one comes first unless group two has more items.
    pub fn two_leads(&self) -> bool {
        self.two.len() > self.one.len()
    }

    /// The children's items, the first child's first.
    pub fn children(self) -> [Vec<usize>; 2] {
        if self.two_leads() {
            [self.two, self.one]
        } else {
            [self.one, self.two]
        }
    }
}

#[cfg(test)]
mod tests {
    use super::*;

    #[test]
    fn ties_go_to_the_first_axis() {
        assert_eq!(nearest([3, 3, 3], 6), 0);
        assert_eq!(nearest([0, 5, 1], 6), 1, "0 is 3 away, 5 and 1 are 2 away");
        assert_eq!(nearest([0, 0, 3], 6), 2);
    }
}
