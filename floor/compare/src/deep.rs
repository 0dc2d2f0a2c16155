//! Lists whose trees are thousands of levels deep.
//!
//! The average that a node is split at comes from a running sum, which rounds. A list is grown at its end: to a list
//! whose centres all lie at or above `low`, a few boxes with one centre c below `low` are added such that the rounded
//! average of the longer list falls into c <= average < `low`. Then the longer list splits into the boxes that were
//! there, above the average and in their order, and the few that were added; and as those stood last, the shorter list
//! has the running sum that it had before. So each addition is one level, whatever follows.
//!
//! Without rounding the average would stay far above `low`. With centres just below 2^24, where floats are whole
//! numbers, the sum of k boxes is rounded to multiples of a unit between 2k and 4k, and the corners c - h and c + h are
//! laid just under half a unit above multiples, so that each of the two additions loses nearly half a unit: the average
//! falls by between one and two. Rounding of the average itself, and of 0.5/n in it, can take that back; then two or
//! more boxes are added at once. The list begins with equal boxes whose sums are exact, and is 0.56 n levels deep.

/// The corners on one axis of `n` boxes, to be taken in this order. Any first part of the list is as deep.
/// Strict: no centre is equal to its average, so that the axis may be y or z, the other axes being flat.
pub fn corners(n: usize, strict: bool) -> Vec<(f32, f32)> {
    let mut low = START;
    let mut list = vec![(low, low); n.min(BULK)];
    let mut sum = list.iter().fold(0.0, |sum, &corners| added(sum, corners));
    while list.len() < n {
        let Some((c, few)) = next(sum, low, list.len(), strict) else { break };
        for _ in 0..few {
            let corners = laid(sum, c);
            sum = added(sum, corners);
            list.push(corners);
        }
        low = c;
    }
    list.truncate(n);
    list
}

/// Equal boxes at the start.
const BULK: usize = 600;

/// Their centre. A multiple of 2^18 below 2^24: its sums are exact, and corners above it are whole numbers.
const START: f32 = 16_777_216.0 - 262_144.0;

/// The centre of the boxes to add, and how many: the fewest will do.
fn next(sum: f32, low: f32, len: usize, strict: bool) -> Option<(f32, usize)> {
    for few in 1..=16 {
        for below in 1..12 {
            let c = low - below as f32;
            let longer = (0..few).fold(sum, |sum, _| added(sum, laid(sum, c)));
            let average = longer * (0.5 / (len + few) as f32);
            if average < low && (c < average || !strict && c == average) {
                return Some((c, few));
            }
        }
    }
    None
}

fn added(sum: f32, (min, max): (f32, f32)) -> f32 {
    (sum + min) + max
}

/// The corners with this centre of which the sum loses most.
fn laid(sum: f32, c: f32) -> (f32, f32) {
    let unit = (sum.next_up() - sum) as i64;
    let both = 2 * c as i64;
    let min = both.div_euclid(unit) / 2 * unit + both.rem_euclid(unit) / 2;
    (min as f32, (both - min) as f32)
}

#[cfg(test)]
mod tests {
    use super::*;

    /// Levels below the root along the first children, by the split rule on one axis.
    fn levels(mut list: Vec<(f32, f32)>) -> usize {
        let mut levels = 0;
        loop {
            let sum = list.iter().fold(0.0, |sum, &corners| added(sum, corners));
            let average = sum * (0.5 / list.len() as f32);
            let before = list.len();
            list.retain(|(min, max)| (min + max) * 0.5 > average);
            if list.is_empty() || list.len() == before {
                return levels;
            }
            levels += 1;
        }
    }

    #[test]
    fn a_list_is_as_deep_as_is_said() {
        let list = corners(4_000, false);
        assert_eq!(list.len(), 4_000);
        assert!(list.iter().all(|&(min, max)| min <= max && min.fract() == 0.0 && max < 16_777_216.0));
        let deep = levels(list);
        assert!(deep > 1_800, "{deep}");
        assert!(levels(corners(4_000, true)) > 900);
    }
}
