//! The walk of [`oracle::walk`] tuned by hand: the anchor that the library's is measured by. Over the same bytes it gives
//! the same counts, positions and refusals. It has SSE2 instructions, so it is only there where those are.

use compare::walk::{Walk, Walked};

pub type Side = fn(&Walk, &mut [u16]) -> Walked;

#[cfg(target_arch = "x86_64")]
pub const WALK: Option<Side> = Some(|walk, out| {
    // SAFETY: SSE2 belongs to every x86-64.
    unsafe { sse2::run(walk, out) }
});

#[cfg(not(target_arch = "x86_64"))]
pub const WALK: Option<Side> = None;

#[cfg(target_arch = "x86_64")]
mod sse2 {
    use super::*;
    use compare::walk::quantise;
    use std::arch::x86_64::*;

    /// Most nodes, trees and items.
    const LIMIT: usize = 65_535;

    /// Box and two numbers: eight shorts.
    type Record = [u8; 16];

    /// What a walk asks of each record.
    struct Lanes {
        /// Ones where a record's max stands: there `!max <= !query.min` is asked for `query.min <= max`; and where its
        /// first number stands: `!first <= -1` for `0 <= first`.
        turn: __m128i,
        /// What no lane of a turned record exceeds that meets and has numbers in their range.
        most: __m128i,
    }

    impl Lanes {
        /// With the greatest second number of a record.
        #[target_feature(enable = "sse2")]
        fn new(walk: &Walk, second: usize) -> Lanes {
            let [a, b, c] = quantise(walk.query.max, walk.cen, walk.inverse);
            let [d, e, f] = quantise(walk.query.min, walk.cen, walk.inverse).map(|x| !x);
            let second = second.min(i16::MAX as usize) as i16;
            let turn = _mm_setr_epi16(0, 0, 0, -1, -1, -1, -1, 0);
            Lanes { turn, most: _mm_setr_epi16(a, b, c, d, e, f, -1, second) }
        }

        /// A bit for each byte of what exceeds: twelve of the box, four of the numbers.
        #[target_feature(enable = "sse2")]
        #[inline]
        fn above(&self, record: &Record) -> i32 {
            // SAFETY: sixteen bytes are read of sixteen; this load asks for no alignment.
            let record = unsafe { _mm_loadu_si128(record.as_ptr().cast()) };
            _mm_movemask_epi8(_mm_cmpgt_epi16(_mm_xor_si128(record, self.turn), self.most))
        }
    }

    /// The bits of the box.
    const BOX: i32 = 0x0FFF;

    /// The record's two numbers.
    #[inline]
    fn numbers(record: &Record) -> (i32, i32) {
        let short = |i: usize| i16::from_le_bytes([record[i], record[i + 1]]) as i32;
        (short(12), short(14))
    }

    #[target_feature(enable = "sse2")]
    pub fn run(walk: &Walk, out: &mut [u16]) -> Walked {
        let refused = |refusal| Walked { refusal, ..Walked::default() };
        if walk.node_count > LIMIT || walk.tree_count > LIMIT || walk.item_count > LIMIT {
            return refused(1);
        }
        let (nodes, trees) = (walk.nodes.as_chunks().0, walk.trees.as_chunks().0);
        if nodes.len() < walk.node_count || trees.len() < walk.tree_count || out.len() < walk.item_count {
            return refused(2);
        }
        let (nodes, trees, out) = (&nodes[..walk.node_count], &trees[..walk.tree_count], &mut out[..walk.item_count]);
        let (of_trees, of_nodes) = (Lanes::new(walk, nodes.len()), Lanes::new(walk, LIMIT));
        let mut walked = Walked::default();
        let mut rest = trees;
        loop {
            let number = passed(&of_trees, rest);
            if number == rest.len() {
                walked.reads += number;
                return walked;
            }
            walked.reads += number + 1;
            let (first, last) = numbers(&rest[number]);
            rest = &rest[number + 1..];
            if first < 0 || last < first || last > nodes.len() as i32 {
                return Walked { refusal: 9, ..walked };
            }
            walked = range(&of_nodes, &nodes[..last as usize], first as usize, walked, out);
            if walked.refusal != 0 {
                return walked;
            }
        }
    }

    /// How many trees come before the first that meets or whose range does not lie among the nodes. Two are looked at
    /// together.
    #[target_feature(enable = "sse2")]
    #[inline]
    fn passed(lanes: &Lanes, trees: &[Record]) -> usize {
        let (pairs, _) = trees.as_chunks::<2>();
        let both = |[a, b]: &[Record; 2]| passes(lanes, a) & passes(lanes, b);
        let before = 2 * pairs.iter().position(|pair| !both(pair)).unwrap_or(pairs.len());
        before + trees[before..].iter().position(|tree| !passes(lanes, tree)).unwrap_or(trees.len() - before)
    }

    #[target_feature(enable = "sse2")]
    #[inline]
    fn passes(lanes: &Lanes, tree: &Record) -> bool {
        let (first, last) = numbers(tree);
        (1..=BOX).contains(&lanes.above(tree)) & (first <= last)
    }

    /// The nodes from `first` to the end of what is given. Whether a node meets is guessed; all else follows without a
    /// branch.
    #[target_feature(enable = "sse2")]
    #[inline]
    fn range(lanes: &Lanes, nodes: &[Record], first: usize, mut walked: Walked, out: &mut [u16]) -> Walked {
        let (last, items) = (nodes.len() as i32, out.len());
        let mut unused = [0; FEW];
        let mut at = first;
        while let Some(node) = nodes.get(at) {
            walked.reads += 1;
            let (id, count) = numbers(node);
            let (inner, over) = (count == 0, id.max(1));
            let (end, limit) = if inner { (at as i32 + over, last) } else { (id + count, items as i32) };
            if (id | count) < 0 || end > limit {
                return Walked { refusal: 10, ..walked };
            }
            if lanes.above(node) & BOX != 0 {
                at += if inner { over as usize } else { 1 };
                continue;
            }
            at += 1;
            let count = count as usize;
            if count > FEW || walked.handed + count > items {
                let fits = count.min(items - walked.handed);
                (0..fits).for_each(|i| out[walked.handed + i] = (id as usize + i) as u16);
                walked.handed += fits;
                if fits < count {
                    return Walked { refusal: 11, ..walked };
                }
                continue;
            }
            // SAFETY: so many places are left behind what was handed out; where none is to be stored, the others are.
            unsafe {
                let places = out.as_mut_ptr().add(walked.handed);
                store(if inner { unused.as_mut_ptr() } else { places }, id as u16, count.max(1));
            }
            walked.handed += count;
        }
        walked
    }

    const FEW: usize = 4;

    /// `count` positions, from one to [`FEW`]: the last is stored again where there are fewer.
    #[inline]
    unsafe fn store(places: *mut u16, id: u16, count: usize) {
        for i in 0..FEW {
            let i = i.min(count - 1);
            // SAFETY: one of the first `count`, which the caller has room for.
            unsafe { places.add(i).write(id.wrapping_add(i as u16)) }
        }
    }
}

#[cfg(test)]
mod tests {
    use super::*;
    use compare::{pairs, walks};

    /// Whole, damaged and scattered records, buffers too short, numbers over their limits.
    #[test]
    fn the_tuned_walk_answers_as_the_plain_one() {
        let Some(walk) = WALK else { return };
        for seed in 1..5 {
            let line = walks::run(seed, 50_000, walk);
            assert_eq!((line.mismatches, line.smallest), (0, None));
        }
    }
    /// Over trees that were built, with what is promised of them.
    #[test]
    fn the_tuned_walk_keeps_the_promises() {
        let (Some(walk), None) = (WALK, oracle::missing()) else { return };
        let line = oracle::on_large_stack(|| pairs::run(1, 2_000, walk));
        assert_eq!((line.mismatches, line.smallest), (0, None));
    }
}
