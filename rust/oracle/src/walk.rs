//! The walk in plain Rust, written from the scope document's section of that name alone: what the proved walk is
//! compared with, since the reference has none.

use crate::{Aabb, Vec3};

/// What a walk is given.
#[derive(Clone, Copy, Debug)]
pub struct Walk<'a> {
    pub query: Aabb,
    pub cen: Vec3,
    pub inverse: Vec3,
    /// Node records, of which there may be fewer than bytes for them.
    pub nodes: &'a [u8],
    pub node_count: usize,
    pub trees: &'a [u8],
    pub tree_count: usize,
    pub item_count: usize,
}

/// The refusal's number (0 for none), records read and positions handed out.
#[derive(Clone, Copy, Debug, Default, PartialEq, Eq)]
pub struct Walked {
    pub refusal: u32,
    pub reads: usize,
    pub handed: usize,
}

/// Most nodes, trees and items.
const LIMIT: usize = 65_535;

/// A box in units of the quantum: min and max.
pub type Span = ([i16; 3], [i16; 3]);

/// A node or tree record: a box, and two numbers.
pub struct Record {
    min: [i16; 3],
    max: [i16; 3],
    pub first: i32,
    pub second: i32,
}

impl Record {
    pub fn read(bytes: &[u8], at: usize) -> Record {
        let bytes = &bytes[16 * at..][..16];
        let short = |i: usize| i16::from_le_bytes([bytes[2 * i], bytes[2 * i + 1]]);
        Record {
            min: [short(0), short(1), short(2)],
            max: [short(3), short(4), short(5)],
            first: short(6) as i32,
            second: short(7) as i32,
        }
    }

    pub fn meets(&self, (min, max): &Span) -> bool {
        (0..3).all(|axis| self.min[axis] <= max[axis] && min[axis] <= self.max[axis])
    }
}

/// (v - cen) * inverse; NaN to 0, clamped to 32,767 either way, truncated.
pub fn quantise(v: Vec3, cen: Vec3, inverse: Vec3) -> [i16; 3] {
    std::array::from_fn(|axis| {
        let x = (v[axis] - cen[axis]) * inverse[axis];
        if x.is_nan() {
            0
        } else if x >= 32_767.0 {
            32_767
        } else if x <= -32_767.0 {
            -32_767
        } else {
            x.trunc() as i16
        }
    })
}

impl Walk<'_> {
    /// Walks; `out` holds the positions that were handed out, and behind them what it held.
    pub fn run(&self, out: &mut [u16]) -> Walked {
        let refused = |refusal| Walked { refusal, ..Walked::default() };
        if self.node_count > LIMIT || self.tree_count > LIMIT || self.item_count > LIMIT {
            return refused(1);
        }
        let short = self.nodes.len() < 16 * self.node_count || self.trees.len() < 16 * self.tree_count;
        if short || out.len() < self.item_count {
            return refused(2);
        }
        let query =
            (quantise(self.query.min, self.cen, self.inverse), quantise(self.query.max, self.cen, self.inverse));
        let mut walked = Walked::default();
        for number in 0..self.tree_count {
            walked.reads += 1;
            let tree = Record::read(self.trees, number);
            let (first, last) = (tree.first, tree.second);
            if first < 0 || last < first || last > self.node_count as i32 {
                return Walked { refusal: 9, ..walked };
            }
            if tree.meets(&query) {
                walked = self.range(first, last, &query, walked, out);
                if walked.refusal != 0 {
                    return walked;
                }
            }
        }
        walked
    }

    /// The nodes from `first` up to `last`.
    fn range(&self, first: i32, last: i32, query: &Span, mut walked: Walked, out: &mut [u16]) -> Walked {
        let mut at = first;
        while at < last {
            walked.reads += 1;
            let node = Record::read(self.nodes, at as usize);
            let (id, count) = (node.first, node.second);
            let over = id.max(1);
            let leads_out = if count == 0 { at + over > last } else { id + count > self.item_count as i32 };
            if count < 0 || id < 0 || leads_out {
                return Walked { refusal: 10, ..walked };
            }
            let meets = node.meets(query);
            if meets {
                for position in id..id + count {
                    if walked.handed == self.item_count {
                        return Walked { refusal: 11, ..walked };
                    }
                    out[walked.handed] = position as u16;
                    walked.handed += 1;
                }
            }
            at += if count == 0 && !meets { over } else { 1 };
        }
        walked
    }
}

#[cfg(test)]
mod tests {
    use super::*;

    const ALL: Span = ([-32767; 3], [32767; 3]);
    /// Left and right halves along x.
    const LEFT: Span = ([-32767; 3], [-100, 32767, 32767]);
    const RIGHT: Span = ([100, -32767, -32767], [32767; 3]);

    fn records(of: &[(Span, i16, i16)]) -> Vec<u8> {
        let record = |&((min, max), a, b): &(Span, i16, i16)| {
            [min[0], min[1], min[2], max[0], max[1], max[2], a, b].map(i16::to_le_bytes).concat()
        };
        of.iter().flat_map(record).collect()
    }

    /// With a quantum of 1 around 0.
    fn walk(
        query: ([f32; 3], [f32; 3]),
        nodes: &[(Span, i16, i16)],
        trees: &[(Span, i16, i16)],
        item_count: usize,
    ) -> ((u32, usize, usize), Vec<u16>) {
        let (node_bytes, tree_bytes) = (records(nodes), records(trees));
        let walk = Walk {
            query: Aabb { min: query.0, max: query.1 },
            cen: [0.0; 3],
            inverse: [1.0; 3],
            nodes: &node_bytes,
            node_count: nodes.len(),
            trees: &tree_bytes,
            tree_count: trees.len(),
            item_count,
        };
        let mut out = vec![777; item_count + 2];
        let walked = walk.run(&mut out);
        assert!(out[walked.handed..].iter().all(|&p| p == 777), "the rest is unchanged");
        out.truncate(walked.handed);
        ((walked.refusal, walked.reads, walked.handed), out)
    }

    const WHOLE: ([f32; 3], [f32; 3]) = ([-1e9; 3], [1e9; 3]);
    const ON_THE_LEFT: ([f32; 3], [f32; 3]) = ([-500.0; 3], [-400.0; 3]);

    #[test]
    fn corners_by_the_vertex_rule() {
        let one = |x: f32| quantise([x; 3], [0.0; 3], [1.0; 3])[1];
        assert_eq!([1.9, -1.9, -0.9, 0.0].map(one), [1, -1, 0, 0]);
        assert_eq!([32767.5, -32767.5, 40000.0, -40000.0].map(one), [32767, -32767, 32767, -32767]);
        assert_eq!([f32::INFINITY, f32::NEG_INFINITY, f32::NAN].map(one), [32767, -32767, 0]);
        assert_eq!(quantise([3.0, 1.0, 7.0], [1.0, 1.0, 2.0], [0.5, f32::INFINITY, -2.0]), [1, 0, -10]);
    }

    #[test]
    fn a_node_that_misses_is_skipped_with_all_below_it() {
        let nodes =
            [(ALL, 7, 0), (LEFT, 3, 0), (LEFT, 0, 2), (LEFT, 2, 1), (RIGHT, 3, 0), (RIGHT, 3, 1), (RIGHT, 4, 1)];
        let trees = [(ALL, 0, 7)];
        assert_eq!(walk(WHOLE, &nodes, &trees, 5), ((0, 8, 5), vec![0, 1, 2, 3, 4]));
        assert_eq!(walk(ON_THE_LEFT, &nodes, &trees, 5), ((0, 6, 3), vec![0, 1, 2]));
        let nowhere = ([0.0; 3], [50.0; 3]);
        assert_eq!(walk(nowhere, &nodes, &trees, 5), ((0, 4, 0), vec![]), "the tree, the root, both halves");
    }

    #[test]
    fn boxes_meet_where_they_touch() {
        let nodes = [(([0; 3], [10; 3]), 0, 1)];
        let trees = [(([0; 3], [10; 3]), 0, 1)];
        let at = |min: f32, max: f32| walk(([min; 3], [max; 3]), &nodes, &trees, 1).0;
        assert_eq!(at(10.0, 20.0), (0, 2, 1));
        assert_eq!(at(-5.0, -0.5), (0, 2, 1), "-0.5 becomes 0");
        assert_eq!(at(11.0, 20.0), (0, 1, 0), "a tree that misses is read, its nodes are not");
        assert_eq!(at(f32::NEG_INFINITY, f32::INFINITY), (0, 2, 1));
        assert_eq!(at(f32::NAN, f32::NAN), (0, 2, 1));
        assert_eq!(at(8.0, 2.0), (0, 2, 1), "a query inside out meets what it is inside");
        assert_eq!(walk(([2.0, 2.0, 11.0], [3.0, 3.0, 12.0]), &nodes, &trees, 1).0, (0, 1, 0), "one axis is enough");
    }

    #[test]
    fn each_range_is_walked_by_its_own_record() {
        let nodes = [(ALL, 5, 0), (LEFT, 0, 1), (RIGHT, 3, 0), (RIGHT, 1, 1), (RIGHT, 2, 1)];
        let trees = [(LEFT, 1, 2), (RIGHT, 2, 5)];
        assert_eq!(walk(WHOLE, &nodes, &trees, 3), ((0, 6, 3), vec![0, 1, 2]), "node 0 is in no range");
        assert_eq!(walk(ON_THE_LEFT, &nodes, &trees, 3), ((0, 3, 1), vec![0]));
        assert_eq!(walk(WHOLE, &nodes, &[(ALL, 2, 2)], 3), ((0, 1, 0), vec![]), "an empty range");
    }

    #[test]
    fn an_inner_node_without_nodes_is_passed_by_one() {
        let nodes = [(LEFT, 0, 0), (ALL, 0, 1)];
        let right = ([200.0; 3], [300.0; 3]);
        assert_eq!(walk(right, &nodes, &[(ALL, 0, 2)], 1), ((0, 3, 1), vec![0]));
    }

    #[test]
    fn tree_ranges_are_refused() {
        let nodes = [(ALL, 0, 1)];
        for (first, last) in [(-1, 1), (1, 0), (0, 2), (0, -1), (-2, -1)] {
            let trees = [(ALL, 0, 1), (LEFT, first, last)];
            let right = ([200.0; 3], [300.0; 3]);
            assert_eq!(walk(right, &nodes, &trees, 1), ((9, 3, 1), vec![0]), "also where it misses");
        }
    }

    #[test]
    fn node_records_are_refused() {
        for (id, count) in [(0, -1), (-1, 0), (-1, 1), (2, 0), (0, 3), (1, 2), (2, 1), (32767, 1)] {
            let nodes = [(ALL, 0, 2), (LEFT, id, count)];
            let right = ([200.0; 3], [300.0; 3]);
            assert_eq!(walk(right, &nodes, &[(ALL, 0, 2)], 2), ((10, 3, 2), vec![0, 1]), "{id} {count}");
        }
        let fits = [(ALL, 0, 2), (LEFT, 1, 0)];
        assert_eq!(walk(WHOLE, &fits, &[(ALL, 0, 2)], 2).0, (0, 3, 2));
    }

    #[test]
    fn more_handed_out_than_items_are_refused() {
        let nodes = [(ALL, 0, 2), (ALL, 1, 2)];
        assert_eq!(walk(WHOLE, &nodes, &[(ALL, 0, 2)], 3), ((11, 3, 3), vec![0, 1, 1]));
        assert_eq!(walk(WHOLE, &nodes, &[(ALL, 0, 1), (ALL, 0, 1)], 3), ((11, 4, 3), vec![0, 1, 0]));
    }

    #[test]
    fn limits_and_lengths_come_before_reading() {
        let bytes = records(&[(ALL, -1, -1)]);
        let base = Walk {
            query: Aabb { min: [0.0; 3], max: [0.0; 3] },
            cen: [0.0; 3],
            inverse: [1.0; 3],
            nodes: &bytes,
            node_count: 1,
            trees: &bytes,
            tree_count: 1,
            item_count: 1,
        };
        let refused = |walk: Walk, out: usize| {
            let walked = walk.run(&mut vec![0; out]);
            assert_eq!((walked.reads, walked.handed), ((walked.refusal == 9) as usize, 0));
            walked.refusal
        };
        assert_eq!(refused(base, 1), 9);
        assert_eq!(refused(base, 0), 2);
        assert_eq!(refused(Walk { nodes: &bytes[1..], ..base }, 1), 2);
        assert_eq!(refused(Walk { trees: &bytes[1..], ..base }, 1), 2);
        assert_eq!(refused(Walk { node_count: 65_536, ..base }, 0), 1);
        assert_eq!(refused(Walk { tree_count: 65_536, ..base }, 0), 1);
        assert_eq!(refused(Walk { item_count: 65_536, ..base }, 0), 1);
        assert_eq!(refused(Walk { item_count: 65_535, ..base }, 65_534), 2);
    }
}
