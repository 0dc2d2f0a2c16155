//! Rules W1 to W9: the walk, written from the scope document's section of that name alone. It is what the proved walk is
//! compared with, since the reference has none; and each record that it reads can be told.

use crate::points::{point, Point};
use bounds::premises::Axis;
use bounds::walk::Records;
use bounds::{BvhItem, Vec3};

/// What a walk is given.
#[derive(Clone, Copy, Debug)]
pub struct Walk<'a> {
    pub min: Vec3,
    pub max: Vec3,
    pub cen: Vec3,
    pub inverse: Vec3,
    /// Node records, of which there may be fewer than bytes for them.
    pub records: Records<'a>,
}

/// The refusal's number (0 for none), records read and positions handed out.
#[derive(Clone, Copy, Debug, Default, PartialEq, Eq)]
pub struct Walked {
    pub refusal: u32,
    pub reads: usize,
    pub handed: usize,
}

/// Most nodes, trees and items (W9).
const LIMIT: usize = 65_535;

/// A box in units of the quantum.
#[derive(Clone, Copy, Debug, PartialEq, Eq)]
pub struct Span {
    pub min: [i16; 3],
    pub max: [i16; 3],
}

/// A node or tree record: a box, and two numbers.
#[derive(Clone, Copy, Debug, PartialEq, Eq)]
pub struct Record {
    pub span: Span,
    pub first: i32,
    pub second: i32,
}

/// Why a record misses: the first axis on which one's least is above the other's greatest.
#[derive(Clone, Copy, Debug, PartialEq, Eq)]
pub struct Miss {
    pub axis: Axis,
    /// The record's min is above the query's max; else its max is below the query's min.
    pub record_above: bool,
    pub record: i16,
    pub query: i16,
}

/// A record that was read and not refused.
#[derive(Clone, Copy, Debug, PartialEq, Eq)]
pub enum Reading {
    Tree {
        tree: usize,
        miss: Option<Miss>,
    },
    /// Where a count-0 node misses, `passes` further nodes are not read; a leaf that meets hands out `hands` positions.
    Node {
        node: usize,
        miss: Option<Miss>,
        passes: usize,
        hands: usize,
    },
}

impl Record {
    /// The record at this place; its bytes are there.
    pub fn read(bytes: &[u8], at: usize) -> Record {
        let bytes = &bytes[16 * at..][..16];
        let short = |i: usize| i16::from_le_bytes([bytes[2 * i], bytes[2 * i + 1]]);
        let span = Span { min: [short(0), short(1), short(2)], max: [short(3), short(4), short(5)] };
        Record { span, first: short(6) as i32, second: short(7) as i32 }
    }

    /// W2.
    #[inline]
    pub fn miss(&self, query: &Span) -> Option<Miss> {
        let Span { min, max } = &self.span;
        [Axis::X, Axis::Y, Axis::Z].into_iter().find_map(|axis| {
            let k = axis as usize;
            if min[k] > query.max[k] {
                Some(Miss { axis, record_above: true, record: min[k], query: query.max[k] })
            } else if query.min[k] > max[k] {
                Some(Miss { axis, record_above: false, record: max[k], query: query.min[k] })
            } else {
                None
            }
        })
    }
}

impl Reading {
    /// Why it misses, where it does.
    pub fn miss(&self) -> Option<Miss> {
        match *self {
            Reading::Tree { miss, .. } | Reading::Node { miss, .. } => miss,
        }
    }
}

/// W2 on floats: whether the box of an item meets a query.
pub fn meets(item: &BvhItem, min: Vec3, max: Vec3) -> bool {
    let [low, high, min, max] = [item.min, item.max, min, max].map(point);
    (0..3).all(|axis| low[axis] <= max[axis] && min[axis] <= high[axis])
}

/// W1: of (v - cen) * inverse a NaN to 0, clamped to 32,767 either way, truncated.
pub fn query_value(x: f32) -> i16 {
    if x.is_nan() {
        0
    } else if x >= 32_767.0 {
        32_767
    } else if x <= -32_767.0 {
        -32_767
    } else {
        x.trunc() as i16
    }
}

/// W1 on each axis.
pub fn quantise(v: Vec3, cen: Vec3, inverse: Vec3) -> [i16; 3] {
    let [v, cen, inverse]: [Point; 3] = [v, cen, inverse].map(point);
    std::array::from_fn(|axis| query_value((v[axis] - cen[axis]) * inverse[axis]))
}

impl Walk<'_> {
    /// The query in units of the records (W1).
    pub fn span(&self) -> Span {
        Span { min: quantise(self.min, self.cen, self.inverse), max: quantise(self.max, self.cen, self.inverse) }
    }

    /// Walks; `out` holds the positions that were handed out, and behind them what it held.
    pub fn run(&self, out: &mut [u16]) -> Walked {
        self.tell(out, |_| true)
    }

    /// Walks as [`Walk::run`] does and tells each reading, for as long as it is answered that more are wanted.
    pub fn tell(&self, out: &mut [u16], mut more: impl FnMut(Reading) -> bool) -> Walked {
        let refused = |refusal| Walked { refusal, ..Walked::default() };
        let Records { node_bytes, nodes_count, tree_bytes, trees_count, items_count } = self.records;
        if nodes_count > LIMIT || trees_count > LIMIT || items_count > LIMIT {
            return refused(1);
        }
        let short = node_bytes.len() < 16 * nodes_count || tree_bytes.len() < 16 * trees_count;
        if short || out.len() < items_count {
            return refused(2);
        }
        let query = self.span();
        let mut walked = Walked::default();
        for tree in 0..trees_count {
            walked.reads += 1;
            let record = Record::read(tree_bytes, tree);
            let (first, last) = (record.first, record.second);
            // W4
            if first < 0 || last < first || last > nodes_count as i32 {
                return Walked { refusal: 9, ..walked };
            }
            let miss = record.miss(&query);
            let mut goes_on = more(Reading::Tree { tree, miss });
            if miss.is_none() && goes_on {
                (walked, goes_on) = self.range(first, last, &query, walked, out, &mut more);
            }
            if walked.refusal != 0 || !goes_on {
                return walked;
            }
        }
        walked
    }

    /// W5: the nodes from `first` up to `last`, and whether more readings are wanted.
    #[inline]
    fn range(
        &self,
        first: i32,
        last: i32,
        query: &Span,
        mut walked: Walked,
        out: &mut [u16],
        more: &mut impl FnMut(Reading) -> bool,
    ) -> (Walked, bool) {
        let items = self.records.items_count;
        let mut at = first;
        while at < last {
            walked.reads += 1;
            let node = Record::read(self.records.node_bytes, at as usize);
            let (id, count) = (node.first, node.second);
            let over = id.max(1);
            let leads_out = if count == 0 { at + over > last } else { id + count > items as i32 };
            // W6
            if count < 0 || id < 0 || leads_out {
                return (Walked { refusal: 10, ..walked }, true);
            }
            let miss = node.miss(query);
            if miss.is_none() {
                // W7
                for position in id..id + count {
                    if walked.handed == items {
                        return (Walked { refusal: 11, ..walked }, true);
                    }
                    out[walked.handed] = position as u16;
                    walked.handed += 1;
                }
            }
            let next = if count == 0 && miss.is_some() { over } else { 1 };
            let hands = if miss.is_none() { count as usize } else { 0 };
            if !more(Reading::Node { node: at as usize, miss, passes: next as usize - 1, hands }) {
                return (walked, false);
            }
            at += next;
        }
        (walked, true)
    }
}

#[cfg(test)]
mod tests {
    use super::*;
    use crate::points::vec3;

    type Numbers = ([i16; 3], [i16; 3]);

    const ALL: Numbers = ([-32767; 3], [32767; 3]);
    /// Left and right halves along x.
    const LEFT: Numbers = ([-32767; 3], [-100, 32767, 32767]);
    const RIGHT: Numbers = ([100, -32767, -32767], [32767; 3]);

    fn same(x: f32) -> Vec3 {
        vec3([x; 3])
    }

    fn records(of: &[(Numbers, i16, i16)]) -> Vec<u8> {
        let record = |&((min, max), a, b): &(Numbers, i16, i16)| {
            [min[0], min[1], min[2], max[0], max[1], max[2], a, b].map(i16::to_le_bytes).concat()
        };
        of.iter().flat_map(record).collect()
    }

    /// With a quantum of 1 around 0.
    fn walk(
        query: ([f32; 3], [f32; 3]),
        nodes: &[(Numbers, i16, i16)],
        trees: &[(Numbers, i16, i16)],
        item_count: usize,
    ) -> ((u32, usize, usize), Vec<u16>) {
        let (node_bytes, tree_bytes) = (records(nodes), records(trees));
        let walk = Walk {
            min: vec3(query.0),
            max: vec3(query.1),
            cen: same(0.0),
            inverse: same(1.0),
            records: Records {
                node_bytes: &node_bytes,
                nodes_count: nodes.len(),
                tree_bytes: &tree_bytes,
                trees_count: trees.len(),
                items_count: item_count,
            },
        };
        let mut out = vec![777; item_count + 2];
        let walked = walk.run(&mut out);
        assert!(out[walked.handed..].iter().all(|&p| p == 777), "the rest is unchanged");
        out.truncate(walked.handed);
        ((walked.refusal, walked.reads, walked.handed), out)
    }

    const WHOLE: ([f32; 3], [f32; 3]) = ([-1e9; 3], [1e9; 3]);
    const ON_THE_LEFT: ([f32; 3], [f32; 3]) = ([-500.0; 3], [-400.0; 3]);

    #[test]
    fn corners_by_the_vertex_rule() {
        let one = |x: f32| quantise(same(x), same(0.0), same(1.0))[1];
        assert_eq!([1.9, -1.9, -0.9, 0.0].map(one), [1, -1, 0, 0]);
        assert_eq!([32767.5, -32767.5, 40000.0, -40000.0].map(one), [32767, -32767, 32767, -32767]);
        assert_eq!([f32::INFINITY, f32::NEG_INFINITY, f32::NAN].map(one), [32767, -32767, 0]);
        let apart = [[3.0, 1.0, 7.0], [1.0, 1.0, 2.0], [0.5, f32::INFINITY, -2.0]].map(vec3);
        assert_eq!(quantise(apart[0], apart[1], apart[2]), [1, 0, -10]);
    }

    #[test]
    fn a_node_that_misses_is_skipped_with_all_below_it() {
        let nodes =
            [(ALL, 7, 0), (LEFT, 3, 0), (LEFT, 0, 2), (LEFT, 2, 1), (RIGHT, 3, 0), (RIGHT, 3, 1), (RIGHT, 4, 1)];
        let trees = [(ALL, 0, 7)];
        assert_eq!(walk(WHOLE, &nodes, &trees, 5), ((0, 8, 5), vec![0, 1, 2, 3, 4]));
        assert_eq!(walk(ON_THE_LEFT, &nodes, &trees, 5), ((0, 6, 3), vec![0, 1, 2]));
        let nowhere = ([0.0; 3], [50.0; 3]);
        assert_eq!(walk(nowhere, &nodes, &trees, 5), ((0, 4, 0), vec![]), "the tree, the root, both halves");
    }

    #[test]
    fn boxes_meet_where_they_touch() {
        let nodes = [(([0; 3], [10; 3]), 0, 1)];
        let trees = [(([0; 3], [10; 3]), 0, 1)];
        let at = |min: f32, max: f32| walk(([min; 3], [max; 3]), &nodes, &trees, 1).0;
        assert_eq!(at(10.0, 20.0), (0, 2, 1));
        assert_eq!(at(-5.0, -0.5), (0, 2, 1), "-0.5 becomes 0");
        assert_eq!(at(11.0, 20.0), (0, 1, 0), "a tree that misses is read, its nodes are not");
        assert_eq!(at(f32::NEG_INFINITY, f32::INFINITY), (0, 2, 1));
        assert_eq!(at(f32::NAN, f32::NAN), (0, 2, 1));
        assert_eq!(at(8.0, 2.0), (0, 2, 1), "a query inside out meets what it is inside");
        assert_eq!(walk(([2.0, 2.0, 11.0], [3.0, 3.0, 12.0]), &nodes, &trees, 1).0, (0, 1, 0), "one axis is enough");
    }

    #[test]
    fn floats_meet_where_they_touch() {
        let met = |item: (f32, f32), query: (f32, f32)| {
            let item = BvhItem { present: 1, min: same(item.0), max: same(item.1) };
            meets(&item, same(query.0), same(query.1))
        };
        let past = 1f32.next_up();
        assert!(met((0.0, 1.0), (1.0, 2.0)) && met((1.0, 2.0), (0.0, 1.0)));
        assert!(!met((0.0, 1.0), (past, 2.0)) && !met((past, 2.0), (0.0, 1.0)));
        assert!(met((0.0, 1.0), (0.75, 0.25)), "a query inside out meets what it is inside");
        let item = BvhItem { present: 1, min: same(0.0), max: same(1.0) };
        assert!(!meets(&item, vec3([f32::NAN, 0.0, 0.0]), same(1.0)));
    }

    #[test]
    fn each_range_is_walked_by_its_own_record() {
        let nodes = [(ALL, 5, 0), (LEFT, 0, 1), (RIGHT, 3, 0), (RIGHT, 1, 1), (RIGHT, 2, 1)];
        let trees = [(LEFT, 1, 2), (RIGHT, 2, 5)];
        assert_eq!(walk(WHOLE, &nodes, &trees, 3), ((0, 6, 3), vec![0, 1, 2]), "node 0 is in no range");
        assert_eq!(walk(ON_THE_LEFT, &nodes, &trees, 3), ((0, 3, 1), vec![0]));
        assert_eq!(walk(WHOLE, &nodes, &[(ALL, 2, 2)], 3), ((0, 1, 0), vec![]), "an empty range");
    }

    #[test]
    fn an_inner_node_without_nodes_is_passed_by_one() {
        let nodes = [(LEFT, 0, 0), (ALL, 0, 1)];
        let right = ([200.0; 3], [300.0; 3]);
        assert_eq!(walk(right, &nodes, &[(ALL, 0, 2)], 1), ((0, 3, 1), vec![0]));
    }

    #[test]
    fn tree_ranges_are_refused() {
        let nodes = [(ALL, 0, 1)];
        for (first, last) in [(-1, 1), (1, 0), (0, 2), (0, -1), (-2, -1)] {
            let trees = [(ALL, 0, 1), (LEFT, first, last)];
            let right = ([200.0; 3], [300.0; 3]);
            assert_eq!(walk(right, &nodes, &trees, 1), ((9, 3, 1), vec![0]), "also where it misses");
        }
    }

    #[test]
    fn node_records_are_refused() {
        for (id, count) in [(0, -1), (-1, 0), (-1, 1), (2, 0), (0, 3), (1, 2), (2, 1), (32767, 1)] {
            let nodes = [(ALL, 0, 2), (LEFT, id, count)];
            let right = ([200.0; 3], [300.0; 3]);
            assert_eq!(walk(right, &nodes, &[(ALL, 0, 2)], 2), ((10, 3, 2), vec![0, 1]), "{id} {count}");
        }
        let fits = [(ALL, 0, 2), (LEFT, 1, 0)];
        assert_eq!(walk(WHOLE, &fits, &[(ALL, 0, 2)], 2).0, (0, 3, 2));
    }

    #[test]
    fn more_handed_out_than_items_are_refused() {
        let nodes = [(ALL, 0, 2), (ALL, 1, 2)];
        assert_eq!(walk(WHOLE, &nodes, &[(ALL, 0, 2)], 3), ((11, 3, 3), vec![0, 1, 1]));
        assert_eq!(walk(WHOLE, &nodes, &[(ALL, 0, 1), (ALL, 0, 1)], 3), ((11, 4, 3), vec![0, 1, 0]));
    }

    #[test]
    fn limits_and_lengths_come_before_reading() {
        let bytes = records(&[(ALL, -1, -1)]);
        let records =
            Records { node_bytes: &bytes, nodes_count: 1, tree_bytes: &bytes, trees_count: 1, items_count: 1 };
        let base = Walk { min: same(0.0), max: same(0.0), cen: same(0.0), inverse: same(1.0), records };
        let refused = |records: Records, out: usize| {
            let walked = Walk { records, ..base }.run(&mut vec![0; out]);
            assert_eq!((walked.reads, walked.handed), ((walked.refusal == 9) as usize, 0));
            walked.refusal
        };
        assert_eq!(refused(records, 1), 9);
        assert_eq!(refused(records, 0), 2);
        assert_eq!(refused(Records { node_bytes: &bytes[1..], ..records }, 1), 2);
        assert_eq!(refused(Records { tree_bytes: &bytes[1..], ..records }, 1), 2);
        assert_eq!(refused(Records { nodes_count: 65_536, ..records }, 0), 1);
        assert_eq!(refused(Records { trees_count: 65_536, ..records }, 0), 1);
        assert_eq!(refused(Records { items_count: 65_536, ..records }, 0), 1);
        assert_eq!(refused(Records { items_count: 65_535, ..records }, 65_534), 2);
    }

    #[test]
    fn every_reading_is_told() {
        let (nodes, trees) =
            (records(&[(ALL, 3, 0), (LEFT, 0, 2), (RIGHT, 2, 1)]), records(&[(ALL, 0, 3), (RIGHT, 2, 3)]));
        let records =
            Records { node_bytes: &nodes, nodes_count: 3, tree_bytes: &trees, trees_count: 2, items_count: 3 };
        let walk = Walk { min: same(-500.0), max: same(-400.0), cen: same(0.0), inverse: same(1.0), records };
        let miss = Some(Miss { axis: Axis::X, record_above: true, record: 100, query: -400 });
        let all = [
            Reading::Tree { tree: 0, miss: None },
            Reading::Node { node: 0, miss: None, passes: 0, hands: 0 },
            Reading::Node { node: 1, miss: None, passes: 0, hands: 2 },
            Reading::Node { node: 2, miss, passes: 0, hands: 0 },
            Reading::Tree { tree: 1, miss },
        ];
        for wanted in 1..=all.len() {
            let mut told = Vec::new();
            let walked = walk.tell(&mut [0; 3], |reading| {
                told.push(reading);
                told.len() < wanted
            });
            assert_eq!((told.as_slice(), walked.reads), (&all[..wanted], wanted));
        }
    }
}
