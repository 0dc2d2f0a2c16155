//! Node and tree records to walk over, and queries: whole ones, damaged ones and random bytes. None of them was built:
//! the trees are grown here, box inside box, from random numbers.

use crate::queries::EVERYWHERE;
use crate::random::Random;
use bounds::tree::TreeRecords;
use bounds::walk::Records as Lent;
use bounds::{BuiltTree, Vec3};
use oracle::Aabb;
use plain::walk::Walk;

/// What a walk is given, with buffers of its own.
#[derive(Clone, Debug)]
pub struct Case {
    pub query: Aabb,
    pub cen: Vec3,
    pub inverse: Vec3,
    pub nodes: Vec<u8>,
    pub node_count: usize,
    pub trees: Vec<u8>,
    pub tree_count: usize,
    pub item_count: usize,
    /// Places of the output.
    pub out: usize,
}

impl Case {
    pub fn walk(&self) -> Walk<'_> {
        let records = Lent {
            node_bytes: &self.nodes,
            nodes_count: self.node_count,
            tree_bytes: &self.trees,
            trees_count: self.tree_count,
            items_count: self.item_count,
        };
        Walk { min: self.query.min, max: self.query.max, cen: self.cen, inverse: self.inverse, records }
    }
}

/// Box, then the two numbers.
type Record = [i16; 8];

fn bytes(records: &[Record]) -> Vec<u8> {
    records.iter().flat_map(|r| r.map(i16::to_le_bytes)).flatten().collect()
}

/// Random cases.
pub struct Records {
    random: Random,
}

/// Numbers that damage leaves in a record.
const HARD: [i16; 12] = [0, 1, -1, 2, -2, 127, 128, 255, 256, i16::MAX - 1, i16::MAX, i16::MIN];

/// Up to this many nodes in a range.
const RANGE: usize = 127;

impl Records {
    pub fn new(seed: u64) -> Records {
        Records { random: Random::new(seed) }
    }

    pub fn case(&mut self) -> Case {
        if self.random.once_in(2_000) {
            return self.over_a_limit();
        }
        let (mut nodes, mut trees, mut items) = (Vec::new(), Vec::new(), 0);
        if self.random.once_in(4) {
            self.scattered(&mut nodes, &mut trees, &mut items);
        } else {
            for _ in 0..self.random.pick(&[0, 1, 1, 1, 2, 3, 5]) {
                let most = self.random.pick(&[1, 4, 12, 40, 200, 300]);
                let (leaves, limit) = (1 + self.random.below(most), self.random.pick(&[RANGE, RANGE, 3, 9]));
                self.tree(&mut nodes, &mut trees, &mut items, leaves, limit);
            }
            self.damage(&mut nodes, &mut trees, &mut items);
        }
        self.lent(nodes, trees, items)
    }

    /// A tree of so many leaves, undamaged: as a walk takes it, with a quantum of 1 around 0.
    pub fn whole(&mut self, leaves: usize) -> TreeRecords {
        let (mut nodes, mut trees, mut items) = (Vec::new(), Vec::new(), 0);
        self.tree(&mut nodes, &mut trees, &mut items, leaves, RANGE);
        let built = BuiltTree {
            nodes_count: nodes.len() as u32,
            trees_count: trees.len() as u32,
            quantum_inverse: Vec3::new(1.0, 1.0, 1.0),
            ..BuiltTree::default()
        };
        let (node_bytes, tree_bytes) = (bytes(&nodes), bytes(&trees));
        TreeRecords { built, node_bytes, tree_bytes, order: Vec::new(), items_count: items }
    }

    /// A tree at the end of the nodes, and its ranges: the node and all below it, or where they are over `limit`, those
    /// of its children.
    fn tree(
        &mut self,
        nodes: &mut Vec<Record>,
        trees: &mut Vec<Record>,
        items: &mut usize,
        leaves: usize,
        limit: usize,
    ) {
        let within = self.span([-32_767; 3], [32_767; 3]);
        let first = nodes.len();
        self.node(nodes, items, within, leaves);
        let (mut at, end) = (first, nodes.len());
        while at < end {
            let node = nodes[at];
            let size = if node[7] == 0 { node[6] as usize } else { 1 };
            if size > limit {
                at += 1;
            } else {
                let [a, b, c, d, e, f, ..] = node;
                trees.push([a, b, c, d, e, f, at as i16, (at + size) as i16]);
                at += size;
            }
        }
    }

    /// A node and those below it, within a box, from a budget of leaves. The depth is at most the budget.
    fn node(&mut self, nodes: &mut Vec<Record>, items: &mut usize, (min, max): ([i16; 3], [i16; 3]), leaves: usize) {
        let (at, [a, b, c], [d, e, f]) = (nodes.len(), min, max);
        if leaves == 1 {
            let count = 1 + self.random.below(4);
            nodes.push([a, b, c, d, e, f, *items as i16, count as i16]);
            *items += count;
            return;
        }
        nodes.push([a, b, c, d, e, f, 0, 0]);
        let first = 1 + self.random.below(leaves - 1);
        for part in [first, leaves - first] {
            let inside = self.span(min, max);
            self.node(nodes, items, inside, part);
        }
        nodes[at][6] = (nodes.len() - at) as i16;
    }

    /// A box inside a box.
    fn span(&mut self, min: [i16; 3], max: [i16; 3]) -> ([i16; 3], [i16; 3]) {
        let (mut low, mut high) = (min, max);
        for axis in 0..3 {
            let width = (max[axis] as i32 - min[axis] as i32).max(0) as usize;
            if self.random.once_in(2) {
                let cut = self.random.below(width + 1);
                low[axis] = (min[axis] as i32 + cut as i32 / 2) as i16;
                high[axis] = (max[axis] as i32 - (cut - cut / 2) as i32) as i16;
            }
        }
        (low, high)
    }

    /// Nodes that make no tree: any boxes, leaves over the same items, ids that lead about.
    fn scattered(&mut self, nodes: &mut Vec<Record>, trees: &mut Vec<Record>, items: &mut usize) {
        *items = self.random.below(40);
        let count = self.random.below(30);
        let wild = self.random.once_in(4);
        for at in 0..count {
            let (id, held) = if self.random.once_in(2) {
                let id = self.random.below(*items + 1);
                (id, self.random.below(*items - id + 1))
            } else {
                (self.random.below(count - at + 1), 0)
            };
            nodes.push(self.loose(wild, id, held));
        }
        for _ in 0..self.random.below(4) {
            let first = self.random.below(count + 1);
            let last = first + self.random.below(count - first + 1);
            trees.push(self.loose(wild, first, last));
        }
    }

    /// A record with a box that lies anywhere, seldom inside out.
    fn loose(&mut self, wild: bool, first: usize, second: usize) -> Record {
        let r = &mut self.random;
        let mut record: Record = std::array::from_fn(|_| if wild { r.u32() as i16 } else { r.below(41) as i16 - 20 });
        for axis in 0..3 {
            if record[axis] > record[axis + 3] && !r.once_in(8) {
                record.swap(axis, axis + 3);
            }
        }
        (record[6], record[7]) = (first as i16, second as i16);
        record
    }

    /// Now and then numbers of a record are changed, records are doubled, or there are fewer items than the leaves say.
    fn damage(&mut self, nodes: &mut Vec<Record>, trees: &mut Vec<Record>, items: &mut usize) {
        let r = &mut self.random;
        match r.below(8) {
            0 if !nodes.is_empty() => {
                let (at, field) = (r.below(nodes.len()), r.pick(&[6, 6, 7, 7, 0, 3, 5]));
                nodes[at][field] = r.pick(&HARD);
            }
            1 if !nodes.is_empty() => {
                let (at, field) = (r.below(nodes.len()), r.pick(&[6, 7]));
                nodes[at][field] = nodes[at][field].wrapping_add(r.below(7) as i16 - 3);
            }
            2 if !trees.is_empty() => {
                let (at, field) = (r.below(trees.len()), r.pick(&[6, 7]));
                trees[at][field] = r.pick(&HARD);
            }
            3 if !trees.is_empty() => {
                let again = trees[r.below(trees.len())];
                trees.push(again);
            }
            4 => *items = items.saturating_sub(r.below(4)),
            5 => nodes.extend([[0, 0, 0, 0, 0, 0, 1, 0]; 3]), // padding
            _ => {}
        }
    }

    fn lent(&mut self, nodes: Vec<Record>, trees: Vec<Record>, items: usize) -> Case {
        let (query, cen, inverse) = self.query();
        let mut case = Case {
            query,
            cen,
            inverse,
            nodes: bytes(&nodes),
            node_count: nodes.len(),
            trees: bytes(&trees),
            tree_count: trees.len(),
            item_count: items,
            out: items,
        };
        let r = &mut self.random;
        match r.below(40) {
            0 => case.nodes.truncate((16 * nodes.len()).saturating_sub(1 + r.below(20))),
            1 => case.trees.truncate((16 * trees.len()).saturating_sub(1 + r.below(20))),
            2 => case.out = items.saturating_sub(1),
            3..=9 => case.out += r.below(5),
            10 => case.nodes.push(0xFF),
            11 => case.trees.extend([0xFF; 16]),
            _ => {}
        }
        case
    }

    /// Numbers over a limit, or at it, with buffers that may be short of them.
    fn over_a_limit(&mut self) -> Case {
        let mut case = self.lent(Vec::new(), Vec::new(), 0);
        let n = self.random.pick(&[65_535, 65_536, 65_537, 1 << 32, usize::MAX]);
        match self.random.below(3) {
            0 => case.node_count = n,
            1 => case.tree_count = n,
            _ => case.item_count = n,
        }
        let enough = n.min(65_537);
        if self.random.once_in(2) {
            (case.nodes, case.out) = (vec![0; 16 * enough], enough);
            // Empty ranges, one read each.
            case.trees = vec![0; 16 * enough];
        }
        case
    }

    /// Mostly in the records' own units around 0; now and then a quantum, hard floats or no end on an axis.
    fn query(&mut self) -> (Aabb, Vec3, Vec3) {
        let r = &mut self.random;
        let reach = r.pick(&[20.0, 300.0, 33_000.0]);
        let mut at = || (2.0 * r.unit() - 1.0) * reach;
        let min: Vec3 = std::array::from_fn(|_| at()).into();
        let max = std::array::from_fn(|axis| min[axis] + at().abs()).into();
        let (mut query, mut cen, mut inverse) = (Aabb { min, max }, Vec3::ZERO, Vec3::new(1.0, 1.0, 1.0));
        match r.below(8) {
            0 | 1 => query = EVERYWHERE,
            2 => {
                let axis = r.below(3);
                (query.min[axis], query.max[axis]) = (f32::NEG_INFINITY, f32::INFINITY);
            }
            3 => {
                let corner = if r.once_in(2) { &mut query.min } else { &mut query.max };
                corner[r.below(3)] = f32::from_bits(r.hard());
            }
            4 => {
                cen = std::array::from_fn(|_| (2.0 * r.unit() - 1.0) * reach).into();
                inverse = std::array::from_fn(|_| 4.0 * r.unit()).into();
            }
            5 => {
                cen[r.below(3)] = f32::from_bits(r.hard());
                inverse[r.below(3)] = f32::from_bits(r.hard());
            }
            6 => query = Aabb { min: query.max, max: query.min },
            _ => {}
        }
        (query, cen, inverse)
    }
}

#[cfg(test)]
mod tests {
    use super::*;

    /// A hundred thousand cases reach every refusal often, and walks that hand out much.
    #[test]
    fn every_refusal_is_reached() {
        let mut records = Records::new(1);
        let mut reached = [0; 12];
        let (mut reads, mut handed) = (0, 0);
        for _ in 0..100_000 {
            let case = records.case();
            let walked = case.walk().run(&mut vec![0; case.out]);
            reached[walked.refusal as usize] += 1;
            reads += walked.reads;
            handed += walked.handed;
        }
        println!("by refusal: {reached:?}; {reads} records read, {handed} positions handed out");
        assert!(reached[0] > 40_000 && reads > 1_000_000 && handed > 200_000, "{reached:?} {reads} {handed}");
        for number in [1, 2, 9, 10, 11] {
            assert!(reached[number] > if number == 1 { 20 } else { 1_000 }, "refusal {number}: {reached:?}");
        }
    }
}
