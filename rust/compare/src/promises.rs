//! What a build and a walk over its records promise (point 3 of the request), by brute force: every box is compared, and
//! every record read.

use crate::walk::{quantise, Record, Span, Walk, Walked};
use oracle::{Aabb, Vec3};

/// A tree and the list that it was built of.
#[derive(Clone, Debug)]
pub struct Tree<'a> {
    pub items: &'a [Option<Aabb>],
    pub threshold: u32,
    /// The node buffer, with what lies behind the records.
    pub nodes: Vec<u8>,
    /// Without padding.
    pub node_count: usize,
    pub trees: Vec<u8>,
    pub tree_count: usize,
    /// A place for each present item.
    pub order: Vec<u16>,
    pub cen: Vec3,
    pub inverse: Vec3,
}

impl Tree<'_> {
    /// The entries at threshold 1, else the present items.
    pub fn item_count(&self) -> usize {
        if self.threshold == 1 {
            self.items.len()
        } else {
            self.order.len()
        }
    }

    /// The walk over these records.
    pub fn walk(&self, query: Aabb) -> Walk<'_> {
        Walk {
            query,
            cen: self.cen,
            inverse: self.inverse,
            nodes: &self.nodes,
            node_count: self.node_count,
            trees: &self.trees,
            tree_count: self.tree_count,
            item_count: self.item_count(),
        }
    }

    /// The place of the present item that a position stands for: itself at threshold 1, else by the order list.
    fn item_at(&self, position: usize) -> Result<usize, String> {
        let place = if self.threshold == 1 { Some(position) } else { self.order.get(position).map(|&p| p as usize) };
        place
            .filter(|&place| self.items.get(place).is_some_and(Option::is_some))
            .ok_or_else(|| format!("position {position} stands for no present item"))
    }
}

/// Which of the premises a list breaks: that all present boxes are finite with min at most max, that no coordinate
/// exceeds 2^100 in size, and that the half extent on each axis is 0 or at least 2^-100.
#[derive(Clone, Copy, Debug, PartialEq, Eq)]
pub enum Broken {
    NotANumber,
    Infinite,
    InsideOut,
    Large,
    Small,
}

/// The first premise that a list breaks, if it breaks one.
pub fn broken(items: &[Option<Aabb>]) -> Option<Broken> {
    let present = || items.iter().flatten();
    let any = |wrong: fn(f32) -> bool| present().any(|b| b.min.iter().chain(&b.max).any(|&x| wrong(x)));
    if any(f32::is_nan) {
        Some(Broken::NotANumber)
    } else if any(f32::is_infinite) {
        Some(Broken::Infinite)
    } else if present().any(|b| (0..3).any(|axis| b.min[axis] > b.max[axis])) {
        Some(Broken::InsideOut)
    } else if any(|x| x.abs() > 2f32.powi(100)) {
        Some(Broken::Large)
    } else if half_extents(present()).into_iter().any(|q| q != 0.0 && q < 2f32.powi(-100)) {
        Some(Broken::Small)
    } else {
        None
    }
}

/// q of each axis, as the source computes it.
fn half_extents<'a>(boxes: impl Iterator<Item = &'a Aabb>) -> [f32; 3] {
    let (mut min, mut max) = ([f32::MAX; 3], [f32::MIN; 3]);
    for b in boxes {
        for axis in 0..3 {
            min[axis] = if min[axis] < b.min[axis] { min[axis] } else { b.min[axis] };
            max[axis] = if max[axis] > b.max[axis] { max[axis] } else { b.max[axis] };
        }
    }
    std::array::from_fn(|axis| {
        let cen = (min[axis] + max[axis]) * 0.5;
        let (below, above) = ((min[axis] - cen).abs(), (max[axis] - cen).abs());
        if below > above {
            below
        } else {
            above
        }
    })
}

/// Whether a query has no NaN, which the premises ask of it.
pub fn without_nan(query: &Aabb) -> bool {
    !query.min.iter().chain(&query.max).any(|x| x.is_nan())
}

/// Whether two boxes meet as floats: on each axis each min is at most the other max.
pub fn meet(a: &Aabb, b: &Aabb) -> bool {
    (0..3).all(|axis| a.min[axis] <= b.max[axis] && b.min[axis] <= a.max[axis])
}

/// Most nodes of a range.
const RANGE: usize = 127;

/// For each entry the node number of its leaf, if it is present.
pub type Leaves = Vec<Option<usize>>;

/// The promises on a tree, whatever the boxes: each present item lies in exactly one leaf, no leaf has more than the
/// threshold, each leaf lies in exactly one range, no range has more than 127 nodes. `Err` with the first broken one.
pub fn well_formed(tree: &Tree) -> Result<Leaves, String> {
    let mut ranges = vec![0; tree.node_count];
    for number in 0..tree.tree_count {
        let record = Record::read(&tree.trees, number);
        let (first, last) = (record.first as usize, record.second as usize);
        if record.first < 0 || record.second < record.first || last > tree.node_count {
            return Err(format!("range {number} is {} to {}", record.first, record.second));
        }
        if last - first > RANGE {
            return Err(format!("range {number} has {} nodes", last - first));
        }
        ranges[first..last].iter_mut().for_each(|times| *times += 1);
    }
    let mut leaves = vec![None; tree.items.len()];
    for (number, times) in ranges.into_iter().enumerate() {
        let record = Record::read(&tree.nodes, number);
        let (id, count) = (record.first as usize, record.second as usize);
        // Only the leaf of a list without present items has none; it is the root.
        if count == 0 && tree.node_count > 1 {
            continue;
        }
        if times != 1 {
            return Err(format!("leaf {number} lies in {times} ranges"));
        }
        if record.first < 0 || record.second < 0 || count > tree.threshold as usize {
            return Err(format!("leaf {number} has {} items from {}", record.second, record.first));
        }
        for position in id..id + count {
            let place = tree.item_at(position)?;
            if let Some(other) = leaves[place].replace(number) {
                return Err(format!("item {place} lies in leaves {other} and {number}"));
            }
        }
    }
    match (0..leaves.len()).find(|&place| tree.items[place].is_some() && leaves[place].is_none()) {
        Some(place) => Err(format!("item {place} lies in no leaf")),
        None => Ok(leaves),
    }
}

/// What brute force found.
#[derive(Clone, Copy, Debug, Default, PartialEq, Eq)]
pub struct Found {
    /// Items whose box meets the query.
    pub met: usize,
    /// Those of them that were not handed out: none within the premises.
    pub missed: usize,
}

/// The promises on a walk over a tree that is well formed: refused only with 2, and then only for an output shorter than
/// the item count; no item twice, only present ones, none from a leaf record that misses the quantised query; reads at
/// most nodes and trees. And, with `within`, that every item that meets is handed out. `Err` with the first broken one.
pub fn delivered(
    tree: &Tree,
    leaves: &Leaves,
    query: &Aabb,
    walked: Walked,
    out: &[u16],
    within: bool,
) -> Result<Found, String> {
    let short = out.len() < tree.item_count();
    match (walked.refusal, short) {
        (2, true) if walked.reads == 0 && walked.handed == 0 => return Ok(Found::default()),
        (0, false) => {}
        _ => return Err(format!("{walked:?} with {} places for {} items", out.len(), tree.item_count())),
    }
    let most = tree.node_count + tree.tree_count;
    if walked.reads > most {
        return Err(format!("{} records were read, there are {most}", walked.reads));
    }
    let given = out.get(..walked.handed).ok_or("more handed out than there are places")?;
    let span: Span = (quantise(query.min, tree.cen, tree.inverse), quantise(query.max, tree.cen, tree.inverse));
    let mut handed = vec![false; tree.items.len()];
    for &position in given {
        let place = tree.item_at(position as usize)?;
        if std::mem::replace(&mut handed[place], true) {
            return Err(format!("item {place} was handed out twice"));
        }
        let leaf = leaves[place].ok_or("an item without a leaf")?;
        if !Record::read(&tree.nodes, leaf).meets(&span) {
            return Err(format!("item {place} was handed out, its leaf {leaf} misses"));
        }
    }
    let mut found = Found::default();
    for (place, item) in tree.items.iter().enumerate() {
        if item.as_ref().is_some_and(|b| meet(b, query)) {
            found.met += 1;
            found.missed += !handed[place] as usize;
            if within && !handed[place] {
                return Err(format!("item {place} meets the query and was not handed out"));
            }
        }
    }
    Ok(found)
}

#[cfg(test)]
mod tests {
    use super::*;

    fn at(min: f32, max: f32) -> Option<Aabb> {
        Some(Aabb { min: [min; 3], max: [max; 3] })
    }

    #[test]
    fn premises_are_told_apart() {
        let large = 2f32.powi(100);
        let points = |x: f32| broken(&[at(0.0, 0.0), at(x, x)]);
        assert_eq!(broken(&[]), None);
        assert_eq!(broken(&[None, at(-large, large), at(5.0, 5.0)]), None);
        assert_eq!(broken(&[at(-large, large.next_up())]), Some(Broken::Large));
        assert_eq!(broken(&[at(0.0, f32::INFINITY)]), Some(Broken::Infinite));
        assert_eq!(broken(&[at(0.0, 1.0), at(f32::NAN, 1.0)]), Some(Broken::NotANumber));
        assert_eq!(broken(&[at(0.0, 1.0), at(1.0, 0.5)]), Some(Broken::InsideOut));
        assert_eq!([2f32.powi(-99), 0.0, -0.0].map(points), [None; 3]);
        assert_eq!([2f32.powi(-99).next_down(), 2f32.powi(-130)].map(points), [Some(Broken::Small); 2]);
        assert!(without_nan(&Aabb { min: [f32::INFINITY; 3], max: [-1.0; 3] }));
        assert!(!without_nan(&Aabb { min: [0.0; 3], max: [0.0, 0.0, f32::NAN] }));
    }

    #[test]
    fn boxes_meet_where_they_touch() {
        let [a, b, c] = [(0.0, 1.0), (1.0, 2.0), (1f32.next_up(), 2.0)].map(|(x, y)| at(x, y).expect("a box"));
        assert!(meet(&a, &b) && meet(&b, &a));
        assert!(!meet(&a, &c) && !meet(&c, &a));
        let inside_out = Aabb { min: [0.75; 3], max: [0.25; 3] };
        assert!(meet(&a, &inside_out), "a query inside out meets what it is inside");
        assert!(!meet(&a, &Aabb { min: [f32::NAN, 0.0, 0.0], max: [1.0; 3] }));
    }

    /// Boxes 0 to 10 and, below 0, -20 to -10, with an absent entry first; a quantum of 1 around 0. As at threshold 1:
    /// a root and two leaves, in a range each.
    fn tree(items: &[Option<Aabb>]) -> Tree<'_> {
        let record = |min: i16, max: i16, a: i16, b: i16| [min, min, min, max, max, max, a, b];
        let bytes = |records: &[[i16; 8]]| records.iter().flat_map(|r| r.map(i16::to_le_bytes)).flatten().collect();
        Tree {
            items,
            threshold: 1,
            nodes: bytes(&[record(-20, 10, 3, 0), record(0, 10, 1, 1), record(-20, -10, 2, 1)]),
            node_count: 3,
            trees: bytes(&[record(0, 10, 1, 2), record(-20, -10, 2, 3)]),
            tree_count: 2,
            order: vec![1, 2],
            cen: [0.0; 3],
            inverse: [1.0; 3],
        }
    }

    fn items() -> [Option<Aabb>; 3] {
        [None, at(0.0, 10.0), at(-20.0, -10.0)]
    }

    #[test]
    fn a_tree_that_is_not_well_formed_is_found() {
        let items = items();
        let whole = tree(&items);
        assert_eq!(well_formed(&whole), Ok(vec![None, Some(1), Some(2)]));
        let wrong = |change: fn(&mut Tree)| {
            let mut tree = whole.clone();
            change(&mut tree);
            well_formed(&tree).expect_err("it is not well formed")
        };
        // Offsets: id 12, count 14 of node k at 16 k; first 12, last 14 of tree k.
        assert_eq!(wrong(|t| t.nodes[32 + 12] = 1), "item 1 lies in leaves 1 and 2");
        assert_eq!(wrong(|t| t.nodes[32 + 12] = 0), "position 0 stands for no present item");
        assert_eq!(wrong(|t| t.nodes[32 + 14] = 0), "item 2 lies in no leaf");
        assert_eq!(wrong(|t| t.nodes[16 + 14] = 2), "leaf 1 has 2 items from 1");
        assert_eq!(wrong(|t| t.trees[16 + 12] = 1), "leaf 1 lies in 2 ranges");
        assert_eq!(wrong(|t| t.trees[16 + 14] = 2), "leaf 2 lies in 0 ranges");
        assert_eq!(wrong(|t| t.trees[16 + 14] = 4), "range 1 is 2 to 4");
        let long = wrong(|t| {
            (t.node_count, t.nodes) = (130, vec![0; 16 * 130]);
            t.trees[14] = 129;
        });
        assert_eq!(long, "range 0 has 128 nodes");
    }

    #[test]
    fn above_threshold_1_positions_go_by_the_order_list() {
        let items = items();
        let mut tree = Tree { threshold: 2, ..tree(&items) };
        (tree.nodes[16 + 12], tree.nodes[32 + 12]) = (0, 1);
        assert_eq!(well_formed(&tree), Ok(vec![None, Some(1), Some(2)]));
        tree.order = vec![2, 1];
        assert_eq!(well_formed(&tree), Ok(vec![None, Some(2), Some(1)]));
        tree.order = vec![1, 1];
        assert!(well_formed(&tree).is_err());
    }

    #[test]
    fn a_broken_promise_of_a_walk_is_found() {
        let items = items();
        let tree = tree(&items);
        let leaves = well_formed(&tree).expect("well formed");
        let query = Aabb { min: [-5.0; 3], max: [3.0; 3] };
        let walk = |refusal, reads, out: &[u16], handed, within| {
            delivered(&tree, &leaves, &query, Walked { refusal, reads, handed }, out, within)
        };
        assert_eq!(walk(0, 3, &[1, 9, 9], 1, true), Ok(Found { met: 1, missed: 0 }));
        assert_eq!(walk(0, 5, &[1, 9, 9], 1, true), Ok(Found { met: 1, missed: 0 }));
        assert!(walk(0, 6, &[1, 9, 9], 1, true).is_err_and(|e| e.contains("records were read")));
        assert!(walk(0, 3, &[1, 9, 9], 0, true).is_err_and(|e| e.contains("was not handed out")));
        assert_eq!(walk(0, 3, &[1, 9, 9], 0, false), Ok(Found { met: 1, missed: 1 }));
        assert!(walk(0, 3, &[1, 1, 9], 2, true).is_err_and(|e| e.contains("twice")));
        assert!(walk(0, 3, &[1, 2, 9], 2, true).is_err_and(|e| e.contains("misses")));
        assert!(walk(0, 3, &[1, 0, 9], 2, true).is_err_and(|e| e.contains("no present item")));
        assert!(walk(0, 3, &[1, 3, 9], 2, true).is_err_and(|e| e.contains("no present item")));
        assert!(walk(0, 3, &[1, 9, 9], 4, true).is_err_and(|e| e.contains("places")));
        assert_eq!(walk(2, 0, &[9, 9], 0, true), Ok(Found::default()));
        assert!(walk(0, 3, &[1, 9], 1, true).is_err(), "a short output must be refused");
        for refusal in [2, 9, 10, 11] {
            assert!(walk(refusal, 0, &[9, 9, 9], 0, true).is_err(), "nothing else is");
        }
    }
}
