//! What a build and a walk over its records promise (point 3 of the request), by brute force: every box is compared, and
//! every record read.

use bounds::tree::TreeRecords;
use bounds::walk::Records;
use bounds::{BuiltTree, BvhItem};
use oracle::Aabb;
use plain::walk::{meets, Record, Walk, Walked};

/// A tree and the list that it was built of. The node buffer may go on behind the records.
#[derive(Clone, Debug)]
pub struct Tree<'a> {
    pub items: &'a [BvhItem],
    pub threshold: u32,
    pub records: TreeRecords,
}

impl Tree<'_> {
    pub fn walk(&self, query: Aabb) -> Walk<'_> {
        over(&self.records, query)
    }

    /// The place of the present item that a position stands for: itself at threshold 1, else by the order list.
    fn item_at(&self, position: usize) -> Result<usize, String> {
        let place =
            if self.threshold == 1 { Some(position) } else { self.records.order.get(position).map(|&p| p as usize) };
        place
            .filter(|&place| self.items.get(place).is_some_and(|item| item.present != 0))
            .ok_or_else(|| format!("position {position} stands for no present item"))
    }
}

/// The walk of a query over these records.
pub fn over(tree: &TreeRecords, query: Aabb) -> Walk<'_> {
    let BuiltTree { bb_center: cen, quantum_inverse: inverse, .. } = tree.built;
    Walk { min: query.min, max: query.max, cen, inverse, records: tree.records() }
}

/// Whether a query has no NaN, which the premises ask of it.
pub fn without_nan(query: &Aabb) -> bool {
    !(0..3).any(|axis| query.min[axis].is_nan() || query.max[axis].is_nan())
}

/// Most nodes of a range.
const RANGE: usize = 127;

/// For each entry the node number of its leaf, if it is present.
pub type Leaves = Vec<Option<usize>>;

/// The promises on a tree, whatever the boxes: each present item lies in exactly one leaf, no leaf has more than the
/// threshold, each leaf lies in exactly one range, no range has more than 127 nodes. `Err` with the first broken one.
pub fn well_formed(tree: &Tree) -> Result<Leaves, String> {
    let Records { node_bytes, nodes_count, tree_bytes, trees_count, .. } = tree.records.records();
    let mut ranges = vec![0; nodes_count];
    for number in 0..trees_count {
        let record = Record::read(tree_bytes, number);
        let (first, last) = (record.first as usize, record.second as usize);
        if record.first < 0 || record.second < record.first || last > nodes_count {
            return Err(format!("range {number} is {} to {}", record.first, record.second));
        }
        if last - first > RANGE {
            return Err(format!("range {number} has {} nodes", last - first));
        }
        ranges[first..last].iter_mut().for_each(|times| *times += 1);
    }
    let mut leaves = vec![None; tree.items.len()];
    for (number, times) in ranges.into_iter().enumerate() {
        let record = Record::read(node_bytes, number);
        let (id, count) = (record.first as usize, record.second as usize);
        // Only the leaf of a list without present items has none; it is the root.
        if count == 0 && nodes_count > 1 {
            continue;
        }
        if times != 1 {
            return Err(format!("leaf {number} lies in {times} ranges"));
        }
        if record.first < 0 || record.second < 0 || count > tree.threshold as usize {
            return Err(format!("leaf {number} has {} items from {}", record.second, record.first));
        }
        for position in id..id + count {
            let place = tree.item_at(position)?;
            if let Some(other) = leaves[place].replace(number) {
                return Err(format!("item {place} lies in leaves {other} and {number}"));
            }
        }
    }
    match (0..leaves.len()).find(|&place| tree.items[place].present != 0 && leaves[place].is_none()) {
        Some(place) => Err(format!("item {place} lies in no leaf")),
        None => Ok(leaves),
    }
}

/// What brute force found.
#[derive(Clone, Copy, Debug, Default, PartialEq, Eq)]
pub struct Found {
    /// Items whose box meets the query.
    pub met: usize,
    /// Those of them that were not handed out: none within the premises.
    pub missed: usize,
}

/// The promises on a walk over a tree that is well formed: refused only with 2, and then only for an output shorter than
/// the item count; no item twice, only present ones, none from a leaf record that misses the quantised query; reads at
/// most nodes and trees. And, with `within`, that every item that meets is handed out. `Err` with the first broken one.
pub fn delivered(
    tree: &Tree,
    leaves: &Leaves,
    query: &Aabb,
    walked: Walked,
    out: &[u16],
    within: bool,
) -> Result<Found, String> {
    let Records { node_bytes, nodes_count, trees_count, items_count, .. } = tree.records.records();
    let short = out.len() < items_count;
    match (walked.refusal, short) {
        (2, true) if walked.reads == 0 && walked.handed == 0 => return Ok(Found::default()),
        (0, false) => {}
        _ => return Err(format!("{walked:?} with {} places for {items_count} items", out.len())),
    }
    let most = nodes_count + trees_count;
    if walked.reads > most {
        return Err(format!("{} records were read, there are {most}", walked.reads));
    }
    let given = out.get(..walked.handed).ok_or("more handed out than there are places")?;
    let span = tree.walk(*query).span();
    let mut handed = vec![false; tree.items.len()];
    for &position in given {
        let place = tree.item_at(position as usize)?;
        if std::mem::replace(&mut handed[place], true) {
            return Err(format!("item {place} was handed out twice"));
        }
        let leaf = leaves[place].ok_or("an item without a leaf")?;
        if Record::read(node_bytes, leaf).miss(&span).is_some() {
            return Err(format!("item {place} was handed out, its leaf {leaf} misses"));
        }
    }
    let mut found = Found::default();
    for (place, item) in tree.items.iter().enumerate() {
        if item.present != 0 && meets(item, query.min, query.max) {
            found.met += 1;
            found.missed += !handed[place] as usize;
            if within && !handed[place] {
                return Err(format!("item {place} meets the query and was not handed out"));
            }
        }
    }
    Ok(found)
}

#[cfg(test)]
mod tests {
    use super::*;
    use bounds::Vec3;

    fn at(min: f32, max: f32) -> BvhItem {
        BvhItem::new([min; 3].into(), [max; 3].into())
    }

    fn query(min: f32, max: f32) -> Aabb {
        Aabb { min: [min; 3].into(), max: [max; 3].into() }
    }

    #[test]
    fn a_nan_in_a_query_is_found() {
        assert!(without_nan(&query(f32::INFINITY, -1.0)));
        assert!(!without_nan(&Aabb { max: Vec3::new(0.0, 0.0, f32::NAN), ..Aabb::default() }));
    }

    /// Boxes 0 to 10 and, below 0, -20 to -10, with an absent entry first; a quantum of 1 around 0. As at threshold 1:
    /// a root and two leaves, in a range each.
    fn tree(items: &[BvhItem]) -> Tree<'_> {
        let record = |min: i16, max: i16, a: i16, b: i16| [min, min, min, max, max, max, a, b];
        let bytes = |records: &[[i16; 8]]| records.iter().flat_map(|r| r.map(i16::to_le_bytes)).flatten().collect();
        let quantum_inverse = Vec3::new(1.0, 1.0, 1.0);
        let built = BuiltTree { nodes_count: 3, trees_count: 2, quantum_inverse, ..BuiltTree::default() };
        let node_bytes = bytes(&[record(-20, 10, 3, 0), record(0, 10, 1, 1), record(-20, -10, 2, 1)]);
        let tree_bytes = bytes(&[record(0, 10, 1, 2), record(-20, -10, 2, 3)]);
        let records = TreeRecords { built, node_bytes, tree_bytes, order: vec![1, 2], items_count: 3 };
        Tree { items, threshold: 1, records }
    }

    fn items() -> [BvhItem; 3] {
        [BvhItem::ABSENT, at(0.0, 10.0), at(-20.0, -10.0)]
    }

    #[test]
    fn a_tree_that_is_not_well_formed_is_found() {
        let items = items();
        let whole = tree(&items);
        assert_eq!(well_formed(&whole), Ok(vec![None, Some(1), Some(2)]));
        let wrong = |change: fn(&mut TreeRecords)| {
            let mut tree = whole.clone();
            change(&mut tree.records);
            well_formed(&tree).expect_err("it is not well formed")
        };
        // Offsets: id 12, count 14 of node k at 16 k; first 12, last 14 of tree k.
        assert_eq!(wrong(|t| t.node_bytes[32 + 12] = 1), "item 1 lies in leaves 1 and 2");
        assert_eq!(wrong(|t| t.node_bytes[32 + 12] = 0), "position 0 stands for no present item");
        assert_eq!(wrong(|t| t.node_bytes[32 + 14] = 0), "item 2 lies in no leaf");
        assert_eq!(wrong(|t| t.node_bytes[16 + 14] = 2), "leaf 1 has 2 items from 1");
        assert_eq!(wrong(|t| t.tree_bytes[16 + 12] = 1), "leaf 1 lies in 2 ranges");
        assert_eq!(wrong(|t| t.tree_bytes[16 + 14] = 2), "leaf 2 lies in 0 ranges");
        assert_eq!(wrong(|t| t.tree_bytes[16 + 14] = 4), "range 1 is 2 to 4");
        let long = wrong(|t| {
            (t.built.nodes_count, t.node_bytes) = (130, vec![0; 16 * 130]);
            t.tree_bytes[14] = 129;
        });
        assert_eq!(long, "range 0 has 128 nodes");
    }

    #[test]
    fn above_threshold_1_positions_go_by_the_order_list() {
        let items = items();
        let mut tree = Tree { threshold: 2, ..tree(&items) };
        (tree.records.node_bytes[16 + 12], tree.records.node_bytes[32 + 12]) = (0, 1);
        tree.records.items_count = 2;
        assert_eq!(well_formed(&tree), Ok(vec![None, Some(1), Some(2)]));
        tree.records.order = vec![2, 1];
        assert_eq!(well_formed(&tree), Ok(vec![None, Some(2), Some(1)]));
        tree.records.order = vec![1, 1];
        assert!(well_formed(&tree).is_err());
    }

    #[test]
    fn a_broken_promise_of_a_walk_is_found() {
        let items = items();
        let tree = tree(&items);
        let leaves = well_formed(&tree).expect("well formed");
        let query = query(-5.0, 3.0);
        let walk = |refusal, reads, out: &[u16], handed, within| {
            delivered(&tree, &leaves, &query, Walked { refusal, reads, handed }, out, within)
        };
        assert_eq!(walk(0, 3, &[1, 9, 9], 1, true), Ok(Found { met: 1, missed: 0 }));
        assert_eq!(walk(0, 5, &[1, 9, 9], 1, true), Ok(Found { met: 1, missed: 0 }));
        assert!(walk(0, 6, &[1, 9, 9], 1, true).is_err_and(|e| e.contains("records were read")));
        assert!(walk(0, 3, &[1, 9, 9], 0, true).is_err_and(|e| e.contains("was not handed out")));
        assert_eq!(walk(0, 3, &[1, 9, 9], 0, false), Ok(Found { met: 1, missed: 1 }));
        assert!(walk(0, 3, &[1, 1, 9], 2, true).is_err_and(|e| e.contains("twice")));
        assert!(walk(0, 3, &[1, 2, 9], 2, true).is_err_and(|e| e.contains("misses")));
        assert!(walk(0, 3, &[1, 0, 9], 2, true).is_err_and(|e| e.contains("no present item")));
        assert!(walk(0, 3, &[1, 3, 9], 2, true).is_err_and(|e| e.contains("no present item")));
        assert!(walk(0, 3, &[1, 9, 9], 4, true).is_err_and(|e| e.contains("places")));
        assert_eq!(walk(2, 0, &[9, 9], 0, true), Ok(Found::default()));
        assert!(walk(0, 3, &[1, 9], 1, true).is_err(), "a short output must be refused");
        for refusal in [2, 9, 10, 11] {
            assert!(walk(refusal, 0, &[9, 9, 9], 0, true).is_err(), "nothing else is");
        }
    }
}
