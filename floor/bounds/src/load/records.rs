//! The records of a tree from their bytes, looked through.

use super::files::{float3, word};
use crate::bvh::{BuiltTree, Bvh, ENTRIES, HEADER, RECORD};
use crate::error::Damage;
use crate::records::TreeRecords;
use crate::tree::{BvhNode, BvhTree};
use crate::Error;
use std::ops::Range;

const HEADER_FILE: &str = "header.bin";
const NODES: &str = "nodes.bin";
const TREES: &str = "trees.bin";
const ORDER: &str = "order.bin";

/// The most node records of a tree: twice its entries and one.
const MOST_NODES: u32 = 2 * ENTRIES as u32 + 1;

/// The bytes of a tree's records as files hold them, by docs/FILES.md.
///
/// ```
/// # use bounds::tree::{Addresses, TreeBytes};
/// # use bounds::Tree;
/// let tree = Tree::build(&[], 1)?;
/// let header = tree.header(Addresses::default());
/// let bytes = TreeBytes { header: &header, node_bytes: &tree.node_bytes, tree_bytes: &tree.tree_bytes, order: &[] };
/// assert_eq!(Tree::read(&bytes, vec![], 1)?, tree);
/// # Ok::<(), bounds::Error>(())
/// ```
#[derive(Clone, Copy, Debug)]
pub struct TreeBytes<'a> {
    /// header.bin: 128 bytes.
    pub header: &'a [u8],
    /// nodes.bin: 16 bytes a node record, with the padding.
    pub node_bytes: &'a [u8],
    /// trees.bin: 16 bytes a tree record.
    pub tree_bytes: &'a [u8],
    /// order.bin: two bytes a place.
    pub order: &'a [u8],
}

impl Bvh {
    /// What a header's bytes hold, read as the reference's `Bvh::read` does: addresses, count and capacity of the nodes, five
    /// points without their fourth words, and the first of the two counts of trees. Any bytes will do.
    ///
    /// ```
    /// # use bounds::{bvh::{tree_header, Bvh}, Vec3};
    /// let bvh = Bvh { nodes_count: 3, nodes_capacity: 5, bb_max: Vec3::new(1.0, 2.0, 3.0), trees_count: 1, ..Bvh::default() };
    /// let mut header = [0; 128];
    /// tree_header(&mut header, &bvh)?;
    /// assert_eq!(Bvh::read(&header), bvh);
    /// # Ok::<(), bounds::Refusal>(())
    /// ```
    pub fn read(header: &[u8; HEADER]) -> Bvh {
        let long = |at: usize| (word(header, at + 4) as u64) << 32 | word(header, at) as u64;
        Bvh {
            nodes_address: long(0),
            nodes_count: word(header, 8),
            nodes_capacity: word(header, 12),
            bb_min: float3(header, 32),
            bb_max: float3(header, 48),
            bb_center: float3(header, 64),
            quantum_inverse: float3(header, 80),
            quantum: float3(header, 96),
            trees_address: long(112),
            trees_count: word(header, 120) & 0xFFFF,
        }
    }
}

impl TreeRecords {
    /// The records of these bytes, over a list of so many entries, absent ones included, built at this threshold. Everything
    /// that a walk would refuse is looked for, that each item lies in one leaf, and that each inner node counts what is below it.
    ///
    /// # Errors
    ///
    /// [`Error::Damage`], the file named as a folder has it.
    ///
    /// ```
    /// # use bounds::tree::{Addresses, TreeBytes, TreeRecords};
    /// # use bounds::{BvhItem, Tree};
    /// let tree = Tree::build(&[BvhItem { present: 1, ..BvhItem::ABSENT }; 2], 4)?;
    /// let header = tree.header(Addresses::default());
    /// let read = |order| {
    ///     TreeRecords::read(&TreeBytes { header: &header, node_bytes: &tree.node_bytes, tree_bytes: &tree.tree_bytes, order }, 2, 4)
    /// };
    /// assert_eq!(read(&[0, 0, 1, 0])?.built, *tree.built());
    /// let error = read(&[0, 0, 7, 0]).unwrap_err();
    /// assert_eq!(error.to_string(), "order.bin, byte 2: place 7; expected one below 2, the entries");
    /// # Ok::<(), bounds::Error>(())
    /// ```
    pub fn read(bytes: &TreeBytes, entries: usize, threshold: u32) -> Result<TreeRecords, Error> {
        let bvh = header(bytes.header)?;
        let (node_bytes, tree_bytes) = (bytes.node_bytes.to_vec(), bytes.tree_bytes.to_vec());
        let order = order(bytes.order, entries)?;
        let items_count = if threshold == 1 { entries } else { order.len() };
        let records = TreeRecords { built: built(&bvh, order.len()), node_bytes, tree_bytes, order, items_count };
        records.look_through(entries, threshold)?;
        Ok(records)
    }

    /// That a walk over them is not refused, that each item lies in one leaf, and that no node lets it skip another's.
    pub(crate) fn look_through(&self, entries: usize, threshold: u32) -> Result<(), Damage> {
        let BuiltTree { nodes_count, nodes_capacity, trees_count, .. } = self.built;
        at_most(12, nodes_capacity, "node records", MOST_NODES, "")?;
        at_most(8, nodes_count, "nodes", nodes_capacity, ", the records by bytes 12-15")?;
        at_most(120, trees_count, "trees", u16::MAX as u32, "")?;
        whole(NODES, &self.node_bytes, nodes_capacity as usize, "records, by bytes 12-15 of header.bin")?;
        whole(TREES, &self.tree_bytes, trees_count as usize, "records, by bytes 120-121 of header.bin")?;
        let listed = listed(&self.order, entries)?;
        let open = if threshold == 1 { listed } else { vec![true; self.order.len()] };
        if self.items_count != open.len() {
            let expected = format!("{}, as many as leaves may name", open.len());
            return Err(Damage::whole(ORDER, format!("an item count of {}", self.items_count), expected));
        }
        leaves(self, open)
    }
}

fn built(bvh: &Bvh, items: usize) -> BuiltTree {
    let &Bvh { nodes_count, nodes_capacity, trees_count, bb_min, bb_max, bb_center, quantum_inverse, quantum, .. } =
        bvh;
    let items_count = items as u32;
    BuiltTree {
        nodes_count,
        nodes_capacity,
        trees_count,
        items_count,
        bb_min,
        bb_max,
        bb_center,
        quantum_inverse,
        quantum,
    }
}

/// A header, whole. The second count of trees is not looked at, as in the reference: its list may have room for more.
fn header(bytes: &[u8]) -> Result<Bvh, Damage> {
    let whole = <&[u8; HEADER]>::try_from(bytes).map(Bvh::read);
    whole.map_err(|_| Damage::whole(HEADER_FILE, format!("{} bytes", bytes.len()), "128: a header"))
}

/// A count of the header within its limit.
fn at_most(byte: usize, count: u32, of: &str, most: u32, why: &str) -> Result<(), Damage> {
    match count > most {
        true => Err(Damage::at(HEADER_FILE, byte, format!("{count} {of}"), format!("at most {most}{why}"))),
        false => Ok(()),
    }
}

/// So many whole records.
fn whole(file: &str, bytes: &[u8], count: usize, of: &str) -> Result<(), Damage> {
    let (found, expected) = (bytes.len(), RECORD * count);
    if found == expected {
        return Ok(());
    }
    Err(Damage::whole(file, format!("{found} bytes"), format!("{expected}: {count} {of}")))
}

/// The order list: at most a place an entry.
fn order(bytes: &[u8], entries: usize) -> Result<Vec<u16>, Damage> {
    if !bytes.len().is_multiple_of(2) || bytes.len() > 2 * entries {
        let expected = format!("two a present entry, at most {}", 2 * entries);
        return Err(Damage::whole(ORDER, format!("{} bytes", bytes.len()), expected));
    }
    Ok(bytes.chunks_exact(2).map(|b| u16::from_le_bytes([b[0], b[1]])).collect())
}

/// Which entries are in the order list: each is below the entries, and none stands there twice.
fn listed(order: &[u16], entries: usize) -> Result<Vec<bool>, Damage> {
    let mut listed = vec![false; entries];
    for (k, &place) in order.iter().enumerate() {
        let wrong = |expected: String| Damage::at(ORDER, 2 * k, format!("place {place}"), expected);
        match listed.get_mut(place as usize) {
            None => return Err(wrong(format!("one below {entries}, the entries"))),
            Some(true) => return Err(wrong("one that does not stand before it".into())),
            Some(listed) => *listed = true,
        }
    }
    Ok(listed)
}

/// Nodes that lead to others or to items, ranges that rise and are each a node with all below it, leaves in ranges alone, and
/// each item that is to be held in one leaf. So a walk, which skips as many nodes as one counts, skips those below it alone.
fn leaves(records: &TreeRecords, mut held: Vec<bool>) -> Result<(), Damage> {
    let nodes: Vec<BvhNode> = records.nodes().collect();
    // From the last on: a size that is wrong is then found where it stands, before a node above it counts with it.
    (0..nodes.len()).rev().try_for_each(|at| leads(at, &nodes, records.items_count))?;
    let mut end = 0;
    for (k, tree) in records.trees().enumerate() {
        let range = range(k, &tree, end, &nodes)?;
        above(end..range.start, &nodes)?;
        end = range.end;
        range.into_iter().try_for_each(|at| hold(at, &nodes[at], &mut held))?;
    }
    above(end..nodes.len(), &nodes)?;
    match held.iter().position(|&open| open) {
        Some(item) => Err(Damage::whole(NODES, format!("item {item} in no leaf"), "each in one")),
        None => Ok(()),
    }
}

/// The nodes of a node, itself included, as its record counts them: 1 of a leaf.
fn size(node: &BvhNode) -> usize {
    match node.item_count {
        0 => node.item_id.max(1) as usize,
        _ => 1,
    }
}

/// What a walk refuses with 9, and a range that does not lie behind the one before or is not a node with all below it.
fn range(k: usize, tree: &BvhTree, end: usize, nodes: &[BvhNode]) -> Result<Range<usize>, Damage> {
    let (first, last) = (tree.node_index1, tree.node_index2);
    let begins = |expected| Err(Damage::at(TREES, RECORD * k + 12, format!("first node {first}"), expected));
    if first < end as i16 {
        return begins(format!("{end} at least"));
    }
    let Some(node) = nodes.get(first as usize) else {
        return begins(format!("one below {}, the nodes", nodes.len()));
    };
    let range = first as usize..first as usize + size(node);
    match last as usize == range.end {
        true => Ok(range),
        false => {
            let expected = format!("{}: node {first} and all below it", range.end);
            Err(Damage::at(TREES, RECORD * k + 14, format!("one past the last node {last}"), expected))
        }
    }
}

/// Nodes that are in no range, which no walk reads: they are above ranges.
fn above(mut between: Range<usize>, nodes: &[BvhNode]) -> Result<(), Damage> {
    match between.find(|&at| size(&nodes[at]) == 1) {
        Some(at) => Err(Damage::at(NODES, RECORD * at + 12, "a leaf in no range", "a node above ranges")),
        None => Ok(()),
    }
}

/// What a walk refuses with 10, a node that leads past the nodes or past the items; and a size that is not the children's.
fn leads(at: usize, nodes: &[BvhNode], items: usize) -> Result<(), Damage> {
    let (id, count, byte) = (nodes[at].item_id, nodes[at].item_count, RECORD * at);
    if count < 0 {
        return Err(Damage::at(NODES, byte + 14, format!("{count} items"), "0 at least"));
    }
    if id < 0 {
        return Err(Damage::at(NODES, byte + 12, format!("id {id}"), "0 at least"));
    }
    let (first, count) = (id as usize, count as usize);
    if count > 0 && first + count > items {
        let found = format!("a leaf of items {first} to {}", first + count - 1);
        return Err(Damage::at(NODES, byte + 12, found, format!("items below {items}")));
    }
    counts(at, nodes)
}

/// An inner node counts itself and the nodes of its two children, which stand behind it, one after the other.
fn counts(at: usize, nodes: &[BvhNode]) -> Result<(), Damage> {
    let counted = size(&nodes[at]);
    let wrong =
        |expected| Err(Damage::at(NODES, RECORD * at + 12, format!("an inner node of {counted} nodes"), expected));
    let left = nodes.len() - at;
    if counted > left {
        return wrong(format!("at most {left}, the nodes that are left"));
    }
    let with_children = || {
        let first = size(nodes.get(at + 1)?);
        Some(1 + first + size(nodes.get(at + 1 + first)?))
    };
    match with_children() {
        _ if counted == 1 => Ok(()),
        Some(size) if size == counted => Ok(()),
        Some(size) => wrong(format!("{size}: itself and those of its two children")),
        None => wrong("two children behind it".into()),
    }
}

/// Marks a leaf's items, which no leaf before it holds.
fn hold(at: usize, node: &BvhNode, open: &mut [bool]) -> Result<(), Damage> {
    let first = node.item_id as usize;
    for (item, open) in open.iter_mut().enumerate().skip(first).take(node.item_count as usize) {
        if !std::mem::take(open) {
            let expected = "items that are present and in no leaf before it";
            return Err(Damage::at(NODES, RECORD * at + 12, format!("a leaf with item {item}"), expected));
        }
    }
    Ok(())
}
