//! A tree that owns its boxes and its records, so that what belongs together stays together: [`Tree`].
//!
//! The lent form ([`build_bvh`], [`walk`]) takes centre, inverse, counts and item count apart from the records that they
//! belong to, and hands out positions, which are no places of the list above threshold 1. Here none of them is passed.
//!
//! ```
//! use bounds::{BvhItem, Tree, Vec3};
//!
//! let boxes = [0.0, 2.0, 4.0].map(|x| BvhItem::new(Vec3::new(x, 0.0, 0.0), Vec3::new(x + 1.0, 1.0, 1.0)));
//! let tree = Tree::build(&boxes, 1)?;
//! assert_eq!(tree.premises(), Ok(())); // so no box that meets a query is missed
//! assert_eq!(tree.query(Vec3::new(2.5, 0.5, 0.5), Vec3::new(4.0, 0.5, 0.5)), [1, 2]);
//! # Ok::<(), bounds::Refusal>(())
//! ```

use crate::bvh::{build_bvh, records_len, tree_header, work_len, BuiltTree, BvhItem, ENTRIES, HEADER, RECORD};
use crate::premises::{ordinary, Broken};
use crate::walk::{walk, Counts, Records};
use crate::{Refusal, Vec3};

/// A node's record: a box in units of the quantum, then its item id and count.
///
/// ```
/// let bytes = [1, 0, 2, 0, 3, 0, 4, 0, 5, 0, 6, 0, 7, 0, 255, 255];
/// let node = bounds::BvhNode::read(&bytes);
/// assert_eq!(format!("{node:?}"), "BvhNode { min: [1, 2, 3], max: [4, 5, 6], item_id: 7, item_count: -1 }");
/// ```
#[derive(Clone, Copy, Debug, PartialEq, Eq, Hash)]
pub struct BvhNode {
    /// Least x, y, z.
    pub min: [i16; 3],
    /// Greatest x, y, z.
    pub max: [i16; 3],
    /// Of a leaf its first position; of an inner node its number of nodes, itself included.
    pub item_id: i16,
    /// Of a leaf its items; 0 of an inner node.
    pub item_count: i16,
}

/// A tree's record: the box of a range of nodes, its first node and one past its last.
///
/// ```
/// let bytes = [1, 0, 2, 0, 3, 0, 4, 0, 5, 0, 6, 0, 0, 0, 3, 0];
/// let tree = bounds::BvhTree::read(&bytes);
/// assert_eq!(format!("{tree:?}"), "BvhTree { min: [1, 2, 3], max: [4, 5, 6], node_index1: 0, node_index2: 3 }");
/// ```
#[derive(Clone, Copy, Debug, PartialEq, Eq, Hash)]
pub struct BvhTree {
    /// Least x, y, z.
    pub min: [i16; 3],
    /// Greatest x, y, z.
    pub max: [i16; 3],
    /// The first node.
    pub node_index1: i16,
    /// One past the last.
    pub node_index2: i16,
}

impl BvhNode {
    /// The node of a record's bytes.
    ///
    /// ```
    /// # use bounds::BvhNode;
    /// assert_eq!(BvhNode::read(&[0; 16]).item_count, 0);
    /// ```
    pub fn read(record: &[u8; RECORD]) -> BvhNode {
        let [min, max, [item_id, item_count, _]] = shorts(record);
        BvhNode { min, max, item_id, item_count }
    }
}

impl BvhTree {
    /// The tree of a record's bytes.
    ///
    /// ```
    /// # use bounds::BvhTree;
    /// assert_eq!(BvhTree::read(&[0; 16]).node_index2, 0);
    /// ```
    pub fn read(record: &[u8; RECORD]) -> BvhTree {
        let [min, max, [node_index1, node_index2, _]] = shorts(record);
        BvhTree { min, max, node_index1, node_index2 }
    }
}

/// The eight numbers of a record in threes, and a 0.
fn shorts(record: &[u8; RECORD]) -> [[i16; 3]; 3] {
    let short = |k: usize| record.get(2 * k..2 * k + 2).map_or(0, |b| i16::from_le_bytes([b[0], b[1]]));
    [0, 3, 6].map(|k| [short(k), short(k + 1), short(k + 2)])
}

/// Where a tree's records will lie: what its header says of them.
///
/// ```
/// let at = bounds::tree::Addresses { nodes: 0x5000_0080, trees: 0x5000_0100 };
/// let header = bounds::Tree::build(&[], 1)?.header(at);
/// assert_eq!((header[0], header[3], header[113]), (0x80, 0x50, 0x01));
/// # Ok::<(), bounds::Refusal>(())
/// ```
#[derive(Clone, Copy, Debug, Default, PartialEq, Eq, Hash)]
pub struct Addresses {
    /// Of the node records.
    pub nodes: u64,
    /// Of the tree records.
    pub trees: u64,
}

/// What the records alone say of a query.
///
/// ```
/// # use bounds::{BvhItem, Tree, Vec3};
/// let unit = BvhItem::new(Vec3::ZERO, Vec3::new(1.0, 1.0, 1.0));
/// let found = Tree::build(&[unit], 1)?.candidates(Vec3::ZERO, Vec3::ZERO);
/// assert_eq!((found.places, found.reads), (vec![0], 2)); // a tree record and a node record
/// # Ok::<(), bounds::Refusal>(())
/// ```
#[derive(Clone, Debug, Default, PartialEq, Eq)]
pub struct Candidates {
    /// Places in the list of the items whose leaf's record meets the query, in the order of the leaves; none twice.
    pub places: Vec<usize>,
    /// Tree and node records read.
    pub reads: usize,
}

/// A tree over a list of boxes, with the list and every record.
///
/// ```
/// # use bounds::{BvhItem, Tree, Vec3};
/// let unit = BvhItem::new(Vec3::ZERO, Vec3::new(1.0, 1.0, 1.0));
/// let tree = Tree::build(&[unit, BvhItem::ABSENT, unit], 4)?;
/// assert_eq!((tree.items().len(), tree.threshold(), tree.order()), (3, 4, &[0, 2][..]));
/// # Ok::<(), bounds::Refusal>(())
/// ```
#[derive(Clone, Debug, PartialEq)]
pub struct Tree {
    items: Vec<BvhItem>,
    threshold: u32,
    built: BuiltTree,
    node_bytes: Vec<u8>,
    tree_bytes: Vec<u8>,
    order: Vec<u16>,
}

impl Tree {
    /// The tree of the present entries, of which a leaf holds at most `threshold`.
    ///
    /// # Errors
    ///
    /// Refusals 1 (over 32,767 entries, absent ones included), 3 (a threshold outside 1 to 32,767) and 4 (over 32,767
    /// nodes), looked for in this order.
    ///
    /// ```
    /// # use bounds::{BvhItem, Refusal, Tree, Vec3};
    /// let unit = BvhItem::new(Vec3::ZERO, Vec3::new(1.0, 1.0, 1.0));
    /// assert_eq!(Tree::build(&[unit; 64], 1)?.built().nodes_count, 127);
    /// assert_eq!(Tree::build(&[unit], 0), Err(Refusal::Threshold));
    /// assert_eq!(Tree::build(&vec![unit; 16_385], 1), Err(Refusal::TooManyNodes));
    /// assert_eq!(Tree::build(&vec![unit; 32_768], 1), Err(Refusal::ListTooLong));
    /// # Ok::<(), Refusal>(())
    /// ```
    pub fn build(items: &[BvhItem], threshold: u32) -> Result<Tree, Refusal> {
        // Of what is refused by its number nothing is allocated.
        let n = if items.len() > ENTRIES { 0 } else { items.len() };
        let (mut node_bytes, mut tree_bytes) = (vec![0; records_len(n)], vec![0; records_len(n)]);
        let (mut order, mut work) = (vec![0; n], vec![0; work_len(n)]);
        let built = build_bvh(items, threshold, &mut node_bytes, &mut tree_bytes, &mut order, &mut work)?;
        node_bytes.truncate(RECORD * built.nodes_capacity as usize);
        tree_bytes.truncate(RECORD * built.trees_count as usize);
        order.truncate(built.items_count as usize);
        Ok(Tree { items: items.to_vec(), threshold, built, node_bytes, tree_bytes, order })
    }

    /// The places in the list of the present items whose box meets the box from `min` to `max`, both as floats: those of
    /// [`Tree::candidates`] that do. Corners may be infinite; a query with a NaN meets nothing.
    ///
    /// Where [`Tree::premises`] holds these are all that meet it; where it does not, some can be missing.
    ///
    /// ```
    /// # use bounds::{BvhItem, Tree, Vec3};
    /// let far = BvhItem::new(Vec3::new(9.0, 0.0, 0.0), Vec3::new(9.5, 1.0, 1.0));
    /// let tree = Tree::build(&[BvhItem::ABSENT, far], 2)?;
    /// assert_eq!(tree.query(Vec3::new(f32::NEG_INFINITY, 0.0, 0.0), Vec3::new(9.0, 1.0, 1.0)), [1]);
    /// assert!(tree.query(Vec3::ZERO, Vec3::new(8.9999, 1.0, 1.0)).is_empty());
    /// # Ok::<(), bounds::Refusal>(())
    /// ```
    pub fn query(&self, min: Vec3, max: Vec3) -> Vec<usize> {
        let mut places = self.candidates(min, max).places;
        places.retain(|&place| self.items[place].meets(min, max));
        places
    }

    /// What the records hand out for the box from `min` to `max`, and how many were read: a server that compares boxes
    /// itself, or trusts the records alone, takes these. A NaN corner stands for the centre, and a corner outside the box
    /// of all for a place on its edge, so that a query that lies outside can be handed what stands there.
    ///
    /// ```
    /// # use bounds::{BvhItem, Tree, Vec3};
    /// let at = |x: f32| BvhItem::new(Vec3::new(x, 0.0, 0.0), Vec3::new(x, 0.0, 0.0));
    /// // The middle two are so near to one another that the records cannot tell them apart.
    /// let tree = Tree::build(&[at(0.0), at(50.0), at(50.0001), at(100.0)], 1)?;
    /// let here = Vec3::new(50.0, 0.0, 0.0);
    /// assert_eq!(tree.candidates(here, here).places.len(), 2);
    /// assert_eq!(tree.query(here, here), [1]);
    /// # Ok::<(), bounds::Refusal>(())
    /// ```
    pub fn candidates(&self, min: Vec3, max: Vec3) -> Candidates {
        let records = self.records();
        let mut positions = vec![0; records.items_count];
        let BuiltTree { bb_center, quantum_inverse, .. } = self.built;
        let Counts { reads, handed } = walk(min, max, bb_center, quantum_inverse, &records, &mut positions)
            .expect("proved: a walk over a build is refused only for a short output");
        positions.truncate(handed);
        Candidates { places: positions.into_iter().map(|position| self.place(position)).collect(), reads }
    }

    /// The 128 bytes of its header, its records being at these addresses.
    ///
    /// ```
    /// # use bounds::{tree::Addresses, Tree};
    /// let header = Tree::build(&[], 1)?.header(Addresses::default());
    /// assert_eq!((header[8], header[120], header[122]), (1, 1, 1)); // a node, a tree
    /// # Ok::<(), bounds::Refusal>(())
    /// ```
    pub fn header(&self, at: Addresses) -> [u8; HEADER] {
        let mut header = [0; HEADER];
        tree_header(&mut header, &self.built.bvh(at.nodes, at.trees))
            .expect("a build has at most 32,767 trees, and the buffer its bytes");
        header
    }

    /// Whether the list meets the premises under which a query misses no item.
    ///
    /// # Errors
    ///
    /// What breaks them first.
    ///
    /// ```
    /// # use bounds::{BvhItem, Tree, Vec3};
    /// let odd = BvhItem::new(Vec3::new(0.0, f32::NAN, 0.0), Vec3::new(1.0, 1.0, 1.0));
    /// let broken = Tree::build(&[odd], 1)?.premises().unwrap_err();
    /// assert_eq!(broken.to_string(), "entry 0: min y is not finite, or above 2^100 in size");
    /// # Ok::<(), bounds::Refusal>(())
    /// ```
    pub fn premises(&self) -> Result<(), Broken> {
        ordinary(&self.items)
    }

    /// The list that it was built from.
    ///
    /// ```
    /// # use bounds::{BvhItem, Tree};
    /// assert_eq!(Tree::build(&[BvhItem::ABSENT], 1)?.items(), [BvhItem::ABSENT]);
    /// # Ok::<(), bounds::Refusal>(())
    /// ```
    pub fn items(&self) -> &[BvhItem] {
        &self.items
    }

    /// The most items of a leaf.
    ///
    /// ```
    /// assert_eq!(bounds::Tree::build(&[], 4)?.threshold(), 4);
    /// # Ok::<(), bounds::Refusal>(())
    /// ```
    pub fn threshold(&self) -> u32 {
        self.threshold
    }

    /// Its values: counts, the box around all, centre, inverse and quantum.
    ///
    /// ```
    /// # use bounds::{BvhItem, Tree, Vec3};
    /// let unit = BvhItem::new(Vec3::ZERO, Vec3::new(1.0, 1.0, 1.0));
    /// assert_eq!(Tree::build(&[unit], 1)?.built().bb_center, Vec3::new(0.5, 0.5, 0.5));
    /// # Ok::<(), bounds::Refusal>(())
    /// ```
    pub fn built(&self) -> &BuiltTree {
        &self.built
    }

    /// Its nodes in preorder, without the padding.
    ///
    /// ```
    /// # use bounds::{BvhItem, Tree, Vec3};
    /// let unit = BvhItem::new(Vec3::ZERO, Vec3::new(1.0, 1.0, 1.0));
    /// let tree = Tree::build(&[unit, unit], 1)?;
    /// assert!(tree.nodes().map(|node| (node.item_id, node.item_count)).eq([(3, 0), (0, 1), (1, 1)]));
    /// # Ok::<(), bounds::Refusal>(())
    /// ```
    pub fn nodes(&self) -> impl ExactSizeIterator<Item = BvhNode> + '_ {
        records(&self.node_bytes).take(self.built.nodes_count as usize).map(BvhNode::read)
    }

    /// Its trees: the ranges of nodes, at most 127 each.
    ///
    /// ```
    /// # use bounds::{BvhItem, Tree, Vec3};
    /// let unit = BvhItem::new(Vec3::ZERO, Vec3::new(1.0, 1.0, 1.0));
    /// let tree = Tree::build(&[unit; 65], 1)?; // 129 nodes: node 0 is in no range
    /// assert!(tree.trees().map(|range| (range.node_index1, range.node_index2)).eq([(1, 66), (66, 129)]));
    /// # Ok::<(), bounds::Refusal>(())
    /// ```
    pub fn trees(&self) -> impl ExactSizeIterator<Item = BvhTree> + '_ {
        records(&self.tree_bytes).map(BvhTree::read)
    }

    /// The places in the list of a node's items: of a leaf of this tree those that it holds, of an inner node none.
    ///
    /// ```
    /// # use bounds::{BvhItem, Tree, Vec3};
    /// let unit = BvhItem::new(Vec3::ZERO, Vec3::new(1.0, 1.0, 1.0));
    /// let tree = Tree::build(&[BvhItem::ABSENT, unit, unit], 2)?;
    /// assert_eq!(tree.held(&tree.nodes().next().unwrap()), [1, 2]);
    /// # Ok::<(), bounds::Refusal>(())
    /// ```
    pub fn held(&self, node: &BvhNode) -> Vec<usize> {
        let (first, count) = (node.item_id.max(0) as usize, node.item_count.max(0) as usize);
        let positions = first..(first + count).min(self.records().items_count); // a record may be another tree's
        positions.map(|position| self.place(position as u16)).collect()
    }

    /// Its node records with the padding, 16 bytes each.
    ///
    /// ```
    /// assert_eq!(bounds::Tree::build(&[], 1)?.node_bytes().len(), 16);
    /// # Ok::<(), bounds::Refusal>(())
    /// ```
    pub fn node_bytes(&self) -> &[u8] {
        &self.node_bytes
    }

    /// Its tree records, 16 bytes each.
    ///
    /// ```
    /// assert_eq!(bounds::Tree::build(&[], 1)?.tree_bytes().len(), 16);
    /// # Ok::<(), bounds::Refusal>(())
    /// ```
    pub fn tree_bytes(&self) -> &[u8] {
        &self.tree_bytes
    }

    /// The order list: at threshold 1 the present places, rising; above it the places of the items leaf after leaf.
    ///
    /// ```
    /// # use bounds::{BvhItem, Tree};
    /// let here = BvhItem { present: 1, ..BvhItem::ABSENT };
    /// assert_eq!(Tree::build(&[BvhItem::ABSENT, here], 1)?.order(), [1]);
    /// # Ok::<(), bounds::Refusal>(())
    /// ```
    pub fn order(&self) -> &[u16] {
        &self.order
    }

    /// Its records as the lent form of the walk takes them.
    ///
    /// ```
    /// # use bounds::{BvhItem, Tree};
    /// let here = BvhItem { present: 1, ..BvhItem::ABSENT };
    /// let (one, four) = (Tree::build(&[BvhItem::ABSENT, here], 1)?, Tree::build(&[BvhItem::ABSENT, here], 4)?);
    /// assert_eq!((one.records().items_count, four.records().items_count), (2, 1));
    /// # Ok::<(), bounds::Refusal>(())
    /// ```
    pub fn records(&self) -> Records<'_> {
        let items_count = if self.threshold == 1 { self.items.len() } else { self.order.len() };
        Records {
            node_bytes: &self.node_bytes,
            nodes_count: self.built.nodes_count as usize,
            tree_bytes: &self.tree_bytes,
            trees_count: self.built.trees_count as usize,
            items_count,
        }
    }

    /// The place of the item at a position: at threshold 1 they are the same.
    fn place(&self, position: u16) -> usize {
        if self.threshold == 1 {
            position as usize
        } else {
            self.order[position as usize] as usize
        }
    }
}

/// Bytes as whole records.
pub(crate) fn records(bytes: &[u8]) -> impl ExactSizeIterator<Item = &[u8; RECORD]> {
    bytes.chunks_exact(RECORD).map(|record| record.try_into().expect("a chunk has a record's length"))
}
