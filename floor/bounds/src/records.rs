//! The records of a tree, owned: what [`Tree`](crate::Tree), [`PreparedTree`](crate::PreparedTree) and
//! [`CompositeTree`](crate::composite::CompositeTree) have in common; and what a query over them finds.

use crate::bvh::{tree_header, BuiltTree, HEADER, RECORD};
use crate::tree::{Addresses, BvhNode, BvhTree};
use crate::walk::{walk, Counts, Records, Refused};
use crate::{Refusal, Vec3};
use std::ops::Range;

/// The records of a tree with the values and counts that belong to them. A walk over them hands out positions; the trees
/// that own them know which items these are.
///
/// ```
/// # use bounds::{tree::TreeRecords, BvhItem, Tree};
/// let tree = Tree::build(&[BvhItem::ABSENT; 3], 1)?;
/// let records: &TreeRecords = &tree;
/// assert_eq!((records.items_count, records.order.len(), records.node_bytes.len()), (3, 0, 16 * 7));
/// # Ok::<(), bounds::Refusal>(())
/// ```
#[derive(Clone, Debug, PartialEq)]
pub struct TreeRecords {
    /// Counts, the box around all, centre, inverse and quantum.
    pub built: BuiltTree,
    /// Node records with the padding, 16 bytes each.
    pub node_bytes: Vec<u8>,
    /// Tree records, 16 bytes each.
    pub tree_bytes: Vec<u8>,
    /// At threshold 1 the present places, rising; above it the places of the items leaf after leaf.
    pub order: Vec<u16>,
    /// Positions that leaves may name: the entries of the list at threshold 1, else the present items.
    pub items_count: usize,
}

impl TreeRecords {
    /// What was written into buffers for the longest tree, cut to what this one has.
    pub(crate) fn written(
        built: BuiltTree,
        mut node_bytes: Vec<u8>,
        mut tree_bytes: Vec<u8>,
        mut order: Vec<u16>,
        items_count: usize,
    ) -> TreeRecords {
        node_bytes.truncate(RECORD * built.nodes_capacity as usize);
        tree_bytes.truncate(RECORD * built.trees_count as usize);
        order.truncate(built.items_count as usize);
        TreeRecords { built, node_bytes, tree_bytes, order, items_count }
    }

    /// Its nodes in preorder, without the padding.
    ///
    /// ```
    /// # use bounds::{BvhItem, Tree, Vec3};
    /// let unit = BvhItem::new(Vec3::ZERO, Vec3::new(1.0, 1.0, 1.0));
    /// let tree = Tree::build(&[unit; 2], 1)?;
    /// assert!(tree.nodes().map(|node| (node.item_id, node.item_count)).eq([(3, 0), (0, 1), (1, 1)]));
    /// # Ok::<(), bounds::Refusal>(())
    /// ```
    pub fn nodes(&self) -> impl ExactSizeIterator<Item = BvhNode> + '_ {
        records(&self.node_bytes).take(self.built.nodes_count as usize).map(BvhNode::read)
    }

    /// Its trees: the ranges of nodes, at most 127 each.
    ///
    /// ```
    /// # use bounds::{BvhItem, Tree, Vec3};
    /// let unit = BvhItem::new(Vec3::ZERO, Vec3::new(1.0, 1.0, 1.0));
    /// let tree = Tree::build(&[unit; 65], 1)?; // 129 nodes; the root is in no range
    /// assert!(tree.trees().map(|range| (range.node_index1, range.node_index2)).eq([(1, 66), (66, 129)]));
    /// # Ok::<(), bounds::Refusal>(())
    /// ```
    pub fn trees(&self) -> impl ExactSizeIterator<Item = BvhTree> + '_ {
        records(&self.tree_bytes).map(BvhTree::read)
    }

    /// The positions that a node holds: of a leaf its items', of an inner node none. A record may be another tree's; what
    /// this one does not have is left out.
    ///
    /// ```
    /// # use bounds::{BvhItem, BvhNode, Tree};
    /// let tree = Tree::build(&[BvhItem { present: 1, ..BvhItem::ABSENT }; 3], 4)?;
    /// let leaf = tree.nodes().next().unwrap();
    /// assert_eq!(tree.positions(&leaf), 0..3);
    /// assert_eq!(tree.positions(&BvhNode { item_id: 2, item_count: 9, ..leaf }), 2..3);
    /// # Ok::<(), bounds::Refusal>(())
    /// ```
    pub fn positions(&self, node: &BvhNode) -> Range<usize> {
        let (first, count) = (node.item_id.max(0) as usize, node.item_count.max(0) as usize);
        first.min(self.items_count)..(first + count).min(self.items_count)
    }

    /// Its records as the lent form of the walk takes them.
    ///
    /// ```
    /// # use bounds::{BvhItem, Tree};
    /// let here = BvhItem { present: 1, ..BvhItem::ABSENT };
    /// let (one, four) = (Tree::build(&[BvhItem::ABSENT, here], 1)?, Tree::build(&[BvhItem::ABSENT, here], 4)?);
    /// assert_eq!((one.records().items_count, four.records().items_count), (2, 1));
    /// # Ok::<(), bounds::Refusal>(())
    /// ```
    pub fn records(&self) -> Records<'_> {
        Records {
            node_bytes: &self.node_bytes,
            nodes_count: self.built.nodes_count as usize,
            tree_bytes: &self.tree_bytes,
            trees_count: self.built.trees_count as usize,
            items_count: self.items_count,
        }
    }

    /// The 128 bytes of its header, its records being at these addresses.
    ///
    /// # Errors
    ///
    /// Of a tree that was built or loaded none; of one put together by hand refusal 1 (over 65,535 trees).
    ///
    /// ```
    /// # use bounds::{tree::Addresses, Geometry, Polygon};
    /// let mut geometry = Geometry::new(Geometry::BVH);
    /// geometry.polygons = vec![Polygon::Box { material: 0, i: [0; 4] }];
    /// let header = geometry.prepare()?.bvh.expect("a tree").header(Addresses::default())?;
    /// assert_eq!((header[8], header[120]), (1, 1)); // a node, a tree
    /// # Ok::<(), bounds::Refusal>(())
    /// ```
    pub fn header(&self, at: Addresses) -> Result<[u8; HEADER], Refusal> {
        let mut header = [0; HEADER];
        tree_header(&mut header, &self.built.bvh(at.nodes, at.trees))?;
        Ok(header)
    }

    /// The walk over them: the first `handed` of `positions` are what it hands out. `positions` grows to the item count
    /// where it is shorter, and is not cut, so that one which is used again is filled without allocating.
    ///
    /// # Errors
    ///
    /// Proved: over records that were built or prepared, none. Over those that were loaded none either: what a walk would
    /// refuse was looked for. Over others what [`walk`](mod@crate::walk) refuses.
    ///
    /// ```
    /// # use bounds::{BvhItem, Tree, Vec3};
    /// let tree = Tree::build(&[BvhItem::new(Vec3::ZERO, Vec3::new(1.0, 1.0, 1.0)); 2], 4)?;
    /// let mut positions = Vec::new();
    /// let counts = tree.walk(Vec3::ZERO, Vec3::ZERO, &mut positions)?;
    /// assert_eq!((counts.reads, &positions[..counts.handed]), (2, &[0, 1][..]));
    /// # Ok::<(), bounds::Error>(())
    /// ```
    #[inline]
    pub fn walk(&self, min: Vec3, max: Vec3, positions: &mut Vec<u16>) -> Result<Counts, Refused> {
        if positions.len() < self.items_count {
            positions.resize(self.items_count, 0);
        }
        let BuiltTree { bb_center, quantum_inverse, .. } = self.built;
        walk(min, max, bb_center, quantum_inverse, &self.records(), positions)
    }

    /// What a walk over records that were checked hands out, each position by its place, where it has one.
    #[inline]
    pub(crate) fn find<P>(&self, min: Vec3, max: Vec3, found: &mut Found<P>, place: impl Fn(u16) -> Option<P>) {
        let Found { places, reads, positions } = found;
        let counts = self.walk(min, max, positions).expect("records that were built or looked through are not refused");
        *reads = counts.reads;
        places.clear();
        places.reserve(self.items_count);
        places.extend(positions[..counts.handed].iter().filter_map(|&position| place(position)));
    }
}

/// What a query found. It is a buffer as well: one that is given to `query_into` or `candidates_into` again is filled without
/// allocating, but for the first time and for a larger tree. Each thread has its own.
///
/// ```
/// # use bounds::{tree::Found, BvhItem, Tree, Vec3};
/// let at = |x: f32| BvhItem::new(Vec3::new(x, 0.0, 0.0), Vec3::new(x + 1.0, 1.0, 1.0));
/// let tree = Tree::build(&[at(0.0), at(5.0)], 1)?;
/// let mut found = Found::default();
/// for x in [0.5, 5.5] {
///     let wheel = Vec3::new(x, 0.5, 0.5);
///     println!("{:?}", tree.query_into(wheel, wheel, &mut found));
/// }
/// assert_eq!(found.places, [1]); // of the last query
/// # Ok::<(), bounds::Refusal>(())
/// ```
#[derive(Clone, Debug)]
pub struct Found<P = usize> {
    /// The places of the items, in the order of the leaves; none twice.
    pub places: Vec<P>,
    /// Tree and node records read.
    pub reads: usize,
    positions: Vec<u16>,
}

impl<P> Default for Found<P> {
    fn default() -> Found<P> {
        Found { places: Vec::new(), reads: 0, positions: Vec::new() }
    }
}

/// By what was found: what the buffer held before does not matter.
impl<P: PartialEq> PartialEq for Found<P> {
    fn eq(&self, other: &Found<P>) -> bool {
        self.places == other.places && self.reads == other.reads
    }
}

/// Bytes as whole records.
pub(crate) fn records(bytes: &[u8]) -> impl ExactSizeIterator<Item = &[u8; RECORD]> {
    bytes.chunks_exact(RECORD).map(|record| record.try_into().expect("a chunk has a record's length"))
}
