//! The tree over a list of boxes: [`build_bvh`], and its [`tree_header`].
//!
//! ```
//! use bounds::bvh::{build_bvh, records_len, tree_header, work_len, BvhItem};
//! use bounds::Vec3;
//!
//! let left = BvhItem::new(Vec3::new(-1.0, -1.0, -1.0), Vec3::new(-0.5, 1.0, 1.0));
//! let right = BvhItem::new(Vec3::new(0.5, -1.0, -1.0), Vec3::new(1.0, 1.0, 1.0));
//! let items = [left, right];
//! let (mut nodes, mut trees) = (vec![0; records_len(2)], vec![0; records_len(2)]);
//! let (mut order, mut work) = (vec![0; 2], vec![0; work_len(2)]);
//! let built = build_bvh(&items, 1, &mut nodes, &mut trees, &mut order, &mut work)?;
//! assert_eq!((built.nodes_count, built.nodes_capacity, built.trees_count), (3, 5, 1));
//! assert_eq!(trees[12..16], [0, 0, 3, 0]); // its nodes: from 0, up to 3
//!
//! let mut header = [0; 128];
//! tree_header(&mut header, &built.bvh(0x5000_0000, 0x5000_0050))?;
//! assert_eq!(header[120..124], [1, 0, 1, 0]);
//! # Ok::<(), bounds::Refusal>(())
//! ```

use crate::ffi::{self, Words3};
pub use crate::types::BvhItem;
use crate::{Refusal, Vec3};

impl BvhItem {
    /// An entry that is not there; what its box is does not matter.
    ///
    /// ```
    /// # use bounds::{BvhItem, Tree, Vec3};
    /// let unit = BvhItem::new(Vec3::ZERO, Vec3::new(1.0, 1.0, 1.0));
    /// let odd = BvhItem { min: Vec3::new(f32::NAN, 9.0, 0.0), ..BvhItem::ABSENT };
    /// let (one, other) = (Tree::build(&[BvhItem::ABSENT, unit], 1)?, Tree::build(&[odd, unit], 1)?);
    /// assert_eq!(one.node_bytes(), other.node_bytes());
    /// assert_eq!(one.built().nodes_capacity, 2 * 2 + 1); // it takes a place of the list all the same
    /// # Ok::<(), bounds::Refusal>(())
    /// ```
    pub const ABSENT: BvhItem =
        BvhItem { present: 0, min: Vec3 { x: 0.0, y: 0.0, z: 0.0 }, max: Vec3 { x: 0.0, y: 0.0, z: 0.0 } };

    /// A present entry with this box.
    ///
    /// ```
    /// # use bounds::{ordinary, BvhItem, Vec3};
    /// let (low, high) = (Vec3::ZERO, Vec3::new(1.0, 1.0, 1.0));
    /// assert!(ordinary(&[BvhItem::new(low, high)]).is_ok());
    /// assert!(ordinary(&[BvhItem::new(high, low)]).is_err()); // the corners are not put in order
    /// ```
    pub fn new(min: Vec3, max: Vec3) -> BvhItem {
        BvhItem { present: 1, min, max }
    }

    /// Whether its box and the box from `min` to `max` meet: on each axis each least value is at most the other's greatest.
    /// They do where they touch, and never where a NaN stands.
    ///
    /// ```
    /// # use bounds::{BvhItem, Vec3};
    /// let unit = BvhItem::new(Vec3::ZERO, Vec3::new(1.0, 1.0, 1.0));
    /// assert!(unit.meets(Vec3::new(1.0, 0.0, 0.0), Vec3::new(2.0, 0.0, 0.0)));
    /// assert!(!unit.meets(Vec3::new(1.5, 0.0, 0.0), Vec3::new(2.0, 0.0, 0.0)));
    /// ```
    pub fn meets(&self, min: Vec3, max: Vec3) -> bool {
        let on = |low: f32, high: f32, least: f32, greatest: f32| low <= greatest && least <= high;
        on(self.min.x, self.max.x, min.x, max.x)
            && on(self.min.y, self.max.y, min.y, max.y)
            && on(self.min.z, self.max.z, min.z, max.z)
    }
}

/// The two corners of a box, if there is one.
impl From<Option<[Vec3; 2]>> for BvhItem {
    fn from(corners: Option<[Vec3; 2]>) -> BvhItem {
        corners.map_or(BvhItem::ABSENT, |[min, max]| BvhItem::new(min, max))
    }
}

/// The values of a tree that was built. The box is copied from the items, a NaN with its bits; the rest was computed.
///
/// ```
/// # use bounds::{BvhItem, Tree, Vec3};
/// let at = |x: f32| BvhItem::new(Vec3::new(x, 0.0, 0.0), Vec3::new(x + 1.0, 1.0, 1.0));
/// let tree = Tree::build(&[at(0.0), BvhItem::ABSENT, at(65_533.0)], 1)?;
/// let built = tree.built();
/// assert_eq!((built.items_count, built.nodes_count, built.nodes_capacity), (2, 3, 7)); // padding up to 2 · 3 + 1
/// assert_eq!((built.bb_max.x, built.bb_center.x), (65_534.0, 32_767.0));
/// assert_eq!((built.quantum.x, built.quantum_inverse.x), (1.0, 1.0)); // half the box in 32,767 parts
/// # Ok::<(), bounds::Refusal>(())
/// ```
#[derive(Clone, Copy, Debug, Default, PartialEq)]
pub struct BuiltTree {
    /// Nodes of the tree.
    pub nodes_count: u32,
    /// Node records written: with the padding at threshold 1, else as many as nodes.
    pub nodes_capacity: u32,
    /// Ranges of nodes.
    pub trees_count: u32,
    /// Entries that are present, and so places in the order list.
    pub items_count: u32,
    /// The box around all items.
    pub bb_min: Vec3,
    /// Its other corner.
    pub bb_max: Vec3,
    /// Its centre.
    pub bb_center: Vec3,
    /// What node values are multiplied by: 1 / quantum.
    pub quantum_inverse: Vec3,
    /// The unit of node values.
    pub quantum: Vec3,
}

/// What a tree's header holds.
///
/// ```
/// # use bounds::bvh::{tree_header, Bvh};
/// let mut out = [0; 128];
/// tree_header(&mut out, &Bvh { nodes_count: 3, nodes_capacity: 5, ..Bvh::default() })?;
/// assert_eq!(out[8..16], [3, 0, 0, 0, 5, 0, 0, 0]); // after the address of the nodes
/// assert_eq!(out[44..48], 0xFFC0_0000u32.to_le_bytes()); // each vector has a fourth word: here that of `bb_min`
/// # Ok::<(), bounds::Refusal>(())
/// ```
#[derive(Clone, Copy, Debug, Default, PartialEq)]
#[allow(missing_docs)]
pub struct Bvh {
    pub nodes_address: u64,
    pub nodes_count: u32,
    pub nodes_capacity: u32,
    pub bb_min: Vec3,
    pub bb_max: Vec3,
    pub bb_center: Vec3,
    pub quantum_inverse: Vec3,
    pub quantum: Vec3,
    pub trees_address: u64,
    pub trees_count: u32,
}

impl BuiltTree {
    /// The header of this tree, its node and tree records being at these addresses.
    ///
    /// ```
    /// # use bounds::{BvhItem, Tree};
    /// let tree = Tree::build(&[BvhItem::ABSENT; 2], 1)?;
    /// let nodes = 0x5000_0080;
    /// let header = tree.built().bvh(nodes, nodes + tree.node_bytes().len() as u64);
    /// assert_eq!((header.nodes_count, header.nodes_capacity), (1, 5));
    /// assert_eq!(header.trees_address, nodes + 5 * 16); // behind the padding
    /// # Ok::<(), bounds::Refusal>(())
    /// ```
    pub fn bvh(&self, nodes_address: u64, trees_address: u64) -> Bvh {
        let &BuiltTree { nodes_count, nodes_capacity, trees_count, .. } = self;
        let &BuiltTree { bb_min, bb_max, bb_center, quantum_inverse, quantum, .. } = self;
        Bvh {
            nodes_address,
            nodes_count,
            nodes_capacity,
            bb_min,
            bb_max,
            bb_center,
            quantum_inverse,
            quantum,
            trees_address,
            trees_count,
        }
    }
}

/// Most entries of a list.
///
/// ```
/// # use bounds::{bvh::ENTRIES, BvhItem, Refusal, Tree};
/// assert_eq!(ENTRIES, i16::MAX as usize); // a record's id and count are i16
/// assert!(Tree::build(&vec![BvhItem::ABSENT; ENTRIES], 1).is_ok());
/// assert_eq!(Tree::build(&vec![BvhItem::ABSENT; ENTRIES + 1], 1), Err(Refusal::ListTooLong)); // absent ones count
/// ```
pub const ENTRIES: usize = 32_767;

/// Bytes of a node or tree record.
///
/// ```
/// # use bounds::{bvh::RECORD, BvhItem, Tree};
/// assert_eq!(RECORD, 2 * (3 + 3 + 1 + 1)); // min, max, and two numbers: i16 each
/// let tree = Tree::build(&[BvhItem::ABSENT; 3], 1)?;
/// assert_eq!(tree.node_bytes().chunks_exact(RECORD).len(), 2 * 3 + 1);
/// # Ok::<(), bounds::Refusal>(())
/// ```
pub const RECORD: usize = 16;

/// Bytes of a tree's header.
///
/// ```
/// # use bounds::bvh::HEADER;
/// // Address, count, capacity and zeros; five vectors of four words; address, two counts and zeros.
/// assert_eq!(HEADER, (8 + 4 + 4 + 16) + 5 * 16 + (8 + 2 + 2 + 4));
/// ```
pub const HEADER: usize = 128;

/// Bytes of the node buffer, and of the tree buffer, for so many entries.
///
/// ```
/// assert_eq!(bounds::bvh::records_len(2), 80);
/// ```
pub fn records_len(entries: usize) -> usize {
    RECORD.saturating_mul(entries.saturating_mul(2).saturating_add(1))
}

/// Words of the work buffer for so many entries.
///
/// ```
/// assert_eq!(bounds::bvh::work_len(2), 68);
/// ```
pub fn work_len(entries: usize) -> usize {
    u32::try_from(entries).map_or(usize::MAX, |n| ffi::bounds_work_len(n) as usize)
}

/// Builds the tree of the present entries, of which a leaf holds at most `threshold`.
///
/// Written are the node records ([`RECORD`] bytes each, in preorder), the tree records, and the order list: at
/// threshold 1 the present places, rising; above it the places of the items leaf after leaf. What lies behind stays as
/// it was. The buffers need [`records_len`] bytes each, a place for each entry and [`work_len`] words; longer ones will
/// do. What the work buffer holds does not matter, nor what it holds afterwards.
///
/// # Errors
///
/// Refusals 1 (over [`ENTRIES`] entries, absent ones included), 3, 2 and 4, looked for in this order. They change no
/// output buffer.
///
/// ```
/// # use bounds::{bvh::*, Refusal};
/// let (mut records, mut trees, mut work) = ([7; 16], [7; 16], [0; 8]);
/// assert_eq!(build_bvh(&[], 0, &mut records, &mut trees, &mut [], &mut work), Err(Refusal::Threshold));
/// assert_eq!(build_bvh(&[BvhItem::ABSENT], 1, &mut records, &mut trees, &mut [], &mut work), Err(Refusal::BufferTooShort));
/// assert_eq!(records, [7; 16]);
/// let built = build_bvh(&[], 1, &mut records, &mut trees, &mut [], &mut work)?;
/// assert_eq!((built.nodes_count, built.items_count), (1, 0));
/// # Ok::<(), Refusal>(())
/// ```
pub fn build_bvh(
    items: &[BvhItem],
    threshold: u32,
    node_bytes: &mut [u8],
    tree_bytes: &mut [u8],
    order: &mut [u16],
    work: &mut [u32],
) -> Result<BuiltTree, Refusal> {
    let answer = ffi::bounds_build_bvh(items, threshold, node_bytes, tree_bytes, order, cut(work, items.len()));
    Refusal::check(answer.refusal)?;
    Ok(built(&answer))
}

/// The values of an answer that is no refusal.
pub(crate) fn built(answer: &ffi::BuildAnswer) -> BuiltTree {
    BuiltTree {
        nodes_count: answer.nodes as u32,
        nodes_capacity: answer.capacity as u32,
        trees_count: answer.trees as u32,
        items_count: answer.present as u32,
        bb_min: floats(answer.min),
        bb_max: floats(answer.max),
        bb_center: answer.scale.cen,
        quantum_inverse: answer.scale.inverse,
        quantum: answer.scale.quantum,
    }
}

/// Writes the [`HEADER`] bytes of a tree's header; what lies behind stays as it was.
///
/// Every float is copied, a NaN with its bits. Those of [`BuiltTree::bvh`] are a build's: its box is copied from the items,
/// and a NaN among the rest is one that was computed.
///
/// # Errors
///
/// Refusals 1 (over 65,535 trees) and 2 (under [`HEADER`] bytes), looked for in this order. They change no byte.
///
/// ```
/// # use bounds::{bvh::*, Refusal, Vec3};
/// let mut out = [7; 127];
/// assert_eq!(tree_header(&mut out, &Bvh { trees_count: 65_536, ..Bvh::default() }), Err(Refusal::ListTooLong));
/// assert_eq!(tree_header(&mut out, &Bvh::default()), Err(Refusal::BufferTooShort));
/// assert_eq!(out, [7; 127]);
///
/// let mut header = [0; HEADER];
/// let quantum = Vec3::new(f32::from_bits(0x7F80_0001), 0.0, 0.0); // a signalling NaN
/// tree_header(&mut header, &Bvh { quantum, ..Bvh::default() })?;
/// assert_eq!(header[96..100], 0x7F80_0001u32.to_le_bytes());
/// # Ok::<(), Refusal>(())
/// ```
pub fn tree_header(out: &mut [u8], bvh: &Bvh) -> Result<(), Refusal> {
    let header = ffi::Bvh {
        nodes_address: bvh.nodes_address,
        nodes_count: bvh.nodes_count,
        nodes_capacity: bvh.nodes_capacity,
        bb_min: bits(bvh.bb_min),
        bb_max: bits(bvh.bb_max),
        bb_center: bits(bvh.bb_center),
        quantum_inverse: bits(bvh.quantum_inverse),
        quantum: bits(bvh.quantum),
        trees_address: bvh.trees_address,
        trees_count: bvh.trees_count,
    };
    Refusal::check(ffi::bounds_tree_header(out, header))
}

/// The work buffer in six parts: entries, places, temp, stack, rows, centres. Each gets its length or what is left, and
/// the last all that is left: the library then finds a part too short where the whole is.
pub(crate) fn cut(work: &mut [u32], entries: usize) -> [&mut [u32]; 6] {
    let n = entries.min(ENTRIES);
    parts(work, [7 * n, n, n, n, 8 * (2 * n + 1), usize::MAX])
}

/// A buffer in parts of these lengths, each of which gets its length or what is left.
pub(crate) fn parts<const N: usize>(buffer: &mut [u32], lengths: [usize; N]) -> [&mut [u32]; N] {
    let mut rest = buffer;
    lengths.map(|len| {
        let whole = std::mem::take(&mut rest);
        let part;
        (part, rest) = whole.split_at_mut(len.min(whole.len()));
        part
    })
}

fn bits(v: Vec3) -> Words3 {
    Words3 { x: v.x.to_bits(), y: v.y.to_bits(), z: v.z.to_bits() }
}

fn floats(w: Words3) -> Vec3 {
    Vec3::new(f32::from_bits(w.x), f32::from_bits(w.y), f32::from_bits(w.z))
}
