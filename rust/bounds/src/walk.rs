//! The walk over a tree's records: which items' boxes a query meets.
//!
//! ```
//! use bounds::walk::{walk, Records};
//! use bounds::Vec3;
//!
//! // A range of one leaf, with the items at positions 0 and 1, in a box from 0 to 10 on each axis.
//! let record = |a: i16, b: i16| [0, 0, 0, 10, 10, 10, a, b].map(i16::to_le_bytes).concat();
//! let (nodes, trees) = (record(0, 2), record(0, 1));
//! let records = Records { node_bytes: &nodes, nodes_count: 1, tree_bytes: &trees, trees_count: 1, items_count: 2 };
//! let (center, inverse) = (Vec3::ZERO, Vec3::new(1.0, 1.0, 1.0));
//! let mut out = [0; 2];
//! let query = (Vec3::new(9.0, 9.0, 9.0), Vec3::new(20.0, 20.0, 20.0));
//! let counts = walk(query.0, query.1, center, inverse, &records, &mut out)?;
//! assert_eq!((counts.reads, counts.handed, out), (2, 2, [0, 1]));
//! # Ok::<(), bounds::walk::Refused>(())
//! ```

use crate::ffi;
pub use crate::types::Records;
use crate::{Refusal, Vec3};
use std::fmt;

/// What a walk came to.
///
/// ```
/// # use bounds::{walk::{walk, Counts}, BvhItem, Tree, Vec3};
/// let side = |x: f32| BvhItem::new(Vec3::new(x, -1.0, -1.0), Vec3::new(x + 0.5, 1.0, 1.0));
/// let tree = Tree::build(&[side(-1.0), side(0.5)], 1)?;
/// let (built, between) = (tree.built(), Vec3::ZERO);
/// let counts = walk(between, between, built.bb_center, built.quantum_inverse, &tree.records(), &mut [0; 2])?;
/// assert_eq!(counts, Counts { reads: 1 + 3, handed: 0 }); // the range and its nodes, of which the leaves miss
/// # Ok::<(), Box<dyn std::error::Error>>(())
/// ```
#[derive(Clone, Copy, Debug, Default, PartialEq, Eq)]
pub struct Counts {
    /// Tree and node records read.
    pub reads: usize,
    /// Positions handed out: those at the start of the output.
    pub handed: usize,
}

/// A walk that was refused, and how far it had come: what it had handed out is in the output.
///
/// ```
/// # use bounds::{walk::{walk, Records}, Refusal, Vec3};
/// let record = |a: i16, b: i16| [0, 0, 0, 9, 9, 9, a, b].map(i16::to_le_bytes).concat();
/// let (nodes, trees) = ([record(1, 1), record(0, -1)].concat(), record(0, 2)); // a leaf, then a count below 0
/// let records = Records { node_bytes: &nodes, nodes_count: 2, tree_bytes: &trees, trees_count: 1, items_count: 2 };
/// let (mut out, one) = ([7; 2], Vec3::new(1.0, 1.0, 1.0));
/// let refused = walk(Vec3::ZERO, one, Vec3::ZERO, one, &records, &mut out).unwrap_err();
/// assert_eq!((refused.refusal, refused.counts.reads), (Refusal::NodeRecord, 3));
/// assert_eq!((refused.counts.handed, out), (1, [1, 7])); // the leaf's item, at position 1
/// ```
#[derive(Clone, Copy, Debug, PartialEq, Eq)]
pub struct Refused {
    /// Why.
    pub refusal: Refusal,
    /// With the refused record, where one was read.
    pub counts: Counts,
}

/// ```
/// # use bounds::{walk::{Counts, Refused}, Refusal};
/// let refused = Refused { refusal: Refusal::NodeRecord, counts: Counts { reads: 3, handed: 0 } };
/// assert!(refused.to_string().starts_with("refused 10:"));
/// ```
impl fmt::Display for Refused {
    fn fmt(&self, f: &mut fmt::Formatter) -> fmt::Result {
        let Counts { reads, handed } = self.counts;
        write!(f, "{} ({reads} records read, {handed} positions handed out)", self.refusal)
    }
}

impl std::error::Error for Refused {}

/// Hands out the positions of the items in leaves whose boxes meet the query; those behind stay as they were.
///
/// Corners may be infinite; a NaN stands for the centre.
///
/// # Errors
///
/// Refusals 1 (over 65,535 nodes, trees or items) and 2 (fewer bytes than records, or an output shorter than the item
/// count) before anything is read; 9, 10 and 11 as records are read.
///
/// ```
/// # use bounds::{walk::walk, BvhItem, Refusal, Tree, Vec3};
/// let at = |x: f32| BvhItem::new(Vec3::new(x, 0.0, 0.0), Vec3::new(x + 1.0, 1.0, 1.0));
/// let tree = Tree::build(&[at(0.0), BvhItem::ABSENT, at(5.0)], 2)?;
/// let (built, far) = (tree.built(), Vec3::new(f32::INFINITY, f32::INFINITY, f32::INFINITY));
/// let all = |out: &mut [u16]| walk(-far, far, built.bb_center, built.quantum_inverse, &tree.records(), out);
/// let mut out = [0; 2];
/// assert_eq!((all(&mut out)?.handed, out), (2, [0, 1]));
/// assert_eq!(out.map(|position| tree.order()[position as usize]), [0, 2]); // positions are no places
/// assert_eq!(all(&mut []).unwrap_err().refusal, Refusal::BufferTooShort);
/// # Ok::<(), Box<dyn std::error::Error>>(())
/// ```
#[inline]
pub fn walk(
    min: Vec3,
    max: Vec3,
    bb_center: Vec3,
    quantum_inverse: Vec3,
    records: &Records,
    out: &mut [u16],
) -> Result<Counts, Refused> {
    let answer = ffi::walk(ffi::Aabb { min, max }, bb_center, quantum_inverse, records, out);
    let counts = Counts { reads: answer.reads, handed: answer.handed };
    match Refusal::check(answer.refusal) {
        Ok(()) => Ok(counts),
        Err(refusal) => Err(Refused { refusal, counts }),
    }
}
