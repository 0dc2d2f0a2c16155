//! A composite: the boxes of its children as bytes, and the tree over their boxes through their transforms.
//!
//! ```
//! use bounds::{Child, Composite, Mat4, Vec3};
//!
//! let at = |x: f32| {
//!     let mut transform = Mat4::identity();
//!     transform.0[12] = x; // the translation is the fourth row
//!     Child::new(Vec3::ZERO, Vec3::new(1.0, 1.0, 1.0), 0.04, transform)
//! };
//! let mut children = [0.0, 2.0, 4.0, 6.0, 8.0].map(at).to_vec();
//! let few = Composite::prepare(&children)?;
//! assert!(few.tree.is_none());
//! assert_eq!(few.child_boxes.len(), 160);
//!
//! children.push(Child::ABSENT);
//! let tree = Composite::prepare(&children)?.tree.expect("six children");
//! assert_eq!((tree.built.nodes_count, tree.built.nodes_capacity), (9, 13));
//! assert_eq!(tree.built.bb_max, Vec3::new(9.0, 1.0, 1.0));
//! # Ok::<(), bounds::Refusal>(())
//! ```

use crate::bvh::{built, cut, records_len, work_len, BuiltTree, ENTRIES};
pub use crate::types::Child;
use crate::{ffi, Mat4, Refusal, Vec3};

/// Bytes of a child's box.
///
/// ```
/// # use bounds::composite::{child_boxes, Child, CHILD_BOX};
/// assert_eq!(CHILD_BOX, 4 * (3 + 1 + 3 + 1)); // min, the word 1, max, margin
/// let mut out = [0; 2 * CHILD_BOX];
/// child_boxes(&[Child::ABSENT, Child { present: 1, margin: 0.04, ..Child::ABSENT }], &mut out)?;
/// assert_eq!(out[CHILD_BOX + 28..], 0.04f32.to_le_bytes());
/// # Ok::<(), bounds::Refusal>(())
/// ```
pub const CHILD_BOX: usize = 32;

/// A composite of more children than these has a tree.
///
/// ```
/// # use bounds::{composite::WITHOUT_TREE, Child, Composite};
/// assert!(Composite::prepare(&[Child::ABSENT; WITHOUT_TREE])?.tree.is_none());
/// assert!(Composite::prepare(&[Child::ABSENT; WITHOUT_TREE + 1])?.tree.is_some()); // absent ones count
/// # Ok::<(), bounds::Refusal>(())
/// ```
pub const WITHOUT_TREE: usize = 5;

impl Child {
    /// A child that is not there; what else it holds does not matter.
    ///
    /// ```
    /// # use bounds::{Child, Composite};
    /// let absent = Child { margin: 0.04, ..Child::ABSENT };
    /// assert_eq!(Composite::prepare(&[absent])?.child_boxes, [0; 32]);
    /// # Ok::<(), bounds::Refusal>(())
    /// ```
    pub const ABSENT: Child =
        Child { present: 0, box_min: Vec3::ZERO, box_max: Vec3::ZERO, margin: 0.0, transform: Mat4::identity() };

    /// A present child.
    ///
    /// ```
    /// # use bounds::{Child, Mat4, Vec3};
    /// let one = Vec3::new(1.0, 1.0, 1.0);
    /// let child = Child::new(-one, one, 0.5, Mat4::identity());
    /// assert_eq!(child.computed_box(), Some((-one, one))); // the margin does not widen it
    /// ```
    pub fn new(box_min: Vec3, box_max: Vec3, margin: f32, transform: Mat4) -> Child {
        Child { present: 1, box_min, box_max, margin, transform }
    }

    /// The least and the greatest of its box through its transform, if it is present. It is computed with the identity
    /// too.
    ///
    /// ```
    /// # use bounds::{Child, Mat4, Vec3};
    /// let mut up = Mat4::identity();
    /// up.0[14] = 10.0; // the translation is the fourth row
    /// let child = Child::new(Vec3::ZERO, Vec3::new(1.0, 2.0, 3.0), 0.0, up);
    /// assert_eq!(child.computed_box(), Some((Vec3::new(0.0, 0.0, 10.0), Vec3::new(1.0, 2.0, 13.0))));
    /// assert_eq!(Child::ABSENT.computed_box(), None);
    /// ```
    pub fn computed_box(&self) -> Option<(Vec3, Vec3)> {
        let answer = ffi::computed_box(ffi::child_words(std::slice::from_ref(self)), 0);
        (answer.present != 0).then_some((answer.min, answer.max))
    }
}

/// What is written of a composite: 32 bytes a child, and a tree where there are over five children.
///
/// ```
/// # use bounds::{Child, Composite, Mat4, Vec3};
/// let mut up = Mat4::identity();
/// up.0[14] = 10.0;
/// let child = Child::new(Vec3::ZERO, Vec3::new(1.0, 1.0, 1.0), 0.0, up);
/// let composite = Composite::prepare(&[child; 6])?;
/// assert_eq!(composite.child_boxes[24..28], 1.0f32.to_le_bytes()); // max z as it is given
/// assert_eq!(composite.tree.expect("six children").built.bb_max.z, 11.0); // and through the transform
/// # Ok::<(), bounds::Refusal>(())
/// ```
#[derive(Clone, Debug, PartialEq)]
pub struct Composite {
    /// Of each child min, the word 1, max and margin; 32 zeros of one that is absent.
    pub child_boxes: Vec<u8>,
    /// Over the present ones' computed boxes, at threshold 1.
    pub tree: Option<CompositeTree>,
}

/// A composite's tree, in buffers of its own.
///
/// ```
/// # use bounds::{Child, Composite};
/// let mut children = [Child { present: 1, ..Child::ABSENT }; 7];
/// children[3] = Child::ABSENT;
/// let tree = Composite::prepare(&children)?.tree.expect("seven children");
/// assert_eq!(tree.order, [0, 1, 2, 4, 5, 6]);
/// assert_eq!(tree.node_bytes.len(), 16 * tree.built.nodes_capacity as usize);
/// assert_eq!(tree.tree_bytes.len(), 16 * tree.built.trees_count as usize);
/// # Ok::<(), bounds::Refusal>(())
/// ```
#[derive(Clone, Debug, PartialEq)]
pub struct CompositeTree {
    /// Its values.
    pub built: BuiltTree,
    /// Its node records, with the padding.
    pub node_bytes: Vec<u8>,
    /// Its tree records.
    pub tree_bytes: Vec<u8>,
    /// The places of the present children, rising.
    pub order: Vec<u16>,
}

impl Composite {
    /// The boxes and the tree of these children.
    ///
    /// # Errors
    ///
    /// Refusals 1 (over 32,767 children, absent ones included) and 4 (a tree of over 32,767 nodes), in this order.
    ///
    /// ```
    /// # use bounds::{Child, Composite, Mat4, Refusal, Vec3};
    /// assert_eq!(Composite::prepare(&vec![Child::ABSENT; 32_768]), Err(Refusal::ListTooLong));
    /// let child = Child { present: 1, ..Child::ABSENT };
    /// assert_eq!(Composite::prepare(&vec![child; 16_385]), Err(Refusal::TooManyNodes));
    /// assert!(Composite::prepare(&vec![child; 16_384])?.tree.is_some());
    /// # Ok::<(), Refusal>(())
    /// ```
    pub fn prepare(children: &[Child]) -> Result<Composite, Refusal> {
        // Of what is refused by its number nothing is allocated.
        let n = if children.len() > ENTRIES { 0 } else { children.len() };
        let mut boxes = vec![0; child_boxes_len(n)];
        child_boxes(children, &mut boxes)?;
        let n = if n > WITHOUT_TREE { n } else { 0 };
        let (mut nodes, mut trees) = (vec![0; records_len(n)], vec![0; records_len(n)]);
        let (mut order, mut work) = (vec![0; n], vec![0; work_len(n)]);
        let tree = composite_tree(children, &mut nodes, &mut trees, &mut order, &mut work)?;
        let owned = |built: BuiltTree| {
            nodes.truncate(crate::bvh::RECORD * built.nodes_capacity as usize);
            trees.truncate(crate::bvh::RECORD * built.trees_count as usize);
            order.truncate(built.items_count as usize);
            CompositeTree { built, node_bytes: nodes, tree_bytes: trees, order }
        };
        Ok(Composite { child_boxes: boxes, tree: tree.map(owned) })
    }
}

/// Bytes of so many children's boxes.
///
/// ```
/// assert_eq!(bounds::composite::child_boxes_len(2), 64);
/// ```
pub fn child_boxes_len(children: usize) -> usize {
    children.saturating_mul(CHILD_BOX)
}

/// Writes [`CHILD_BOX`] bytes a child: min, the word 1, max and margin, copied as they are, or zeros where it is absent.
/// What lies behind stays as it was.
///
/// # Errors
///
/// Refusals 1 (over 32,767 children) and 2 (under [`child_boxes_len`] bytes), in this order. Neither changes a byte.
///
/// ```
/// # use bounds::{composite::*, Refusal};
/// let mut out = [7; 64];
/// let present = Child { present: 1, margin: 1.0, ..Child::ABSENT };
/// child_boxes(&[present, Child::ABSENT], &mut out)?;
/// assert_eq!((out[12], out[30], out[31]), (1, 0x80, 0x3F));
/// assert_eq!(out[32..], [0; 32]);
/// assert_eq!(child_boxes(&[present; 2], &mut out[1..]), Err(Refusal::BufferTooShort));
/// # Ok::<(), Refusal>(())
/// ```
pub fn child_boxes(children: &[Child], out: &mut [u8]) -> Result<(), Refusal> {
    Refusal::check(ffi::child_boxes(children.len(), ffi::child_words(children), out))
}

/// The tree over the children's computed boxes, as [`build_bvh`](crate::build_bvh) makes it at threshold 1, in the same
/// buffers: an entry is a child. Of at most [`WITHOUT_TREE`] children, absent ones included, there is none, and no buffer is
/// looked at.
///
/// # Errors
///
/// Refusals 1 (over 32,767 children), 2 (a buffer too short), 4 (over 32,767 nodes), in this order. They change no output
/// buffer.
///
/// ```
/// # use bounds::{bvh::{records_len, work_len}, composite::*, Refusal};
/// let children = [Child { present: 1, ..Child::ABSENT }; 6];
/// let (mut nodes, mut trees) = (vec![0; records_len(6)], vec![0; records_len(6)]);
/// let (mut order, mut work) = ([0; 6], vec![0; work_len(6)]);
/// let tree = composite_tree(&children, &mut nodes, &mut trees, &mut order, &mut work)?;
/// assert_eq!(tree.map(|tree| (tree.nodes_count, tree.items_count)), Some((11, 6)));
/// let short = composite_tree(&children, &mut nodes, &mut trees, &mut order, &mut work[1..]);
/// assert_eq!(short, Err(Refusal::BufferTooShort));
/// assert_eq!(composite_tree(&children[1..], &mut [], &mut [], &mut [], &mut []), Ok(None));
/// # Ok::<(), Refusal>(())
/// ```
pub fn composite_tree(
    children: &[Child],
    node_bytes: &mut [u8],
    tree_bytes: &mut [u8],
    order: &mut [u16],
    work: &mut [u32],
) -> Result<Option<BuiltTree>, Refusal> {
    let (n, words) = (children.len(), ffi::child_words(children));
    let answer = ffi::composite_tree(n, words, node_bytes, tree_bytes, order, cut(work, n));
    Refusal::check(answer.refusal)?;
    // A tree has a node at least.
    Ok((answer.nodes > 0).then(|| built(&answer)))
}
