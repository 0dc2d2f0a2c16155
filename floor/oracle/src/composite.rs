//! A composite's child boxes and the tree over them.

use crate::Refusal;
#[cfg(reference)]
use crate::{at_most, reference::blocks::bounds::inside, tree::within};
use bounds::tree::TreeRecords;
use bounds::Child;

/// The most children of a composite.
pub const LIMIT: usize = 32_767;

/// What `Composite::prepare` adds, but for flags and transforms: 32 bytes a child, and a tree above 5 children.
#[derive(Clone, Debug)]
pub struct Composite {
    pub boxes: Vec<u8>,
    pub tree: Option<TreeRecords>,
}

answers! {
    /// bounds.rs, `Composite::prepare`. Refusals 1, 4.
    fn composite(children: &[Child]) -> Result<Composite, Refusal> {
        at_most(children.len(), LIMIT)?;
        let mut made = inside::composite(children);
        made.tree = made.tree.map(within).transpose()?;
        Ok(made)
    }

    /// `Composite::prepare` alone, to be timed: each call makes flags, boxes, transforms and tree anew, and answers the
    /// number of nodes, 0 without a tree. Nothing is refused.
    fn preparer(children: &[Child]) -> Box<dyn FnMut() -> usize> { inside::preparer(children) }

    /// Its child boxes alone. Refusal 1.
    fn child_boxes(children: &[Child]) -> Result<Vec<u8>, Refusal> {
        at_most(children.len(), LIMIT)?;
        Ok(inside::composite(children).boxes)
    }
}
