//! A composite's child boxes and the tree over them.

#[cfg(reference)]
use crate::{at_most, reference::blocks::bounds::inside, tree};
use crate::{tree::Built, Aabb, Mat4, Refused};

/// The most children of a composite.
pub const LIMIT: usize = 32_767;

#[derive(Clone, Copy, Debug)]
pub struct Child {
    pub aabb: Aabb,
    pub margin: f32,
    pub transform: Mat4,
}

/// What `Composite::prepare` adds, but for flags and transforms: 32 bytes a child, and a tree above 5 children.
#[derive(Clone, Debug)]
pub struct Composite {
    pub boxes: Vec<u8>,
    pub tree: Option<Built>,
}

answers! {
    /// bounds.rs, `Composite::prepare`. Refusals 1, 4.
    fn composite(children: &[Option<Child>]) -> Result<Composite, Refused> {
        at_most(children.len(), LIMIT)?;
        let made = inside::composite(children);
        match &made.tree {
            Some(t) if t.nodes_count > tree::LIMIT => Err(Refused(4)),
            _ => Ok(made),
        }
    }

    /// `Composite::prepare` alone, to be timed: each call makes flags, boxes, transforms and tree anew, and answers the
    /// number of nodes, 0 without a tree. Nothing is refused.
    fn preparer(children: &[Option<Child>]) -> Box<dyn FnMut() -> usize> { inside::preparer(children) }

    /// Its child boxes alone. Refusal 1.
    fn child_boxes(children: &[Option<Child>]) -> Result<Vec<u8>, Refused> {
        at_most(children.len(), LIMIT)?;
        Ok(inside::composite(children).boxes)
    }
}
