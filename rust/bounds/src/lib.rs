//! Collision-bound preparation, proved in Rattle: the safe Rust interface.
//!
//! Names and types are those of the source that was ported (rage-formats). Every function calls the proved library
//! (`libbounds.a`, `libbounds_prepare.a`); ffi.rs is the one file with unsafe code, and nothing here computes by itself but
//! [`BvhItem::meets`], which compares two boxes; of a polygon it is chosen here which numbers its box is made of.
//!
//! - [`float`]: one float step each, on values and on words (a float's 32 bits).
//! - [`math`]: points, boxes and transforms.
//! - [`tree`]: a tree with its boxes and records, to be queried: the form to begin with.
//! - [`bvh`]: the tree over a list of boxes, and its header, in lent buffers.
//! - [`composite`]: a composite's children, their boxes and the tree over them.
//! - [`geometry`]: polygons, their links and materials, stored vertices.
//! - [`octants`]: the vertices of a geometry that no other one shadows, in eight directions.
//! - [`shrink`]: the vertices of a geometry moved inwards by its margin.
//! - [`prepare`](mod@prepare): from a mesh to all that a file holds of it.
//! - [`premises`]: whether a list meets what the walk's promise asks.
//! - [`walk`](mod@walk): the walk over a tree's records.
//! - [`refusal`]: what an operation turns down, by its number and in words.
#![deny(unsafe_code)]
#![warn(missing_docs)]

pub mod bvh;
pub mod composite;
mod ffi;
pub mod float;
pub mod geometry;
pub mod math;
pub mod octants;
pub mod premises;
pub mod prepare;
mod prepared;
pub mod refusal;
pub mod shrink;
pub mod tree;
mod types;
pub mod walk;

pub use bvh::{build_bvh, tree_header, BuiltTree, Bvh, BvhItem};
pub use composite::{Child, Composite};
pub use geometry::{build_materials, polygon_items, update_edge_indices, BoundMaterial, BoundVertex, Polygon};
pub use math::{Mat4, Vec3, Vec4};
pub use octants::{calculate_octants, Octants};
pub use premises::ordinary;
pub use prepare::{Geometry, Prepared};
pub use refusal::Refusal;
pub use shrink::{calculate_verts_shrunk, ShrinkBound, Shrunk, ShrunkBy};
pub use tree::{BvhNode, BvhTree, Tree};
