//! The rules of docs/RULES.md in plain Rust, step by step: each once, named by its number, so that what it comes to can be
//! shown, compared and done wrong on purpose.
//!
//! It stands on the types of [`bounds`] alone and calls no function of the library, so that what is held to the library is
//! independent of it; tests/independent.rs holds that. A point is three floats here, since [`bounds::Vec3`] adds and
//! multiplies by the library.
//!
//! In the order in which data passes: [`fold`], [`split`] and [`scale`] are the steps of a build and [`tree`] the build;
//! [`points`], [`polygon`], [`links`], [`materials`], [`vertex`], [`shrink`] and [`octants`] those of a mesh and [`mesh`] its
//! preparing; [`walk`] goes over what was built, and [`premises`] says of which lists
//! it misses nothing.
#![forbid(unsafe_code)]

mod listed;

pub mod fold;
mod grow;
pub mod links;
pub mod materials;
pub mod mesh;
pub mod octants;
pub mod points;
pub mod polygon;
pub mod premises;
pub mod scale;
pub mod shrink;
pub mod split;
pub mod tree;
pub mod vertex;
pub mod walk;

/// The most polygons of a geometry, and entries of a build.
pub const POLYGONS: usize = 32_767;

/// The most nodes of a tree.
pub const NODES: usize = 32_767;

/// The most vertices of a geometry.
pub const VERTICES: usize = 32_768;

/// The most materials that are given.
pub const MATERIALS: usize = 256;
