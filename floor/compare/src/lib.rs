//! The same inputs to the proved library and to the reference, every answer compared.
//!
//! - [`operation`]: the operations, each with both sides on words.
//! - [`inputs`]: hostile and random inputs.
//! - [`check`]: runs an operation over many inputs and shrinks a mismatch.
//! - [`report`]: the loop over cases that every comparison runs in, and the table at the end.
//! - [`build`], [`header`]: trees over lists of boxes, which [`lists`] makes and [`deep`] makes deep.
//! - [`walks`]: walks over what [`records`] makes, compared with [`plain::walk`], one in plain Rust.
//! - [`pairs`]: builds and walks over their records, held to what [`promises`] finds by brute force, over the lists and
//!   queries of [`queries`].
//! - [`polygons`], [`meshes`], [`vertices`]: polygon records and boxes, materials and links, stored vertices. The tests
//!   hold the plain steps of package `plain` against the reference too.
//! - [`shrink`] and [`prepare`], over what [`shapes`] makes.
//! - [`octants`], over what [`points`] makes, and [`composites`].
//! - [`exhaustive`]: operations of one word over all 2^32.
//! - [`vectors`]: a sample of the reference's answers as a text file.
//! - [`clock`]: the time that a thread had a processor.
//! - [`lent`]: buffers for operations that write into what they are lent.

pub mod build;
pub mod check;
pub mod clock;
pub mod composites;
pub mod deep;
pub mod exhaustive;
pub mod header;
pub mod inputs;
pub mod lent;
pub mod lists;
pub mod meshes;
pub mod octants;
pub mod operation;
pub mod pairs;
pub mod points;
pub mod polygons;
pub mod prepare;
pub mod promises;
pub mod proved;
pub mod queries;
pub mod random;
pub mod records;
pub mod report;
pub mod shapes;
pub mod shrink;
pub mod vectors;
pub mod vertices;
pub mod walks;
