//! Steps of a geometry in plain Rust, written from the scope document: the tests compare it with the reference, so that
//! the comparison itself is tried without the library.

pub mod links;
pub mod materials;
pub mod octants;
pub mod polygon;
pub mod prepare;
pub mod shrink;
pub mod vertex;
