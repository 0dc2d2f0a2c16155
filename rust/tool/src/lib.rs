//! The command `bounds`: meshes prepared and trees of boxes built, both checked, queried, dumped, explained, compared and
//! drawn.
//!
//! Every record comes from the proved library. What explains them is a trace in plain Rust, which must reach the same
//! bytes: what it does not reach is not explained.
//!
//! In the order in which an answer passes: [`cli`] reads the command line, [`boxes`] and [`mesh`] the input, [`dump`] a tree's bytes;
//! [`field`] names their fields and [`rules`] the rules that made them; [`account`] holds a dump to its input; [`trace`]
//! builds step by step what [`explain`] tells; [`diff`] compares two dumps and [`draw`] draws one; [`commands`] has one
//! file a command.
#![forbid(unsafe_code)]

pub mod account;
pub mod boxes;
pub mod cli;
pub mod commands;
pub mod diff;
pub mod draw;
pub mod dump;
pub mod explain;
pub mod failure;
pub mod field;
pub mod help;
pub mod json;
pub mod mesh;
pub mod number;
pub mod output;
pub mod progress;
pub mod rules;
pub mod trace;
