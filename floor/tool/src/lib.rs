//! The command `bounds`: meshes prepared and trees of boxes built, both checked, queried, dumped, explained, compared and
//! drawn.
//!
//! Every record comes from the proved library. What explains them are the rules in plain Rust, [`plain`], which must
//! reach the same bytes: what they do not reach is not explained.
//!
//! In the order in which an answer passes: [`cli`] reads the command line by the table of [`options`], from which [`help`],
//! [`completion`] and the [`man`] page are made too; [`boxes`], [`mesh`] and [`world`] the input, [`dump`] a tree's bytes;
//! [`field`] names their fields and [`rules`] the rules that made them; [`account`] holds a dump to its input; [`trace`]
//! finds in the plain steps what [`explain`] tells; [`diff`] compares two dumps and [`draw`] draws one; [`commands`] has one
//! file a command.
#![forbid(unsafe_code)]

pub mod account;
pub mod boxes;
pub mod cli;
pub mod commands;
pub mod completion;
pub mod diff;
pub mod draw;
pub mod dump;
pub mod explain;
pub mod failure;
pub mod field;
pub mod help;
pub mod json;
pub mod man;
pub mod mesh;
pub mod number;
pub mod options;
pub mod output;
pub mod pace;
pub mod parallel;
pub mod progress;
pub mod queried;
pub mod rules;
pub mod trace;
pub mod world;
