//! The commands, one a file.

mod build;
mod check;
mod diff;
mod draw;
mod dump;
mod explain;
mod prepare;
mod query;

use crate::cli::Command;

/// Every command, in the order in which the help shows them.
pub fn table() -> [Command; 8] {
    [
        prepare::command(),
        build::command(),
        check::command(),
        query::command(),
        dump::command(),
        explain::command(),
        diff::command(),
        draw::command(),
    ]
}
