//! The commands, one a file.

mod build;
mod check;
mod diff;
mod draw;
mod dump;
mod explain;
mod help;
mod prepare;
mod query;

use crate::cli::Command;
use crate::failure::Failure;

/// Every command, in the order in which the help shows them.
pub fn table() -> [Command; 11] {
    [
        prepare::command(),
        build::command(),
        check::command(),
        query::command(),
        dump::command(),
        explain::command(),
        diff::command(),
        draw::command(),
        help::command(),
        help::completion(),
        help::man(),
    ]
}

/// The command of this name.
pub fn named(name: &str) -> Result<Command, Failure> {
    let unknown = || Failure::Usage(format!("command '{name}' is unknown"));
    table().into_iter().find(|command| command.name == name).ok_or_else(unknown)
}
