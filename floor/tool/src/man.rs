//! The man page in roff, made from the tables of commands and options.

use crate::cli::Command;
use crate::commands;
use crate::help::{self, forms, rows, taken};
use crate::options::{Row, OPTIONS};

/// A line of text as roff takes it: its escapes, and what would be a request.
fn line(text: &str) -> String {
    let text = text.replace('\\', "\\e").replace('-', "\\-");
    let guard = if text.starts_with(['.', '\'']) { "\\&" } else { "" };
    format!("{guard}{text}\n")
}

/// Paragraphs are filled; lines that begin with two spaces stand as they are.
fn paragraphs(text: &str) -> String {
    let paragraph = |block: &str| {
        let lines: String = block.lines().map(line).collect();
        if block.starts_with("  ") {
            format!(".PP\n.nf\n{lines}.fi\n")
        } else {
            format!(".PP\n{lines}")
        }
    };
    text.trim_end().split("\n\n").map(paragraph).collect()
}

/// `-o, --out PATH`, the names bold, the values slanted.
fn heading(row: &Row) -> String {
    let bold = |name: &str| format!("\\fB{}\\fR", line(name).trim_end());
    let names: Vec<String> = row.short.into_iter().chain([row.name]).map(bold).collect();
    let values: String = row.values.iter().map(|value| format!(" \\fI{value}\\fR")).collect();
    names.join(", ") + &values
}

fn option(row: &Row) -> String {
    format!(".TP\n{}\n{}", heading(row), line(&format!("{}{}", row.does, taken(row))))
}

fn synopsis(command: &Command) -> String {
    let one = |form: &String| {
        let rest = form.trim_start_matches("bounds ").trim_start_matches(command.name).trim_start();
        format!(".B bounds {}\n{}.br\n", command.name, line(rest))
    };
    forms(command).iter().map(one).collect()
}

fn section(command: &Command) -> String {
    let options = rows(command).map(heading).collect::<Vec<_>>().join("; ");
    format!(
        ".SS {}\n{}{}.PP\nOptions: {options}\n{}",
        command.name,
        synopsis(command),
        paragraphs(command.help),
        paragraphs(command.examples)
    )
}

/// The page.
pub fn page() -> String {
    let table = commands::table();
    let version = env!("CARGO_PKG_VERSION");
    format!(
        ".TH BOUNDS 1 \"\" \"bounds {version}\" \"User Commands\"\n.SH NAME\nbounds \\- {does}\n.SH SYNOPSIS\n{synopsis}.SH DESCRIPTION\n\
         {words}.SH COMMANDS\n{sections}.SH OPTIONS\nIn brackets are the commands that take an option.\n{options}.SH EXIT STATUS\n{status}\
         .SH EXAMPLES\n{examples}",
        does = help::DOES,
        synopsis = table.iter().map(synopsis).collect::<String>(),
        words = paragraphs(help::WORDS),
        sections = table.iter().map(section).collect::<String>(),
        options = OPTIONS.iter().map(option).collect::<String>(),
        status = paragraphs(help::STATUS),
        examples = paragraphs(help::EXAMPLES),
    )
}
