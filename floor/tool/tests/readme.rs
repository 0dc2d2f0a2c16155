//! floor/GUIDE.md shows what the tool prints: each block that begins with a command is run again, in a folder in which the inputs
//! are where they are in the repository. `BLESS=1 cargo test -p tool` writes it anew. What docs/PREPARE.md shows of a program is in
//! what that program must print.

mod common;

use common::command::{keep, Folder};
use std::path::Path;

/// A block of lines that are indented, its first a command.
fn command(block: &str) -> Option<&str> {
    block.lines().next()?.strip_prefix("    $ ./bounds ")
}

/// A file of the repository.
fn page(name: &str) -> String {
    std::fs::read_to_string(Path::new(env!("CARGO_MANIFEST_DIR")).join("../..").join(name)).expect("a page")
}

#[test]
fn the_page_shows_what_the_tool_prints() {
    let page = page("floor/GUIDE.md");
    let folder = Folder::with_inputs("readme");
    let inputs = Path::new(env!("CARGO_MANIFEST_DIR")).join("tests/inputs");
    std::fs::create_dir_all(folder.0.join("floor/tool/tests")).expect("a folder");
    std::os::unix::fs::symlink(inputs, folder.0.join("floor/tool/tests/inputs")).expect("a link");
    let mut run = 0;
    let mut again = |block: &str| match command(block) {
        Some(line) => {
            run += 1;
            let log = folder.log(line);
            let rest: String = log.trim_end().lines().skip(1).map(|line| format!("\n    {line}")).collect();
            format!("    $ ./bounds {line}{rest}")
        }
        None => block.to_string(),
    };
    let now = page.trim_end().split("\n\n").map(&mut again).collect::<Vec<_>>().join("\n\n") + "\n";
    assert!(run >= 3, "{run} blocks");
    keep(&Path::new(env!("CARGO_MANIFEST_DIR")).join("../GUIDE.md"), &now);
}

#[test]
fn the_page_of_the_program_shows_its_lines() {
    let (page, stdout) = (page("docs/PREPARE.md"), page("crates/prepare/stdout"));
    let (_, section) = page.split_once("## The program `prepare`").expect("its section");
    let shown: Vec<&str> = section.lines().filter_map(|line| line.strip_prefix("    ")).collect();
    assert!(shown.len() >= 5 && stdout.lines().count() == 13);
    for line in shown {
        assert!(stdout.lines().any(|printed| printed == line), "{line}");
    }
}
