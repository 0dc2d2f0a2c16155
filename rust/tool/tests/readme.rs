//! README.md shows what the tool prints: each block that begins with a command is run again, in the folder of the inputs.
//! `BLESS=1 cargo test -p tool` writes it anew.

mod common;

use common::command::Folder;
use std::path::Path;

/// A block of lines that are indented, its first a command.
fn command(block: &str) -> Option<&str> {
    block.lines().next()?.strip_prefix("    $ bounds ")
}

#[test]
fn the_page_shows_what_the_tool_prints() {
    let path = Path::new(env!("CARGO_MANIFEST_DIR")).join("../../README.md");
    let page = std::fs::read_to_string(&path).expect("README.md");
    let folder = Folder::with_inputs("readme");
    // Where the page runs one from rust/, its inputs are here too.
    let mut run = 0;
    let mut again = |block: &str| match command(block) {
        Some(line) => {
            run += 1;
            let log = folder.log(&line.replace("tool/tests/inputs/", ""));
            let rest: String = log.trim_end().lines().skip(1).map(|line| format!("\n    {line}")).collect();
            format!("    $ bounds {line}{rest}")
        }
        None => block.to_string(),
    };
    let now = page.trim_end().split("\n\n").map(&mut again).collect::<Vec<_>>().join("\n\n") + "\n";
    assert!(run >= 3, "{run} blocks");
    if std::env::var_os("BLESS").is_some() {
        std::fs::write(path, now).expect("kept");
        return;
    }
    for (number, (is, was)) in now.lines().zip(page.lines()).enumerate() {
        assert_eq!(is, was, "README.md, line {}", number + 1);
    }
    assert_eq!(now, page);
}
