//! docs/TELEPHONE.md shows what the tool prints: each block that begins with a command is run again, and so is the picture.
//! `BLESS=1 cargo test -p tool` writes both anew.

mod common;

use common::command::Folder;
use std::path::{Path, PathBuf};

fn docs(name: &str) -> PathBuf {
    Path::new(env!("CARGO_MANIFEST_DIR")).join("../../docs").join(name)
}

/// Compares a page with the kept one, or keeps it.
fn kept(name: &str, now: &str) {
    if std::env::var_os("BLESS").is_some() {
        std::fs::write(docs(name), now).expect("kept");
        return;
    }
    let kept = std::fs::read_to_string(docs(name)).expect("the page");
    for (number, (is, was)) in now.lines().zip(kept.lines()).enumerate() {
        assert_eq!(is, was, "{name}, line {}", number + 1);
    }
    assert_eq!(now, kept, "{name}");
}

#[test]
fn the_page_shows_what_the_tool_prints() {
    let page = std::fs::read_to_string(docs("TELEPHONE.md")).expect("docs/TELEPHONE.md");
    let folder = Folder::with_inputs("telephone");
    let mut run = 0;
    let mut again = |part: &str| match part.lines().next().and_then(|line| line.strip_prefix("$ bounds ")) {
        Some(line) => {
            run += 1;
            format!("{}\n", folder.log(line).trim_end())
        }
        None => part.to_string(),
    };
    let now = page.split("```\n").map(&mut again).collect::<Vec<_>>().join("```\n");
    assert!(run >= 10, "{run} blocks");
    kept("TELEPHONE.md", &now);
}

#[test]
fn the_picture_is_the_tools() {
    let drawn = Folder::with_inputs("nan").run("draw b.bin --query 6,0,0 7,1,1").stdout;
    kept("nan.svg", &String::from_utf8_lossy(&drawn));
}
