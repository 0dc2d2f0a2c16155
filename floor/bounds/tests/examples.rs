//! Every public item of the interface has an example in its documentation. The sources are read as `cargo fmt` leaves them;
//! an item that a macro makes is found in the macro, and needs its example there.

use std::fs;
use std::path::{Path, PathBuf};

/// How an item begins behind `pub `. Modules and re-exports need no example, nor do fields.
const KINDS: [&str; 11] =
    ["fn ", "struct ", "enum ", "union ", "const ", "static ", "trait ", "type ", "unsafe ", "async ", "extern \"C\" "];

/// What a block of a doc comment may be called and still be an example: one that is run, or that must not compile.
const EXAMPLES: [&str; 4] = ["", "rust", "should_panic", "compile_fail"];

/// A public item of a source.
#[derive(Debug, PartialEq)]
struct Item<'a> {
    line: usize,
    text: &'a str,
    example: bool,
}

/// The public items of a source, without what is there for tests only.
fn public_items(source: &str) -> Vec<Item<'_>> {
    let mut items = Vec::new();
    let (mut doc, mut attributes) = (Vec::new(), Vec::new());
    let mut lines = source.lines().zip(1..);
    while let Some((whole, line)) = lines.next() {
        let text = whole.trim_start();
        if let Some(words) = text.strip_prefix("///") {
            doc.push(words.trim());
        } else if text.starts_with("#[") {
            attributes.push(text);
        } else {
            if attributes.contains(&"#[cfg(test)]") && text.ends_with('{') {
                let end = format!("{}}}", &whole[..whole.len() - text.len()]);
                lines.find(|(whole, _)| *whole == end).expect("what is opened ends at the same indentation");
            } else if is_public(text, &attributes) {
                items.push(Item { line, text, example: has_example(&doc) });
            }
            doc.clear();
            attributes.clear();
        }
    }
    items
}

fn is_public(text: &str, attributes: &[&str]) -> bool {
    let exported = text.starts_with("macro_rules!") && attributes.contains(&"#[macro_export]");
    let item = |rest: &str| KINDS.iter().any(|kind| rest.starts_with(kind));
    exported || text.strip_prefix("pub ").is_some_and(item)
}

/// Whether a doc comment has an example with a line that is shown.
fn has_example(doc: &[&str]) -> bool {
    let (mut block, mut found) = (None, false);
    for line in doc {
        match (line.strip_prefix("```"), block) {
            (Some(name), None) => block = Some(EXAMPLES.contains(&name)),
            (Some(_), Some(_)) => block = None,
            (None, _) => found |= block == Some(true) && !line.is_empty() && *line != "#" && !line.starts_with("# "),
        }
    }
    found
}

/// The sources below a folder.
fn sources(folder: &Path) -> Vec<PathBuf> {
    let entries = fs::read_dir(folder).expect("a folder of sources").map(|entry| entry.expect("an entry").path());
    let mut found: Vec<PathBuf> =
        entries.flat_map(|path| if path.is_dir() { sources(&path) } else { vec![path] }).collect();
    found.retain(|path| path.extension().is_some_and(|extension| extension == "rs"));
    found.sort();
    found
}

#[test]
fn every_public_item_has_an_example() {
    let package = Path::new(env!("CARGO_MANIFEST_DIR"));
    let (mut count, mut without) = (0, String::new());
    // ffi.rs is the interface to the library, which no user sees.
    for path in sources(&package.join("src")).iter().filter(|path| !path.ends_with("ffi.rs")) {
        let source = fs::read_to_string(path).expect("a source");
        let items = public_items(&source);
        count += items.len();
        let name = path.strip_prefix(package).expect("it is below").display();
        for Item { line, text, .. } in items.iter().filter(|item| !item.example) {
            without += &format!("\n{name}:{line}: {text}");
        }
    }
    assert!(count > 100, "only {count} public items were found");
    assert!(without.is_empty(), "without an example:{without}");
}

#[test]
fn items_are_found_with_and_without_examples() {
    let source = r##"
/// With one.
///
/// ```
/// # use bounds::Vec3;
/// assert_eq!(Vec3::ZERO.x, 0.0);
/// ```
#[derive(Debug)]
#[allow(missing_docs)]
pub struct Shown {
    pub field: u32,
}

/// The one above is not its own.
pub enum Bare {}
impl Shown {
    /// ```compile_fail
    /// Shown::new(1);
    /// ```
    pub const fn new() -> Shown {
        Shown { field: 0 }
    }

    pub const LIMIT: usize = 1;
    /// ```
    /// # hidden();
    /// ```
    pub fn hidden() {}
    pub(crate) fn inner() {}
    fn own() {}
}
/// ```text
/// a picture
/// ```
/// and no code.
pub trait Drawn {}
/// ```ignore
/// skipped();
/// ```
pub type Skipped = u32;
/// ```no_run
/// endless();
/// ```
pub unsafe fn endless() {}
pub use other::Thing;
pub mod other;
#[macro_export]
macro_rules! exported {}
macro_rules! of_its_own {
    ($name:ident) => {
        pub fn $name() {}
    };
}
#[cfg(test)]
mod tests {
    pub fn helper() {
        {}
    }
}
pub static LAST: u32 = 0;
"##;
    let expected = [
        (10, "pub struct Shown {", true),
        (15, "pub enum Bare {}", false),
        (20, "pub const fn new() -> Shown {", true),
        (24, "pub const LIMIT: usize = 1;", false),
        (28, "pub fn hidden() {}", false),
        (36, "pub trait Drawn {}", false),
        (40, "pub type Skipped = u32;", false),
        (44, "pub unsafe fn endless() {}", false),
        (48, "macro_rules! exported {}", false),
        (51, "pub fn $name() {}", false),
        (60, "pub static LAST: u32 = 0;", false),
    ];
    assert_eq!(public_items(source), expected.map(|(line, text, example)| Item { line, text, example }));
}
