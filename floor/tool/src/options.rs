//! The options of all commands in one table. The command line is read by it, and help, completion and the man page are made
//! from it; a command names those that it takes.

/// An option.
#[derive(Debug)]
pub struct Row {
    pub name: &'static str,
    /// A letter that stands for it, with its dash.
    pub short: Option<&'static str>,
    /// The words behind it: none, or a name each. Those with bars between them are all that it may be.
    pub values: &'static [&'static str],
    pub does: &'static str,
}

const fn row(name: &'static str, values: &'static [&'static str], does: &'static str) -> Row {
    Row { name, short: None, values, does }
}

/// Every option, in the order in which help shows them.
pub const OPTIONS: &[Row] = &[
    row(
        "--kind",
        &["4|8"],
        "the kind of a mesh: 4 has shrunk vertices and octants, 8 a tree; without it what its text says, else 8",
    ),
    row("--margin", &["M"], "the margin of a mesh, 0 or more; without it what its text says, else 0.04"),
    row(
        "--up",
        &["y|z"],
        "the axis that points up, z without it: with y the (x, y, z) of an .obj becomes (x, -z, y), and a picture is seen along y",
    ),
    row("--split", &[], "cuts a mesh over the limits by place into children that are each within them"),
    row(
        "--merge-materials",
        &["MAP"],
        "makes one of several materials: MAP is a file with a line OLD = NEW each, or `names` for those of equal names alone",
    ),
    row("--threshold", &["N"], "how many boxes a leaf of a FILE's tree holds at most: 1 to 32,767; without it 1"),
    row("--text", &[], "FILE is text, whatever it looks like"),
    row("--records", &[], "FILE is child box records, whatever it looks like"),
    row("--all", &["FILE"], "each query of FILE, six numbers a line"),
    row("--query", &["MIN", "MAX"], "a query that is drawn: two corners, each three numbers with commas"),
    row(
        "--colour",
        &["range|material"],
        "what the colours of a mesh's polygons stand for; without it ranges, or materials where there is no tree",
    ),
    Row {
        short: Some("-o"),
        ..row("--out", &["PATH"], "where the answer is written; what exists there is refused, a device or pipe is not")
    },
    row("--force", &[], "replaces what --out names: a file, or a folder that `bounds` wrote, whole"),
    row("--json", &[], "the answer, or why there is none, as one line of JSON"),
    Row { short: Some("-h"), ..row("--help", &[], "what a command does; without one, what there is") },
    row("--version", &[], "the version of the command, and a sum of the library's bytes; without a command"),
];

/// The option of this name, or of this letter.
pub fn named(word: &str) -> Option<&'static Row> {
    OPTIONS.iter().find(|row| row.name == word || row.short == Some(word))
}

/// What a word may be, where its name says all of it.
pub fn choices(value: &str) -> Option<Vec<&str>> {
    value.contains('|').then(|| value.split('|').collect())
}

impl Row {
    /// `-o, --out PATH`.
    pub fn heading(&self) -> String {
        let short = self.short.map_or(String::new(), |short| format!("{short}, "));
        short + &[&[self.name], self.values].concat().join(" ")
    }
}
