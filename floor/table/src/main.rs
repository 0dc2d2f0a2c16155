//! What the proved programs must print: worked out with Rust's own operators and the plain steps, `boxes`, `prepare` and `pairs` by
//! the reference.
//!
//!     table --lines            hard cases, wrong lines and lines that are no case       (crates/replay/stdin, its end)
//!     table < LINES            such lines judged and counted                            (crates/replay/stdout)
//!     table --boxes FOLDER     inputs of `boxes`, as files there                        (crates/boxes_cases/data, stdout)
//!     table --meshes FOLDER    inputs of `prepare`, as files there                      (crates/prepare_cases/data, stdout)
//!     table --prepares FILE    many inputs of `prepare`, one after another there         (crates/prepare_replay/stdin, stdout)
//!     table --pairs            lists built and walked                                   (crates/pairs/stdout)
//!
//! crates/replay/stdin is what `compare --write-vectors` writes, then the lines of `table --lines`.
mod boxes;
mod cases;
mod count;
mod drawn;
mod lines;
mod meshes;
mod operation;
mod pairs;

use std::io::{self, Write};

fn fail(why: &str) -> ! {
    eprintln!("table: {why}");
    std::process::exit(2);
}

/// The path that follows the first word.
fn path(of: &str) -> String {
    std::env::args().nth(2).unwrap_or_else(|| fail(&format!("{of} needs a path for the inputs")))
}

fn main() -> io::Result<()> {
    let mut out = io::BufWriter::new(io::stdout().lock());
    let word = std::env::args().nth(1);
    if let (Some("--boxes" | "--meshes" | "--prepares" | "--pairs"), Some(missing)) =
        (word.as_deref(), oracle::missing())
    {
        fail(missing);
    }
    match word.as_deref() {
        None => count::print(io::stdin().lock(), &mut out)?,
        Some("--lines") => lines::print(&mut out)?,
        Some(word @ "--boxes") => boxes::print(&mut out, path(word).as_ref())?,
        Some(word @ "--meshes") => meshes::print(&mut out, path(word).as_ref())?,
        Some(word @ "--prepares") => drawn::print(&mut out, path(word).as_ref())?,
        Some("--pairs") => pairs::print(&mut out)?,
        Some(other) => {
            fail(&format!("unknown word {other}; give none, --lines, --boxes, --meshes, --prepares or --pairs"))
        }
    }
    out.flush()
}
