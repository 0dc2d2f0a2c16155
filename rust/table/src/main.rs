//! What the proved programs must print: worked out with Rust's own operators and casts, `boxes`, `prepare` and `pairs` by
//! the reference.
//!
//!     table --lines            hard cases, wrong lines and lines that are no case       (crates/replay/stdin, its end)
//!     table < LINES            such lines judged and counted                            (crates/replay/stdout)
//!     table --boxes FOLDER     inputs of `boxes`, as files there                        (crates/boxes_cases/data, stdout)
//!     table --meshes FOLDER    inputs of `prepare`, as files there                      (crates/prepare_cases/data, stdout)
//!     table --prepares FILE    many inputs of `prepare`, one after another there         (crates/prepare_replay/stdin, stdout)
//!     table --pairs            lists built and walked                                   (crates/pairs/stdout)
//!
//! crates/replay/stdin is what `compare --write-vectors` writes, then the lines of `table --lines`.
mod boxes;
mod cases;
mod count;
mod drawn;
mod lines;
mod meshes;
mod operation;
mod pairs;
mod source;

use std::io::{self, Write};

fn fail(why: &str) -> ! {
    eprintln!("table: {why}");
    std::process::exit(2);
}

fn main() -> io::Result<()> {
    let mut out = io::BufWriter::new(io::stdout().lock());
    match std::env::args().nth(1).as_deref() {
        None => count::print(io::stdin().lock(), &mut out)?,
        Some("--lines") => lines::print(&mut out)?,
        Some("--boxes") => match (std::env::args().nth(2), oracle::missing()) {
            (Some(folder), None) => boxes::print(&mut out, folder.as_ref())?,
            (None, _) => fail("--boxes needs a folder for the inputs"),
            (_, Some(missing)) => fail(missing),
        },
        Some("--meshes") => match (std::env::args().nth(2), oracle::missing()) {
            (Some(folder), None) => meshes::print(&mut out, folder.as_ref())?,
            (None, _) => fail("--meshes needs a folder for the inputs"),
            (_, Some(missing)) => fail(missing),
        },
        Some("--prepares") => match (std::env::args().nth(2), oracle::missing()) {
            (Some(file), None) => drawn::print(&mut out, file.as_ref())?,
            (None, _) => fail("--prepares needs a file for the inputs"),
            (_, Some(missing)) => fail(missing),
        },
        Some("--pairs") => match oracle::missing() {
            None => pairs::print(&mut out)?,
            Some(missing) => fail(missing),
        },
        Some(other) => {
            fail(&format!("unknown word {other}; give none, --lines, --boxes, --meshes, --prepares or --pairs"))
        }
    }
    out.flush()
}
