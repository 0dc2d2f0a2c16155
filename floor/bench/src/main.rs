//! `bench [OP..] [--samples N] [--seed S] [--instructions] [--write]`, or `bench vector-code ARCHIVE`
//!
//! Times the proved library and the reference, and walks, in one run on the same inputs and prints tables; with `--write`
//! also docs/BENCH.md and docs/bench.svg. `vector-code` looks at a library's object code instead.
//! Exit status: 1 where vector code is missing, 2 where it could not be run.

mod composites;
mod instructions;
mod lists;
mod machine;
mod measure;
mod octants;
mod page;
mod plot;
mod polygons;
mod prepare;
mod server;
mod shrink;
mod subjects;
mod tuned;
mod vector;
mod walks;

use measure::Series;
use std::path::Path;
use std::process::ExitCode;
use subjects::{Side, Subject};

const USAGE: &str = "usage: bench [OP..] [--samples N] [--seed S] [--instructions] [--write]
       bench vector-code ARCHIVE
  OP              the beginning of an operation's name, as random, queries or links (default: all)
  --samples N     of each size and side (default 31)
  --seed S        of the inputs (default 1)
  --instructions  counts them too, by valgrind
  --write         writes docs/BENCH.md and docs/bench.svg; only of all operations
  vector-code     looks whether the library's hot loops compare several numbers at once";

struct Arguments {
    ops: Vec<String>,
    samples: usize,
    seed: u64,
    instructions: bool,
    write: bool,
}

fn arguments(mut words: impl Iterator<Item = String>) -> Result<Arguments, String> {
    let mut a = Arguments { ops: Vec::new(), samples: 31, seed: 1, instructions: false, write: false };
    while let Some(word) = words.next() {
        let mut number = || words.next().and_then(|v| v.parse::<u64>().ok()).ok_or(format!("{word} needs a number"));
        match word.as_str() {
            "--write" => a.write = true,
            "--instructions" => a.instructions = true,
            "--samples" => a.samples = number()?.max(1) as usize,
            "--seed" => a.seed = number()?,
            _ if word.starts_with("--") => return Err(format!("{word}: no such option")),
            _ => a.ops.push(word),
        }
    }
    if a.write && !a.ops.is_empty() {
        return Err("--write writes the whole page: name no operation".to_string());
    }
    Ok(a)
}

fn run(a: &Arguments) -> Result<(), String> {
    let subjects = subjects::all();
    let asked = |s: &&Subject| a.ops.is_empty() || a.ops.iter().any(|op| s.name.starts_with(op));
    if let Some(op) = a.ops.iter().find(|op| !subjects.iter().any(|s| s.name.starts_with(*op))) {
        let names: Vec<&str> = subjects.iter().map(|s| s.name).collect();
        return Err(format!("{op}: no such operation; there are: {}", names.join("; ")));
    }
    let counting = a.instructions && instructions::valgrind();
    if a.instructions && !counting {
        eprintln!("bench: valgrind is not installed: instructions are left out");
    }
    if tuned::WALK.is_none() {
        eprintln!("bench: the tuned walk is for x86-64: left out");
    }
    let mut series = Vec::new();
    for subject in subjects.iter().filter(asked) {
        eprintln!("{}", subject.name);
        series.push(measured(subject, a, counting)?);
    }
    print!("{}", page::tables(&series));
    if a.write {
        written("BENCH.md", page::page(&series, a.samples, a.seed))?;
        written("bench.svg", plot::svg(&series))?;
    }
    Ok(())
}

fn measured(subject: &Subject, a: &Arguments, counting: bool) -> Result<Series, String> {
    let mut rows = Vec::new();
    for &size in subject.sizes {
        let mut row = measure::row(subject, size, a.samples, a.seed);
        if counting && subject.counted.contains(&size) {
            let sides: Vec<Side> = row.times.iter().map(|t| t.0).filter(|&side| side != Side::Force).collect();
            row.instructions = instructions::counted(subject, size, &sides, a.seed)?;
        }
        rows.push(row);
    }
    Ok(Series { subject: subject.clone(), rows })
}

fn written(name: &str, text: String) -> Result<(), String> {
    let docs = Path::new(env!("CARGO_MANIFEST_DIR")).join("../../docs");
    std::fs::create_dir_all(&docs).map_err(|e| format!("docs: {e}"))?;
    std::fs::write(docs.join(name), text).map_err(|e| format!("docs/{name}: {e}"))
}

fn main() -> ExitCode {
    let stop = |why: &str| {
        eprintln!("bench: {why}");
        ExitCode::from(2)
    };
    let words: Vec<String> = std::env::args().skip(1).collect();
    if words.first().is_some_and(|word| word == vector::WORD) {
        return vector::looked(&words[1..]);
    }
    if let Some(why) = oracle::missing() {
        return stop(why);
    }
    if cfg!(debug_assertions) {
        return stop("times mean nothing without optimisation: use cargo run --release");
    }
    let counted = words.first().is_some_and(|word| word == instructions::WORD);
    let ran = oracle::on_large_stack(|| match counted {
        true => instructions::pass(&subjects::all(), &words[1..]),
        false => arguments(words.into_iter()).map_err(|why| format!("{why}\n{USAGE}")).and_then(|a| run(&a)),
    });
    match ran {
        Ok(()) => ExitCode::SUCCESS,
        Err(why) => stop(&why),
    }
}
