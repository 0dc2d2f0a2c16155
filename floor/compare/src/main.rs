//! `compare [OP..] [--seed S] [--cases N] [--stride N] [--threads N] [--write-vectors FILE]`
//!
//! OP is `float`, `math`, `tree`, `walk`, `pair`, `exhaustive`, `all` (these six, and what is meant without an OP) or an
//! operation's name; those of `tree` are `build` and `header`. Those of `geometry`, `shrink`, `prepare`, `octants` (the lists
//! and `octant_bytes`) and `composite` are asked for by name.
//! Exit status: 0 all the same, 1 a mismatch, 2 it could not be run.

use compare::exhaustive::{self, Extent};
use compare::operation::{self, Operation};
use compare::report::{table, Line};
use compare::{build, check, composites, header, meshes, octants, pairs, polygons};
use compare::{prepare, proved, shrink, vectors, vertices, walks};
use std::process::ExitCode;

const USAGE: &str = "usage: compare [OP..] [--seed S] [--cases N] [--stride N] [--threads N] [--write-vectors FILE]
  OP                    float, math, tree, walk, pair, exhaustive, all, geometry, shrink, prepare,
                        octants, composite, or an operation's name
  --seed S              of the random inputs (default 1)
  --cases N             of each operation (default 1000000); of octants a 25,000th are lists of 32,768 of each kind
  --stride N            exhaustive: only every N-th word (default 1: all of them), from one that the seed gives
  --threads N           exhaustive: default 1
  --write-vectors FILE  writes a sample of the reference's answers, and compares only the OPs that are named";

/// The groups that belong to all.
const ALL: [&str; 6] = ["float", "math", "tree", "walk", "pair", "exhaustive"];

/// A comparison beside those of operations on words: its group, its name, and what compares so many cases by a seed.
type Comparison = (&'static str, &'static str, fn(u64, u64) -> Line);

const COMPARISONS: [Comparison; 14] = [
    ("tree", "build", build::run),
    ("tree", "header", header::run),
    ("walk", "walk", |seed, cases| walks::run(seed, cases, walks::proved)),
    ("pair", "pair", |seed, cases| pairs::run(seed, cases, walks::proved)),
    ("geometry", "polygon", |seed, cases| polygons::run(seed, cases, &proved::POLYGON)),
    ("geometry", "items", |seed, cases| polygons::items(seed, cases, bounds::polygon_items)),
    ("geometry", "materials", |seed, cases| meshes::materials(seed, cases, bounds::build_materials)),
    ("geometry", "links", |seed, cases| meshes::links(seed, cases, proved::links)),
    ("shrink", "shrink", |seed, cases| shrink::run(seed, cases, &proved::shrink)),
    ("prepare", "prepare", |seed, cases| prepare::run(seed, cases, &proved::prepare, Some(&bounds::Geometry::prepare))),
    ("octants", "octants", |seed, cases| octants::lists(seed, cases, proved::octants)),
    ("octants", "octants", |seed, cases| octants::long(seed, cases, proved::octants)),
    ("octants", "octant_bytes", |seed, cases| octants::bytes(seed, cases, proved::octant_bytes)),
    ("composite", "composite", |seed, cases| composites::run(seed, cases, &proved::COMPOSITE)),
];

struct Arguments {
    ops: Vec<String>,
    seed: u64,
    cases: u64,
    stride: u32,
    threads: u32,
    vectors: Option<String>,
}

fn arguments(mut words: impl Iterator<Item = String>) -> Result<Arguments, String> {
    let mut a = Arguments { ops: Vec::new(), seed: 1, cases: 1_000_000, stride: 1, threads: 1, vectors: None };
    while let Some(word) = words.next() {
        if !word.starts_with("--") {
            a.ops.push(word);
            continue;
        }
        let value = words.next().ok_or(format!("{word} needs a value"))?;
        let wrong = |_| format!("{word} {value}: not a number that it takes");
        match word.as_str() {
            "--seed" => a.seed = value.parse().map_err(wrong)?,
            "--cases" => a.cases = value.parse().map_err(wrong)?,
            "--stride" => a.stride = value.parse::<std::num::NonZeroU32>().map_err(wrong)?.get(),
            "--threads" => a.threads = value.parse::<std::num::NonZeroU32>().map_err(wrong)?.get(),
            "--write-vectors" => a.vectors = Some(value),
            _ => return Err(format!("{word}: no such option")),
        }
    }
    if a.ops.is_empty() && a.vectors.is_none() {
        a.ops.push("all".to_string());
    }
    Ok(a)
}

fn run(a: &Arguments) -> Result<Vec<Line>, String> {
    let operations: Vec<Operation> = operation::all().into_iter().chain(vertices::operations()).collect();
    let names = COMPARISONS.iter().map(|&(group, name, _)| [group, name]);
    let names: Vec<[&str; 2]> = names.chain(operations.iter().map(|op| [op.group, op.name])).collect();
    let known = |op: &str| op == "all" || ALL.contains(&op) || names.iter().flatten().any(|&name| name == op);
    if let Some(op) = a.ops.iter().find(|op| !known(op)) {
        return Err(format!("{op}: no such operation\n{USAGE}"));
    }
    if let Some(file) = &a.vectors {
        std::fs::write(file, vectors::text(&operations, a.seed)).map_err(|e| format!("{file}: {e}"))?;
    }
    let asked = |group: &str, name: &str| {
        a.ops.iter().any(|op| op == group || op == name || op == "all" && ALL.contains(&group))
    };
    let mut lines = Vec::new();
    for op in operations.iter().filter(|op| asked(op.group, op.name)) {
        lines.push(check::run(op, a.seed, a.cases));
    }
    for (_, _, compare) in COMPARISONS.iter().filter(|(group, name, _)| asked(group, name)) {
        lines.push(compare(a.seed, a.cases));
    }
    if asked("exhaustive", "exhaustive") {
        let first = (a.seed % a.stride as u64) as u32;
        let extent = Extent { first, stride: a.stride, threads: a.threads };
        lines.extend(exhaustive::NAMES.iter().filter_map(|name| exhaustive::run(name, extent)));
    }
    Ok(lines)
}

fn main() -> ExitCode {
    let stop = |why: &str| {
        eprintln!("compare: {why}");
        ExitCode::from(2)
    };
    if let Some(why) = oracle::missing() {
        return stop(why);
    }
    let arguments = match arguments(std::env::args().skip(1)) {
        Ok(arguments) => arguments,
        Err(why) => return stop(&format!("{why}\n{USAGE}")),
    };
    // The reference recurses by the depth of its trees.
    match oracle::on_large_stack(|| run(&arguments)) {
        Err(why) => stop(&why),
        Ok(lines) => {
            if !lines.is_empty() {
                print!("{}", table(&lines));
            }
            ExitCode::from(lines.iter().any(|l| l.mismatches > 0) as u8)
        }
    }
}
