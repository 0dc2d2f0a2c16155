//! `compare [OP..] [--seed S] [--cases N] [--stride N] [--threads N] [--write-vectors FILE]`
//!
//! OP is `float`, `math`, `tree`, `walk`, `pair`, `exhaustive`, `all` (these six, and what is meant without an OP) or an
//! operation's name; those of `tree` are `build` and `header`. Those of `geometry`, `shrink`, `prepare`, `octants` (the lists
//! and `octant_bytes`) and `composite` are asked for by name.
//! Exit status: 0 all the same, 1 a mismatch, 2 it could not be run.

use compare::exhaustive::{self, Extent};
use compare::{build, check, composites, header, meshes, octants, operation, pairs};
use compare::{polygons, prepare, proved, report, shrink, vectors, vertices, walks};
use std::process::ExitCode;

const USAGE: &str = "usage: compare [OP..] [--seed S] [--cases N] [--stride N] [--threads N] [--write-vectors FILE]
  OP                    float, math, tree, walk, pair, exhaustive, all, geometry, shrink, prepare,
                        octants, composite, or an operation's name
  --seed S              of the random inputs (default 1)
  --cases N             of each operation (default 1000000); of octants a 25,000th are lists of 32,768 of each kind
  --stride N            exhaustive: only every N-th word (default 1: all of them), from one that the seed gives
  --threads N           exhaustive: default 1
  --write-vectors FILE  writes a sample of the reference's answers, and compares only the OPs that are named";

/// The group, and its operations.
const GEOMETRY: [&str; 8] = ["geometry", "polygon", "items", "materials", "links", "quantum", "stored", "read_back"];

/// Asked for by name too.
const MORE: [&str; 5] = ["shrink", "prepare", "octants", "octant_bytes", "composite"];

struct Arguments {
    ops: Vec<String>,
    seed: u64,
    cases: u64,
    stride: u32,
    threads: u32,
    vectors: Option<String>,
}

fn arguments(mut words: impl Iterator<Item = String>) -> Result<Arguments, String> {
    let mut a = Arguments { ops: Vec::new(), seed: 1, cases: 1_000_000, stride: 1, threads: 1, vectors: None };
    while let Some(word) = words.next() {
        if !word.starts_with("--") {
            a.ops.push(word);
            continue;
        }
        let value = words.next().ok_or(format!("{word} needs a value"))?;
        let wrong = |_| format!("{word} {value}: not a number that it takes");
        match word.as_str() {
            "--seed" => a.seed = value.parse().map_err(wrong)?,
            "--cases" => a.cases = value.parse().map_err(wrong)?,
            "--stride" => a.stride = value.parse::<std::num::NonZeroU32>().map_err(wrong)?.get(),
            "--threads" => a.threads = value.parse::<std::num::NonZeroU32>().map_err(wrong)?.get(),
            "--write-vectors" => a.vectors = Some(value),
            _ => return Err(format!("{word}: no such option")),
        }
    }
    if a.ops.is_empty() && a.vectors.is_none() {
        a.ops.push("all".to_string());
    }
    Ok(a)
}

fn run(a: &Arguments) -> Result<Vec<report::Line>, String> {
    let operations = operation::all();
    let known = |op: &str| {
        ["all", "exhaustive", "tree", "build", "header", "walk", "pair"].contains(&op)
            || GEOMETRY.contains(&op)
            || MORE.contains(&op)
            || operations.iter().any(|o| o.group == op || o.name == op)
    };
    if let Some(op) = a.ops.iter().find(|op| !known(op)) {
        return Err(format!("{op}: no such operation\n{USAGE}"));
    }
    if let Some(file) = &a.vectors {
        std::fs::write(file, vectors::text(&operations, a.seed)).map_err(|e| format!("{file}: {e}"))?;
    }
    let asked = |names: &[&str]| a.ops.iter().any(|op| op == "all" || names.contains(&op.as_str()));
    let mut lines = Vec::new();
    for op in &operations {
        if asked(&[op.group, op.name]) {
            lines.push(check::run(op, a.seed, a.cases));
        }
    }
    if asked(&["tree", "build"]) {
        lines.push(build::run(a.seed, a.cases));
    }
    if asked(&["tree", "header"]) {
        lines.push(header::run(a.seed, a.cases));
    }
    if asked(&["walk"]) {
        lines.push(walks::run(a.seed, a.cases, walks::proved));
    }
    if asked(&["pair"]) {
        lines.push(pairs::run(a.seed, a.cases, walks::proved));
    }
    if asked(&["exhaustive"]) {
        let first = (a.seed % a.stride as u64) as u32;
        let extent = Extent { first, stride: a.stride, threads: a.threads };
        lines.extend(exhaustive::NAMES.iter().filter_map(|name| exhaustive::run(name, extent)));
    }
    lines.extend(geometry(a));
    lines.extend(more(a));
    Ok(lines)
}

/// What is asked of it by name: it does not belong to all.
fn geometry(a: &Arguments) -> Vec<report::Line> {
    let mut lines = Vec::new();
    let named = |name: &str| a.ops.iter().any(|op| op == GEOMETRY[0] || op == name);
    if named("polygon") {
        lines.push(polygons::run(a.seed, a.cases, &proved::POLYGON));
    }
    if named("items") {
        lines.push(polygons::items(a.seed, a.cases, proved::items));
    }
    if named("materials") {
        lines.push(meshes::materials(a.seed, a.cases, proved::materials));
    }
    if named("links") {
        lines.push(meshes::links(a.seed, a.cases, proved::links));
    }
    for op in vertices::operations().iter().filter(|op| named(op.name)) {
        lines.push(check::run(op, a.seed, a.cases));
    }
    lines
}

fn more(a: &Arguments) -> Vec<report::Line> {
    let mut lines = Vec::new();
    let named = |names: &[&str]| a.ops.iter().any(|op| names.contains(&op.as_str()));
    if named(&["shrink"]) {
        lines.push(shrink::run(a.seed, a.cases, &proved::shrink));
    }
    if named(&["prepare"]) {
        lines.push(prepare::run(a.seed, a.cases, &proved::prepare, Some(&proved::prepare_whole)));
    }
    if named(&["octants"]) {
        lines.push(octants::lists(a.seed, a.cases, proved::octants));
        lines.push(octants::long(a.seed, a.cases, proved::octants));
    }
    if named(&["octants", "octant_bytes"]) {
        lines.push(octants::bytes(a.seed, a.cases, proved::octant_bytes));
    }
    if named(&["composite"]) {
        lines.push(composites::run(a.seed, a.cases, &proved::COMPOSITE));
    }
    lines
}

fn main() -> ExitCode {
    let stop = |why: &str| {
        eprintln!("compare: {why}");
        ExitCode::from(2)
    };
    if let Some(why) = oracle::missing() {
        return stop(why);
    }
    let arguments = match arguments(std::env::args().skip(1)) {
        Ok(arguments) => arguments,
        Err(why) => return stop(&format!("{why}\n{USAGE}")),
    };
    // The reference recurses by the depth of its trees.
    match oracle::on_large_stack(|| run(&arguments)) {
        Err(why) => stop(&why),
        Ok(lines) => {
            if !lines.is_empty() {
                print!("{}", report::table(&lines));
            }
            ExitCode::from(lines.iter().any(|l| l.mismatches > 0) as u8)
        }
    }
}
