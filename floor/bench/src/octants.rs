//! Octants: in each of eight directions the vertices that no other one shadows.

use crate::subjects::{agreeing, Kind, Subject, Work};
use bounds::octants::{calculate_octants_in, lists_len, work_len};
use compare::points::{Points, Style};
use oracle::geometry::{self as reference, VERTICES};
use std::hint::black_box;

/// The reference takes a time by the square of the longest on some lists: instructions are counted of few.
const FEW: &[usize] = &[1_000];
const LISTS: &[usize] = &[1_000, VERTICES];

pub fn all() -> Vec<Subject> {
    let row = |name, sizes, counted, work| Subject { kind: Kind::Octants, name, sizes, counted, work };
    vec![
        row("octants, random", LISTS, LISTS, |n, seed| octants(n, Style::Random, seed)),
        row("octants, plane", LISTS, FEW, |n, seed| octants(n, Style::Plane, seed)),
        row("octants, line", LISTS, FEW, |n, seed| octants(n, Style::Line, seed)),
        row("octants, sphere", &[500, VERTICES], &[500], |n, seed| octants(n, Style::Sphere, seed)),
        row("octants, equal", LISTS, LISTS, |n, seed| octants(n, Style::Equal, seed)),
        row("octants, NaN", LISTS, FEW, |n, seed| octants(n, Style::Nan, seed)),
    ]
}

/// Ours in buffers that are lent again and again; theirs in lists that it makes anew.
fn octants(n: usize, style: Style, seed: u64) -> Work {
    let vertices = Points::new(seed).of(n, style);
    let theirs = reference::shadower(&vertices);
    let (mut lists, mut work) = (vec![0; lists_len(n)], vec![0; work_len(n)]);
    let ours = move || {
        let counts = calculate_octants_in(black_box(&vertices), black_box(&mut lists), &mut work);
        counts.expect("a list within the limits").iter().sum()
    };
    agreeing(ours, theirs, n)
}
