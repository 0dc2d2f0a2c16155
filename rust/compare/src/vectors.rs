//! A sample of the reference's answers as a text file, for a program that replays them without the reference.
//!
//! Each line is one case: an operation's number (2 hexadecimal digits), its input words, its expected words (8 digits
//! each), all lower case, with single spaces between and a newline at the end. A float stands as its word; one that
//! arithmetic made and that is a NaN stands as 7fc00000, and a replay must treat its own so. An order is 0 for less, 1
//! for equal, 2 for greater (3 for unordered); a signed number is extended to 32 bits.
//!
//! | number | operation | inputs | expected |
//! |---|---|---|---|
//! | 01 | `value_bits` | word | 1 |
//! | 02 | `relate` | a, b | 1: 0 to 3 |
//! | 03 | `cmp_f32` | a, b | 1: 0 to 2 |
//! | 04 | `order_key` of both, compared | a, b | 1: 0 to 2 |
//! | 05 | `vmin_word` | a, b | 1: the chosen word |
//! | 06 | `vmax_word` | a, b | 1: the chosen word |
//! | 07 | `min_number` | a, b, not two zeros of opposite signs | 1 |
//! | 08 | `max_number` | a, b, not two zeros of opposite signs | 1 |
//! | 09 | `to_i32` | x | 1 |
//! | 0a | `to_short` | x | 1: sign-extended |
//! | 0b | `vertex_value` | x | 1: sign-extended |
//! | 0c | `sqrt` | x | 1 |
//! | 0d | `of_count` | a count below 10000 hexadecimal | 1 |
//! | 0e | `length` | x y z | 1 |
//! | 0f | `norm` | x y z | 3 |
//! | 10 | `dot` | a, b: x y z each | 1 |
//! | 11 | `cross` | a, b: x y z each | 3 |
//! | 12 | `cmp_vec3` | a, b: x y z each | 1: 0 to 2 |
//! | 13 | `transform_point` | 16 of the matrix by rows, x y z | 4 |
//! | 14 | `transform_vector` | 16 of the matrix by rows, x y z | 3 |
//! | 15 | `transform_box` | min x y z, max x y z, 16 of the matrix by rows | 6: min x y z, max x y z |
//!
//! `replay` knows more operations, from 16 hexadecimal on: rust/table has them, and writes their lines.

use crate::check::hard_cases;
use crate::inputs::Inputs;
use crate::operation::{is_open, Operation};
use crate::random::Random;
use std::fmt::Write;

/// Cases of one operation: hard ones, then random ones.
const HARD: usize = 64;
const CASES: usize = 95;

/// The whole file for a seed.
pub fn text(operations: &[Operation], seed: u64) -> String {
    let mut numbered: Vec<(u8, &Operation)> = operations.iter().filter_map(|op| Some((op.number?, op))).collect();
    numbered.sort_by_key(|&(number, _)| number);
    let mut out = String::new();
    for (number, op) in numbered {
        for case in sample(op, seed ^ number as u64) {
            line(&mut out, number, op, &case);
        }
    }
    out
}

fn sample(op: &Operation, seed: u64) -> Vec<Vec<u32>> {
    let mut cases = hard_cases(op.shape);
    // With up to two inputs the hardest come first; beyond that no place is harder than another.
    if op.shape.len() > 2 {
        shuffle(&mut cases, seed);
    }
    cases.truncate(HARD);
    let mut inputs = Inputs::new(seed);
    while cases.len() < CASES {
        let mut case = vec![0; op.shape.len()];
        inputs.fill(op.shape, &mut case);
        cases.push(case);
    }
    cases.retain(|case| !(matches!(op.name, "min_number" | "max_number") && is_open(case)));
    cases
}

fn shuffle(cases: &mut [Vec<u32>], seed: u64) {
    let mut random = Random::new(seed);
    for last in (1..cases.len()).rev() {
        cases.swap(last, random.below(last + 1));
    }
}

fn line(out: &mut String, number: u8, op: &Operation, case: &[u32]) {
    write!(out, "{number:02x}").expect("a string takes every word");
    for word in case.iter().chain((op.theirs)(case).as_slice()) {
        write!(out, " {word:08x}").expect("a string takes every word");
    }
    out.push('\n');
}

#[cfg(test)]
mod tests {
    use super::*;
    use std::io::Write;

    /// Reads the file as the table says and asks the proved library.
    #[test]
    fn the_library_replays_every_line() {
        if let Some(why) = oracle::missing() {
            // Not eprintln, which a test that passes keeps to itself.
            let _ = writeln!(std::io::stderr(), "the_library_replays_every_line is left out: {why}");
            return;
        }
        let operations = crate::operation::all();
        let text = text(&operations, 1);
        let mut seen = std::collections::BTreeSet::new();
        for line in text.lines() {
            let mut fields = line.split(' ');
            let number = fields.next().expect("a number");
            assert_eq!(number.len(), 2);
            let number = u8::from_str_radix(number, 16).expect("hexadecimal");
            let words: Vec<u32> = fields
                .inspect(|f| assert!(f.len() == 8 && **f == f.to_lowercase()))
                .map(|f| u32::from_str_radix(f, 16).expect("hexadecimal"))
                .collect();
            let op = operations.iter().find(|op| op.number == Some(number)).expect("a known number");
            let (case, expected) = words.split_at(op.shape.len());
            assert_eq!((op.ours)(case).as_slice(), expected, "{line}");
            seen.insert(number);
        }
        assert!(seen.into_iter().eq(0x01..=0x15));
        assert!(text.ends_with('\n'));
    }
}
