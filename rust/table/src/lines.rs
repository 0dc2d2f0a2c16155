//! What `replay` reads beside the reference's answers: the hard cases with their right answers, then lines that are
//! wrong, so many for each operation as its number says, and lines that are no case.
use crate::cases::{BOXES, COUNTS, FACTORS, INTEGERS, MATRICES, POINTS, WORDS};
use crate::operation::{all, is_open, Operation};
use std::io::{self, Write};

/// The hard cases of an operation: all words, pairs, points or transforms of the lists.
fn hard(op: &Operation) -> Vec<Vec<u32>> {
    let points = POINTS.iter().map(|p| p.to_vec());
    let crossed = |first: &[Vec<u32>], second: &[Vec<u32>]| -> Vec<Vec<u32>> {
        first.iter().flat_map(|a| second.iter().map(move |b| [a.as_slice(), b].concat())).collect()
    };
    let words: Vec<Vec<u32>> = WORDS.iter().map(|&w| vec![w]).collect();
    match (op.number, op.inputs) {
        (0x0d, _) => COUNTS.iter().map(|&n| vec![n as u32]).collect(),
        // the low 16 bits of whole numbers too
        (0x0a, _) => words.into_iter().chain(INTEGERS.iter().map(|&n| vec![(n as f32).to_bits()])).collect(),
        (_, 1) => words,
        (_, 2) => crossed(&words, &words),
        (_, 3) => points.collect(),
        (_, 4) => crossed(&points.collect::<Vec<_>>(), &FACTORS.map(|k| vec![k])),
        (_, 6) => crossed(&points.clone().collect::<Vec<_>>(), &points.collect::<Vec<_>>()),
        (_, 19) => crossed(&MATRICES.map(|m| m.to_vec()), &points.collect::<Vec<_>>()),
        _ => MATRICES.iter().flat_map(|m| BOXES.iter().map(|b| [&b[..], &m[..]].concat())).collect(),
    }
}

fn line(number: usize, words: &[u32]) -> String {
    words.iter().fold(format!("{number:02x}"), |line, w| line + &format!(" {w:08x}"))
}

/// How many wrong lines an operation gets: not the same for all, so that a count at another's place is seen.
fn wrong_lines(number: usize) -> usize {
    number % 4 + 1
}

/// Lines that no operation has.
const BAD: [&str; 16] = [
    "",
    "1",
    "01",
    "00 00000000 00000000",
    "24 00000000 00000000",
    "0g 00000000 00000000",
    "01 00000000",
    "01 00000000 0000000",
    "01 00000000 000000000",
    "01 00000000 00000000 ",
    "01  00000000 00000000",
    "01 00000000-00000000",
    "01 7FC00000 7FC00000",
    "01 00000000 00000000 00000000",
    " 01 00000000 00000000",
    "ff ffffffff ffffffff",
];

/// The lines that follow the reference's answers.
pub fn print(out: &mut impl Write) -> io::Result<()> {
    let operations = all();
    for op in &operations {
        for case in hard(op).iter().filter(|case| !is_open(op.number, case)) {
            writeln!(out, "{}", line(op.number, &[case.as_slice(), &(op.answer)(case)].concat()))?;
        }
    }
    for op in &operations {
        for (k, case) in
            hard(op).iter().filter(|case| !is_open(op.number, case)).take(wrong_lines(op.number)).enumerate()
        {
            let mut answer = (op.answer)(case);
            let at = answer.len() - 1 - k % answer.len();
            answer[at] ^= 1 << (7 * k);
            writeln!(out, "{}", line(op.number, &[case.as_slice(), &answer].concat()))?;
        }
    }
    for bad in BAD {
        writeln!(out, "{bad}")?;
    }
    // longer than any case, with a case at its start
    writeln!(out, "01 00000000 00000000{}", " 00000000".repeat(40))?;
    // a case but for the end of its line
    write!(out, "01 00000000 00000000")
}
