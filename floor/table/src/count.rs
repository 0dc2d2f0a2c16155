//! What the program `replay` prints: of each operation its cases and those whose recorded answer is not Rust's own, and
//! of all lines how many are no case.
use crate::operation::{all, Operation};
use std::io::{self, Read, Write};

/// The words of a line's fields, each of eight lower-case hexadecimal digits after one space.
fn words(fields: &str) -> Option<Vec<u32>> {
    let digits = |f: &str| f.len() == 8 && f.bytes().all(|c| matches!(c, b'0'..=b'9' | b'a'..=b'f'));
    let words = fields.strip_prefix(' ')?.split(' ');
    words.map(|f| digits(f).then(|| u32::from_str_radix(f, 16).ok())?).collect()
}

/// The operation and whether the recorded answer is ours; nothing where the line is no case.
fn judge<'a>(operations: &'a [Operation], line: &str) -> Option<(&'a Operation, bool)> {
    let (number, fields) = line.split_at_checked(2)?;
    let op = operations.iter().find(|op| number == format!("{:02x}", op.number))?;
    let words = words(fields)?;
    let (case, recorded) = words.split_at_checked(op.inputs)?;
    let ours = (op.answer)(case);
    (ours.len() == recorded.len()).then(|| (op, ours == recorded))
}

pub fn print(mut cases: impl Read, out: &mut impl Write) -> io::Result<()> {
    let mut text = String::new();
    cases.read_to_string(&mut text)?;
    let operations = all();
    let (mut counts, mut misses, mut bad) = (vec![0; operations.len() + 1], vec![0; operations.len() + 1], 0);
    // A line without its end is no case.
    let (lines, rest) = text.rsplit_once('\n').map_or((None, text.as_str()), |(lines, rest)| (Some(lines), rest));
    for line in lines.into_iter().flat_map(|lines| lines.split('\n')) {
        match judge(&operations, line) {
            Some((op, agrees)) => {
                counts[op.number] += 1;
                misses[op.number] += usize::from(!agrees);
            }
            None => bad += 1,
        }
    }
    bad += usize::from(!rest.is_empty());
    for op in &operations {
        writeln!(out, "{:02x} {} {}", op.number, counts[op.number], misses[op.number])?;
    }
    let (cases, misses) = (counts.iter().sum::<usize>(), misses.iter().sum::<usize>());
    writeln!(out, "lines {} mismatches {misses} bad {bad}", cases + bad)
}
