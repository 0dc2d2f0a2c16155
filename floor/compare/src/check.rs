//! Runs an operation over hard and random inputs, and shrinks what does not match.

use crate::inputs::{hard, Input, Inputs, CORE};
use crate::operation::Operation;
use crate::report::{Cases, Line};

/// The hard cases of a shape: all of them for one or two inputs; for three, those of the core; else each hard word in
/// each place, the others being small whole numbers.
pub fn hard_cases(shape: &[Input]) -> Vec<Vec<u32>> {
    let words: Vec<Vec<u32>> = shape.iter().map(|&i| hard(i)).collect();
    match shape.len() {
        1 => words[0].iter().map(|&a| vec![a]).collect(),
        2 => pairs(&words[0], &words[1]),
        3 => triples(),
        _ => one_at_a_time(&words),
    }
}

/// The pairs of the core come first.
fn pairs(first: &[u32], second: &[u32]) -> Vec<Vec<u32>> {
    let all = |a: &[u32], b: &[u32]| a.iter().flat_map(|&x| b.iter().map(move |&y| vec![x, y])).collect::<Vec<_>>();
    let mut cases = all(&CORE, &CORE);
    cases.extend(all(first, second).into_iter().filter(|p| !(CORE.contains(&p[0]) && CORE.contains(&p[1]))));
    cases
}

fn triples() -> Vec<Vec<u32>> {
    let mut cases = Vec::new();
    for x in CORE {
        for y in CORE {
            cases.extend(CORE.iter().map(|&z| vec![x, y, z]));
        }
    }
    cases
}

fn one_at_a_time(words: &[Vec<u32>]) -> Vec<Vec<u32>> {
    let plain: Vec<u32> = (0..words.len()).map(|i| (i as f32 - 2.0).to_bits()).collect();
    let mut cases = Vec::new();
    for (at, hard) in words.iter().enumerate() {
        for &word in hard {
            let mut case = plain.clone();
            case[at] = word;
            cases.push(case);
        }
    }
    cases
}

/// The hard cases, then random ones up to `cases` in all.
pub fn run(op: &Operation, seed: u64, cases: u64) -> Line {
    // Each operation has its own inputs, so that adding one does not change the others'.
    let mut inputs = Inputs::new(seed ^ hash(op.name));
    let next = |spent: Option<Vec<u32>>| {
        let mut case = spent.unwrap_or_else(|| vec![0; op.shape.len()]);
        inputs.fill(op.shape, &mut case);
        case
    };
    let asked = |case: &Vec<u32>, _| if differs(op, case) { Err(String::new()) } else { Ok(()) };
    let shrunk = |case, _| describe(op, &shrink(op.shape, case, |c| differs(op, c)));
    Cases::new(op.name, cases, hard_cases(op.shape)).compared(next, asked, |_| 0, shrunk)
}

fn differs(op: &Operation, case: &[u32]) -> bool {
    (op.ours)(case) != (op.theirs)(case)
}

fn hash(name: &str) -> u64 {
    name.bytes().fold(0xCBF2_9CE4_8422_2325, |h, b| (h ^ b as u64).wrapping_mul(0x0000_0100_0000_01B3))
}

fn describe(op: &Operation, case: &[u32]) -> String {
    let hex = |words: &[u32]| words.iter().map(|w| format!("{w:08X}")).collect::<Vec<_>>().join(" ");
    let floats: Vec<String> = case.iter().map(|&w| format!("{:e}", f32::from_bits(w))).collect();
    let shown = if op.shape.contains(&Input::Float) { format!(" ({})", floats.join(", ")) } else { String::new() };
    let (ours, theirs) = ((op.ours)(case), (op.theirs)(case));
    format!(
        "input {}{shown}\n  proved library  {}\n  reference       {}",
        hex(case),
        hex(ours.as_slice()),
        hex(theirs.as_slice())
    )
}

/// The smallest case that still fails, one word at a time: smaller means plainer, by [`weight`].
pub fn shrink(shape: &[Input], mut case: Vec<u32>, fails: impl Fn(&[u32]) -> bool) -> Vec<u32> {
    loop {
        let before = case.clone();
        for at in 0..case.len() {
            let mut tries = plainer(shape[at], case[at]);
            tries.sort_by_key(|&w| weight(w));
            for word in tries {
                let kept = std::mem::replace(&mut case[at], word);
                if fails(&case) {
                    break;
                }
                case[at] = kept;
            }
        }
        if case == before {
            return case;
        }
    }
}

/// Zero, then the numbers with few bits, then with many.
fn weight(word: u32) -> (u32, u32) {
    let rank = [0, 0x3F80_0000, 0x8000_0000].iter().position(|&w| w == word);
    rank.map_or((3 + word.count_ones(), word), |r| (r as u32, 0))
}

/// Words to try in place of this one, all of less weight.
fn plainer(input: Input, word: u32) -> Vec<u32> {
    let mut tries =
        vec![0, 1, 0x3F80_0000, 0x8000_0000, 0x4000_0000, 0x7FC0_0000, 0x7F80_0000, word & 0x7FFF_FFFF, word >> 1];
    tries.extend((0..32).map(|bit| word & !(1 << bit)));
    tries.extend((1..24).map(|low| word >> low << low));
    tries.retain(|&w| weight(w) < weight(word) && (input != Input::Count || w < 0x1_0000));
    tries
}

#[cfg(test)]
mod tests {
    use super::*;

    #[test]
    fn a_failing_case_shrinks_to_the_plainest() {
        let fails = |c: &[u32]| f32::from_bits(c[0]) > 3.0 && c[1] & 4 != 0;
        let small = shrink(&[Input::Float, Input::Number], vec![0x4B7F_FFFF, 0xDEAD_BEEF], fails);
        assert!(fails(&small));
        assert_eq!(small[1], 4);
        assert!(small[0].count_ones() <= 3, "{:08X}", small[0]);
    }

    #[test]
    fn hard_cases_of_one_and_two_inputs_are_all_of_them() {
        let n = hard(Input::Float).len();
        assert_eq!(hard_cases(&[Input::Float]).len(), n);
        assert_eq!(hard_cases(&[Input::Float; 2]).len(), n * n);
    }
}
