//! Instructions of one pass, counted by callgrind: unlike times they are the same in every run. This program runs itself
//! under valgrind, one side of one size at a time, and only the pass is counted.

use crate::subjects::{Pass, Side, Subject};
use std::hint::black_box;
use std::process::Command;

/// The word that asks this program for one pass.
pub const WORD: &str = "count-one-pass";

/// Whether valgrind can be run.
pub fn valgrind() -> bool {
    Command::new("valgrind").arg("--version").output().is_ok_and(|out| out.status.success())
}

/// Of each side of this size.
pub fn counted(subject: &Subject, size: usize, sides: &[Side], seed: u64) -> Result<Vec<(Side, u64)>, String> {
    sides.iter().map(|&side| Ok((side, one(subject, size, side, seed)?))).collect()
}

fn one(subject: &Subject, size: usize, side: Side, seed: u64) -> Result<u64, String> {
    let me = std::env::current_exe().map_err(|e| format!("this program's own file: {e}"))?;
    let out = Command::new("valgrind")
        .args(["--tool=callgrind", "--callgrind-out-file=/dev/null", "--toggle-collect=bench_counted_pass"])
        .arg(me)
        .args([WORD, subject.name, side.name()])
        .args([size.to_string(), seed.to_string()])
        .output()
        .map_err(|e| format!("valgrind: {e}"))?;
    let said = String::from_utf8_lossy(&out.stderr);
    collected(&said).filter(|_| out.status.success()).ok_or_else(|| format!("valgrind gave no count:\n{said}"))
}

/// The count among what callgrind says at its end.
fn collected(said: &str) -> Option<u64> {
    said.lines().find_map(|line| line.split_once("Collected :")?.1.trim().parse().ok())
}

/// What the counted process does: NAME SIDE SIZE SEED, one pass unseen and one that is counted.
pub fn pass(subjects: &[Subject], words: &[String]) -> Result<(), String> {
    let [name, side, size, seed] = words else { return Err(format!("{WORD} takes four words")) };
    let subject = subjects.iter().find(|s| s.name == *name).ok_or(format!("{name}: no such operation"))?;
    let number = |word: &str| word.parse::<u64>().map_err(|_| format!("{word}: not a number"));
    let work = (subject.work)(number(size)? as usize, number(seed)?);
    let found = work.passes.into_iter().find(|(of, _)| of.name() == side);
    let (_, mut pass) = found.ok_or(format!("{side}: no such side"))?;
    pass();
    bench_counted_pass(&mut pass);
    Ok(())
}

/// By this name callgrind finds what to count. The pass is no tail call: the function must last as long as it.
#[no_mangle]
#[inline(never)]
extern "C" fn bench_counted_pass(pass: &mut Pass) {
    pass();
    black_box(());
}

#[cfg(test)]
mod tests {
    use super::*;

    #[test]
    fn the_count_is_found() {
        let said = "==7== \n==7== Events    : Ir\n==7== Collected : 1234567\n==7== \n";
        assert_eq!(collected(said), Some(1_234_567));
        assert_eq!(collected("==7== Events    : Ir\n"), None);
    }
}
