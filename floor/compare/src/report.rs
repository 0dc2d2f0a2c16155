//! The comparison of one operation: its cases one after another, a line of progress while they run, and the closing table.

use bounds::Refusal;
use std::io::{stderr, IsTerminal, Write};
use std::time::{Duration, Instant};

/// One line of the table.
pub struct Line {
    pub operation: String,
    pub cases: u64,
    pub mismatches: u64,
    /// The smallest input found, and both answers to it.
    pub smallest: Option<String>,
    /// What the cases reached: a count to a line.
    pub reached: Vec<String>,
}

/// What is compared: a name, so many cases or as many as are fixed, the fixed ones first.
pub struct Cases<C> {
    pub name: String,
    pub count: u64,
    pub fixed: Vec<C>,
}

impl<C> Cases<C> {
    pub fn new(name: &str, count: u64, fixed: Vec<C>) -> Cases<C> {
        Cases { name: name.to_string(), count: count.max(fixed.len() as u64), fixed }
    }

    /// Asks `differs` about each case, with its number, for what is not the same. Those that are not fixed come from `next`,
    /// which is given the one before, to be filled again. Of those that differ, the one of least size, the first of several,
    /// is described.
    pub fn compared(
        self,
        mut next: impl FnMut(Option<C>) -> C,
        mut differs: impl FnMut(&C, u64) -> Result<(), String>,
        size: impl Fn(&C) -> usize,
        describe: impl FnOnce(C, String) -> String,
    ) -> Line {
        let Cases { name, count, fixed } = self;
        let mut progress = Progress::new(&name, count);
        let (mut mismatches, mut smallest, mut spent) = (0, None::<(usize, C, String)>, None);
        let mut fixed = fixed.into_iter();
        for done in 0..count {
            let case = fixed.next().unwrap_or_else(|| next(spent.take()));
            match differs(&case, done) {
                Ok(()) => spent = Some(case),
                Err(why) => {
                    mismatches += 1;
                    if smallest.as_ref().is_none_or(|(least, ..)| size(&case) < *least) {
                        smallest = Some((size(&case), case, why));
                    }
                }
            }
            if done % 64 == 0 {
                progress.at(done);
            }
        }
        progress.end(mismatches);
        let smallest = smallest.map(|(_, case, why)| describe(case, why));
        Line { operation: name, cases: count, mismatches, smallest, reached: Vec::new() }
    }
}

/// What differs, and the case as it stands, as much as can be read.
pub fn shown<C: std::fmt::Debug>(case: C, why: String) -> String {
    format!("{why}\n  {case:?}").chars().take(4_000).collect()
}

impl Line {
    pub fn reaching(self, reached: Vec<String>) -> Line {
        Line { reached, ..self }
    }
}

/// How often each refusal was answered, and how often none.
#[derive(Default)]
pub struct Refusals([u64; 14]);

impl Refusals {
    pub fn note<T>(&mut self, answer: &Result<T, Refusal>) {
        self.0[answer.as_ref().err().map_or(0, |refusal| refusal.number() as usize)] += 1;
    }

    pub fn of(&self, number: usize) -> u64 {
        self.0[number]
    }

    /// Those that were not refused.
    pub fn none(&self) -> u64 {
        self.0[0]
    }

    pub fn lines<'a>(&'a self, numbers: &'a [usize]) -> impl Iterator<Item = String> + 'a {
        numbers.iter().map(|&number| format!("refused {number}: {}", self.0[number]))
    }
}

/// The table, and below it each mismatch.
pub fn table(lines: &[Line]) -> String {
    let width = lines.iter().map(|l| l.operation.len()).max().unwrap_or(0).max(9);
    let mut out = format!("{:width$}  {:>13}  {:>10}\n", "operation", "cases", "mismatches");
    for l in lines {
        out += &format!("{:width$}  {:>13}  {:>10}\n", l.operation, l.cases, l.mismatches);
    }
    let (cases, mismatches) = lines.iter().fold((0, 0), |(c, m), l| (c + l.cases, m + l.mismatches));
    out += &format!("{:width$}  {cases:>13}  {mismatches:>10}\n", "all");
    for l in lines.iter().filter(|l| !l.reached.is_empty()) {
        out += &format!("\n{}\n", l.operation);
        l.reached.iter().for_each(|what| out += &format!("  {what}\n"));
    }
    for l in lines {
        if let Some(smallest) = &l.smallest {
            out += &format!("\n{}: {smallest}\n", l.operation);
        }
    }
    out
}

/// Says on standard error how far an operation is, at most twice a second; only at its end where nobody watches.
pub struct Progress {
    name: String,
    of: u64,
    begun: Instant,
    said: Instant,
    watched: bool,
}

impl Progress {
    pub fn new(name: &str, of: u64) -> Progress {
        let now = Instant::now();
        Progress { name: name.to_string(), of, begun: now, said: now, watched: stderr().is_terminal() }
    }

    pub fn at(&mut self, done: u64) {
        if self.watched && self.said.elapsed() > Duration::from_millis(500) {
            self.said = Instant::now();
            eprint!("\r{:24} {:3} %", self.name, 100 * done / self.of.max(1));
            let _ = stderr().flush();
        }
    }

    pub fn end(&self, mismatches: u64) {
        let begin = if self.watched { "\r" } else { "" };
        let seconds = self.begun.elapsed().as_secs_f32();
        eprintln!("{begin}{:24} {} cases, {mismatches} mismatches, {seconds:.1} s", self.name, self.of);
    }
}

/// Whether the test that runs has to be left out, which is then said: the reference is not there.
#[cfg(test)]
pub(crate) fn left_out() -> bool {
    let test = std::thread::current();
    let said = |why: &&str| writeln!(stderr(), "{} is left out: {why}", test.name().unwrap_or("a test"));
    // Not eprintln, which a test that passes keeps to itself.
    oracle::missing().inspect(|why| drop(said(why))).is_some()
}

/// Leaves the test where the reference is not there.
#[cfg(test)]
macro_rules! needs_reference {
    () => {
        if crate::report::left_out() {
            return;
        }
    };
}
#[cfg(test)]
pub(crate) use needs_reference;

#[cfg(test)]
impl Line {
    /// Nothing differs.
    pub(crate) fn same(&self) {
        assert_eq!((self.mismatches, &self.smallest), (0, &None));
    }

    /// Nothing differs, and nothing that is counted was never reached.
    pub(crate) fn holds(&self) {
        self.same();
        let never = |what: &&String| what.split(": ").skip(1).any(|n| n.split([';', ',']).next() == Some("0"));
        assert_eq!(self.reached.iter().find(never), None, "{:?}", self.reached);
    }
}

/// Each of these wrong steps is found by one of 40,000 cases, of which `next` gives one with what is expected of it.
#[cfg(test)]
pub(crate) fn all_found<W: Copy + std::fmt::Debug, C>(
    wrong: &[W],
    mut next: impl FnMut() -> C,
    finds: impl Fn(&C, W, u64) -> bool,
) {
    let mut missed = wrong.to_vec();
    for done in 0..40_000 {
        let case = next();
        missed.retain(|&wrong| !finds(&case, wrong, done));
        if missed.is_empty() {
            return;
        }
    }
    panic!("not found: {missed:?}");
}

#[cfg(test)]
mod tests {
    use super::*;

    /// The numbers 8, 6 and 7, then 0, 1, 2 and so on up to so many in all, of which `wrong` ones differ.
    fn line(count: u64, wrong: fn(u64) -> bool) -> Line {
        let mut random = 0..;
        let next = |_| random.next().expect("without end");
        let differs = |&case: &u64, done| if wrong(case) { Err(format!("case {done}")) } else { Ok(()) };
        let describe = |case, why| format!("{why}: {case}");
        Cases::new("numbers", count, vec![8, 6, 7]).compared(next, differs, |&case| case as usize / 4, describe)
    }

    #[test]
    fn fixed_cases_come_first_and_all_of_them() {
        let even = |count| line(count, |case| case % 2 == 0);
        assert_eq!((even(0).cases, even(0).mismatches), (3, 2));
        assert_eq!((even(7).cases, even(7).mismatches), (7, 4));
        line(7, |case| case > 8).same();
    }

    #[test]
    fn the_smallest_that_differs_is_described_and_of_several_the_first() {
        assert_eq!(line(3, |_| true).smallest.as_deref(), Some("case 1: 6"));
        assert_eq!(line(7, |_| true).smallest.as_deref(), Some("case 3: 0"));
        assert_eq!(line(7, |case| case == 3 || case > 6).smallest.as_deref(), Some("case 6: 3"));
    }

    #[test]
    fn what_was_never_reached_is_told() {
        let reaching = |what: &str| {
            let line = line(3, |_| false).reaching(vec!["seen: 10".to_string(), what.to_string()]);
            std::panic::catch_unwind(|| line.holds()).is_ok()
        };
        assert!(["refused 2: 1", "most: 20; least: 05", "3: first 0, last 0"].into_iter().all(reaching));
        assert!(!["refused 2: 0", "most: 0; least: 2", "5: 1; 6: 0", "5: 1; 6: 0, 2"].into_iter().any(reaching));
    }

    #[test]
    #[should_panic(expected = "not found: [2]")]
    fn a_wrong_step_that_no_case_finds_is_told() {
        all_found(&[0, 1, 2], || 1, |&case, wrong, done| wrong == case || wrong == 0 && done == 9);
    }
}
