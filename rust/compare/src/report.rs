//! What was compared: a line of progress while it runs, and the closing table.

use std::io::{stderr, IsTerminal, Write};
use std::time::{Duration, Instant};

/// One line of the table.
pub struct Line {
    pub operation: String,
    pub cases: u64,
    pub mismatches: u64,
    /// The smallest input found, and both answers to it.
    pub smallest: Option<String>,
    /// What the cases reached: a count to a line.
    pub reached: Vec<String>,
}

/// The table, and below it each mismatch.
pub fn table(lines: &[Line]) -> String {
    let width = lines.iter().map(|l| l.operation.len()).max().unwrap_or(0).max(9);
    let mut out = format!("{:width$}  {:>13}  {:>10}\n", "operation", "cases", "mismatches");
    for l in lines {
        out += &format!("{:width$}  {:>13}  {:>10}\n", l.operation, l.cases, l.mismatches);
    }
    let (cases, mismatches) = lines.iter().fold((0, 0), |(c, m), l| (c + l.cases, m + l.mismatches));
    out += &format!("{:width$}  {cases:>13}  {mismatches:>10}\n", "all");
    for l in lines.iter().filter(|l| !l.reached.is_empty()) {
        out += &format!("\n{}\n", l.operation);
        l.reached.iter().for_each(|what| out += &format!("  {what}\n"));
    }
    for l in lines {
        if let Some(smallest) = &l.smallest {
            out += &format!("\n{}: {smallest}\n", l.operation);
        }
    }
    out
}

/// Says on standard error how far an operation is, at most twice a second; only at its end where nobody watches.
pub struct Progress {
    name: String,
    of: u64,
    begun: Instant,
    said: Instant,
    watched: bool,
}

impl Progress {
    pub fn new(name: &str, of: u64) -> Progress {
        let now = Instant::now();
        Progress { name: name.to_string(), of, begun: now, said: now, watched: stderr().is_terminal() }
    }

    pub fn at(&mut self, done: u64) {
        if self.watched && self.said.elapsed() > Duration::from_millis(500) {
            self.said = Instant::now();
            eprint!("\r{:24} {:3} %", self.name, 100 * done / self.of.max(1));
            let _ = stderr().flush();
        }
    }

    pub fn end(&self, mismatches: u64) {
        let begin = if self.watched { "\r" } else { "" };
        let seconds = self.begun.elapsed().as_secs_f32();
        eprintln!("{begin}{:24} {} cases, {mismatches} mismatches, {seconds:.1} s", self.name, self.of);
    }
}
