//! What can go wrong, in words that say what to change, and the exit status that goes with it.

use crate::json::Json;
use bounds::walk::Refused;
use bounds::Refusal;
use std::{fmt, io};

/// Why a command gives no answer.
#[derive(Debug)]
pub enum Failure {
    /// The command line is not one of those that `--help` shows.
    Usage(String),
    /// A file cannot be read or written, or does not hold what it should.
    File(String),
    /// The library refuses the input, by its number and in words.
    Library(u32, String),
    /// A value cannot be accounted for.
    Refused(String),
    /// Standard output does not take the answer.
    Output(io::Error),
}

impl Failure {
    /// 1 for a refusal, 2 for usage and files.
    pub fn status(&self) -> u8 {
        match self {
            Failure::Library(..) | Failure::Refused(_) => 1,
            Failure::Usage(_) | Failure::File(_) | Failure::Output(_) => 2,
        }
    }

    /// The library's number of a refusal.
    pub fn refusal(&self) -> Option<u32> {
        match self {
            Failure::Library(number, _) => Some(*number),
            _ => None,
        }
    }

    /// For programs: the words, the status, and the library's number where it is its refusal.
    pub fn json(&self) -> String {
        let number = |n: u32| Json::Number(n as i64);
        let members = vec![
            ("error", self.to_string().into()),
            ("status", number(self.status() as u32)),
            ("refusal", self.refusal().map(number).into()),
        ];
        format!("{}\n", Json::Object(members))
    }

    /// A refusal of the library, with words around what it says.
    pub fn library(refusal: Refusal, words: String) -> Failure {
        Failure::Library(refusal.number(), words)
    }

    /// A file that cannot be reached.
    pub fn reach(path: &str, doing: &str, error: &io::Error) -> Failure {
        Failure::File(format!("{path}: cannot be {doing}: {error}"))
    }
}

impl From<Refusal> for Failure {
    fn from(refusal: Refusal) -> Failure {
        Failure::library(refusal, refusal.to_string())
    }
}

impl From<Refused> for Failure {
    fn from(refused: Refused) -> Failure {
        Failure::library(refused.refusal, refused.to_string())
    }
}

impl fmt::Display for Failure {
    fn fmt(&self, f: &mut fmt::Formatter) -> fmt::Result {
        match self {
            Failure::Usage(words) => write!(f, "bounds: {words}\n`bounds --help` shows the commands, with examples"),
            Failure::File(words) | Failure::Library(_, words) | Failure::Refused(words) => write!(f, "bounds: {words}"),
            Failure::Output(error) => write!(f, "bounds: standard output cannot be written: {error}"),
        }
    }
}

#[cfg(test)]
mod tests {
    use super::*;

    #[test]
    fn a_refusal_has_its_number_and_other_failures_none() {
        let refused = Failure::from(Refusal::TooManyNodes);
        assert!(refused.json().ends_with("\"status\": 1, \"refusal\": 4}\n"), "{}", refused.json());
        let usage = Failure::Usage("no command is given".into());
        assert!(usage.json().ends_with("\"status\": 2, \"refusal\": null}\n"), "{}", usage.json());
    }
}
