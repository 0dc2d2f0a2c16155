//! What can go wrong, in words that say what to change, and the exit status that goes with it.

use crate::json::Json;
use bounds::walk::Refused;
use bounds::Refusal;
use std::{fmt, io};

/// Why a command gives no answer.
#[derive(Debug)]
pub enum Failure {
    /// The command line is not one of those that `--help` shows.
    Usage(String),
    /// A file cannot be read or written, or does not hold what it should.
    File(String),
    /// The library refuses the input, or a value cannot be accounted for.
    Refused(String),
    /// Standard output does not take the answer.
    Output(io::Error),
}

impl Failure {
    /// 1 for a refusal, 2 for usage and files.
    pub fn status(&self) -> u8 {
        match self {
            Failure::Refused(_) => 1,
            Failure::Usage(_) | Failure::File(_) | Failure::Output(_) => 2,
        }
    }

    /// For programs: the words and the status.
    pub fn json(&self) -> String {
        let status = Json::Number(self.status() as i64);
        format!("{}\n", Json::Object(vec![("error", self.to_string().into()), ("status", status)]))
    }

    /// A file that cannot be reached.
    pub fn reach(path: &str, doing: &str, error: &io::Error) -> Failure {
        Failure::File(format!("{path}: cannot be {doing}: {error}"))
    }
}

impl From<Refusal> for Failure {
    fn from(refusal: Refusal) -> Failure {
        Failure::Refused(refusal.to_string())
    }
}

impl From<Refused> for Failure {
    fn from(refused: Refused) -> Failure {
        Failure::Refused(refused.to_string())
    }
}

impl fmt::Display for Failure {
    fn fmt(&self, f: &mut fmt::Formatter) -> fmt::Result {
        match self {
            Failure::Usage(words) => write!(f, "bounds: {words}\n`bounds --help` shows the commands, with examples"),
            Failure::File(words) | Failure::Refused(words) => write!(f, "bounds: {words}"),
            Failure::Output(error) => write!(f, "bounds: standard output cannot be written: {error}"),
        }
    }
}
