//! The command line: which command, its words and its options.

use crate::boxes::{number, point, Form};
use crate::commands;
use crate::dump::Loading;
use crate::failure::Failure;
use crate::mesh::Given;
use crate::{help, output};
use bounds::{Geometry, Vec3};

/// A command: its name, what it does in a line, the options that it takes, and how many words at least and at most.
pub struct Command {
    pub name: &'static str,
    pub does: &'static str,
    pub options: &'static [&'static str],
    pub words: (usize, usize),
    pub run: fn(&Line) -> Result<Answer, Failure>,
    pub help: &'static str,
}

/// What a command answers, and the exit status that goes with it.
pub struct Answer {
    pub text: String,
    pub status: u8,
}

impl Answer {
    /// An answer with status 0.
    pub fn of(text: impl Into<String>) -> Answer {
        Answer { text: text.into(), status: 0 }
    }
}

/// The words and options of a command line.
#[derive(Debug, Default)]
pub struct Line {
    pub words: Vec<String>,
    pub options: Vec<(String, String)>,
}

/// Options that are followed by a word.
const WITH_VALUE: [&str; 7] = ["--threshold", "--kind", "--margin", "--out", "-o", "--all", "--query"];

/// Options that are not.
const ALONE: [&str; 4] = ["--json", "--text", "--records", "--help"];

impl Line {
    /// Cuts a command line into words and options. What begins with `-` and is a point is a word.
    pub fn of(given: &[String]) -> Result<Line, Failure> {
        let mut line = Line::default();
        let mut rest = given.iter();
        while let Some(word) = rest.next() {
            let word = if word == "-h" { "--help" } else { word };
            if WITH_VALUE.contains(&word) {
                let value = rest.next().ok_or_else(|| Failure::Usage(format!("{word} needs a value behind it")))?;
                line.options.push((word.into(), value.clone()));
                if word == "--query" {
                    let second =
                        rest.next().ok_or_else(|| Failure::Usage("--query needs two corners: MIN MAX".into()))?;
                    line.options.push(("--query-max".into(), second.clone()));
                }
            } else if ALONE.contains(&word) {
                line.options.push((word.into(), String::new()));
            } else if word.starts_with('-') && word != "-" && point(word).is_none() {
                return Err(Failure::Usage(format!("option {word} is unknown")));
            } else {
                line.words.push(word.into());
            }
        }
        Ok(line)
    }

    /// An option's value, the last where it is given twice.
    pub fn option(&self, name: &str) -> Option<&str> {
        self.options.iter().rev().find(|(given, _)| given == name).map(|(_, value)| value.as_str())
    }

    pub fn json(&self) -> bool {
        self.option("--json").is_some()
    }

    pub fn threshold(&self) -> Result<Option<u32>, Failure> {
        let parse = |word: &str| {
            word.parse()
                .map_err(|_| Failure::Usage(format!("--threshold '{word}': expected a number from 1 to 32,767")))
        };
        self.option("--threshold").map(parse).transpose()
    }

    /// The kind and the margin of a mesh.
    pub fn mesh(&self) -> Result<Given, Failure> {
        let kind = |word: &str| match word {
            "4" => Ok(Geometry::PLAIN),
            "8" => Ok(Geometry::BVH),
            _ => Err(Failure::Usage(format!("--kind '{word}': expected 4 or 8"))),
        };
        let margin = |word: &str| number(word).map_err(|words| Failure::Usage(format!("--margin: {words}")));
        Ok(Given {
            kind: self.option("--kind").map(kind).transpose()?,
            margin: self.option("--margin").map(margin).transpose()?,
        })
    }

    pub fn form(&self) -> Option<Form> {
        let given = |name: &str, form: Form| self.option(name).map(|_| form);
        given("--text", Form::Text).or(given("--records", Form::Children))
    }

    /// How the dump that a command names is to be found.
    pub fn loading(&self) -> Result<Loading, Failure> {
        Ok(Loading { threshold: self.threshold()?, form: self.form(), mesh: self.mesh()? })
    }
}

/// A corner of a query: three numbers with commas.
pub fn corner(word: &str) -> Result<Vec3, Failure> {
    let wrong = || Failure::Usage(format!("'{word}' is no corner: expected three numbers with commas, as 6,0,0.5"));
    let [x, y, z] = point(word).ok_or_else(wrong)?;
    Ok(Vec3::new(x, y, z))
}

/// Runs a command line and answers the exit status. A program that asked for JSON has a failure as JSON too.
pub fn run(given: &[String]) -> Result<u8, Failure> {
    let answer = respond(given);
    match &answer {
        Ok(answer) => output::answer(&answer.text)?,
        Err(failure) if given.iter().any(|word| word == "--json") => output::answer(&failure.json())?,
        Err(_) => (),
    }
    answer.map(|answer| answer.status)
}

fn respond(given: &[String]) -> Result<Answer, Failure> {
    let line = Line::of(given)?;
    let Some((name, words)) = line.words.split_first() else {
        let asked = line.option("--help").is_some();
        return if asked {
            Ok(Answer::of(help::overview()))
        } else {
            Err(Failure::Usage("no command is given".into()))
        };
    };
    let table = commands::table();
    let Some(command) = table.iter().find(|command| command.name == name) else {
        return match (name.as_str(), words) {
            ("help", []) => Ok(Answer::of(help::overview())),
            _ => Err(Failure::Usage(format!("command '{name}' is unknown"))),
        };
    };
    if line.option("--help").is_some() {
        return Ok(Answer::of(help::of(command)));
    }
    check(command, words, &line)?;
    (command.run)(&Line { words: words.to_vec(), options: line.options })
}

/// Whether a command takes these words and options.
fn check(command: &Command, words: &[String], line: &Line) -> Result<(), Failure> {
    let taken = |name: &str| name == "--query-max" || name == "--json" || command.options.contains(&name);
    if let Some((name, _)) = line.options.iter().find(|(name, _)| !taken(name)) {
        return Err(Failure::Usage(format!("`bounds {}` takes no {name}", command.name)));
    }
    let (least, most) = command.words;
    if words.len() < least || words.len() > most {
        return Err(Failure::Usage(format!("expected: {}", command.help.lines().next().unwrap_or(""))));
    }
    Ok(())
}
