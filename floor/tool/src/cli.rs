//! The command line: which command, its words and its options.

use crate::boxes::{number, point, Form};
use crate::commands;
use crate::dump::Loading;
use crate::failure::Failure;
use crate::mesh::{Given, Up};
use crate::options::{self, Row};
use crate::output::Target;
use crate::world::merge::Merge;
use crate::{help, output};
use bounds::{Geometry, Vec3};

/// A command.
pub struct Command {
    pub name: &'static str,
    /// What it does, in a line.
    pub does: &'static str,
    /// The words behind its name, in each form that it has.
    pub forms: &'static [&'static str],
    /// How many words at least and at most.
    pub words: (usize, usize),
    /// The options that it takes, beside `--help`.
    pub options: &'static [&'static str],
    pub run: fn(&Line) -> Result<Answer, Failure>,
    /// What more there is to say of it, in paragraphs; a line that begins with two spaces stands as it is.
    pub help: &'static str,
    /// Command lines that show it, two spaces before each.
    pub examples: &'static str,
}

/// What a command answers, and the exit status that goes with it.
pub struct Answer {
    pub text: String,
    pub status: u8,
}

impl Answer {
    /// An answer with status 0.
    pub fn of(text: impl Into<String>) -> Answer {
        Answer { text: text.into(), status: 0 }
    }
}

/// The words and options of a command line.
#[derive(Debug, Default)]
pub struct Line {
    pub words: Vec<String>,
    /// An option's name, and the words behind it.
    pub options: Vec<(&'static str, Vec<String>)>,
}

impl Line {
    /// Cuts a command line into words and options. What begins with `-` and is a point is a word, and so is all behind `--`.
    pub fn of(given: &[String]) -> Result<Line, Failure> {
        let mut line = Line::default();
        let mut rest = given.iter();
        while let Some(word) = rest.next() {
            if word == "--" {
                line.words.extend(rest.by_ref().cloned());
            } else if word.starts_with('-') && word != "-" && point(word).is_none() {
                line.options.push(option(word, &mut rest)?);
            } else {
                line.words.push(word.clone());
            }
        }
        Ok(line)
    }

    /// The words behind an option, of the last where it is given twice.
    pub fn values(&self, name: &str) -> Option<&[String]> {
        self.options.iter().rev().find(|(given, _)| *given == name).map(|(_, values)| values.as_slice())
    }

    /// The word behind an option.
    pub fn option(&self, name: &str) -> Option<&str> {
        self.values(name)?.first().map(String::as_str)
    }

    /// Whether an option is given.
    pub fn has(&self, name: &str) -> bool {
        self.values(name).is_some()
    }

    pub fn json(&self) -> bool {
        self.has("--json")
    }

    /// Where the answer is to be written, if not to standard output.
    fn target(&self) -> Option<Target<'_>> {
        self.option("--out").map(|path| Target { path, force: self.has("--force") })
    }

    /// The file to be written, if there is one; asked for before the work is done, which would else be lost.
    pub fn file(&self) -> Result<Option<Target<'_>>, Failure> {
        self.target().map(|target| target.file().map(|()| target)).transpose()
    }

    /// The folder to be written, if there is one; asked for before the work is done.
    pub fn folder(&self) -> Result<Option<Target<'_>>, Failure> {
        self.target().map(|target| target.folder().map(|()| target)).transpose()
    }

    pub fn threshold(&self) -> Result<Option<u32>, Failure> {
        let parse = |word: &str| {
            word.parse()
                .map_err(|_| Failure::Usage(format!("--threshold '{word}': expected a number from 1 to 32,767")))
        };
        self.option("--threshold").map(parse).transpose()
    }

    /// The kind and the margin of a mesh, and which axis of its file is up.
    pub fn mesh(&self) -> Result<Given, Failure> {
        let kind = |word: &str| match word {
            "4" => Ok(Geometry::PLAIN),
            "8" => Ok(Geometry::BVH),
            _ => Err(Failure::Usage(format!("--kind '{word}': expected 4 or 8"))),
        };
        let up = |word: &str| match word {
            "y" => Ok(Up::Y),
            "z" => Ok(Up::Z),
            _ => Err(Failure::Usage(format!("--up '{word}': expected y or z"))),
        };
        Ok(Given {
            kind: self.option("--kind").map(kind).transpose()?,
            margin: self.option("--margin").map(margin).transpose()?,
            up: self.option("--up").map(up).transpose()?,
        })
    }

    /// Which materials are to be one.
    pub fn merge(&self) -> Result<Option<Merge>, Failure> {
        self.option("--merge-materials").map(Merge::read).transpose()
    }

    pub fn form(&self) -> Option<Form> {
        let given = |name: &str, form: Form| self.has(name).then_some(form);
        given("--text", Form::Text).or(given("--records", Form::Children))
    }

    /// How the dump that a command names is to be found.
    pub fn loading(&self) -> Result<Loading, Failure> {
        Ok(Loading { threshold: self.threshold()?, form: self.form(), mesh: self.mesh()? })
    }
}

/// An option and the words behind it; `--kind 4` and `--kind=4` are the same.
fn option<'a>(word: &str, rest: &mut impl Iterator<Item = &'a String>) -> Result<(&'static str, Vec<String>), Failure> {
    let (name, joined) = match word.split_once('=') {
        Some((name, value)) if name.starts_with("--") => (name, Some(value)),
        _ => (word, None),
    };
    let unknown = || Failure::Usage(format!("option {name} is unknown"));
    let Row { name, values: wanted, .. } = options::named(name).ok_or_else(unknown)?;
    if let (Some(value), []) = (joined, wanted) {
        return Err(Failure::Usage(format!("{name} takes no value: leave out '={value}'")));
    }
    let mut values: Vec<String> = joined.map(String::from).into_iter().collect();
    values.extend(rest.take(wanted.len() - values.len()).cloned());
    if values.len() < wanted.len() {
        let words = wanted[values.len()..].join(" ");
        return Err(Failure::Usage(format!("{name} needs {words} behind it")));
    }
    Ok((name, values))
}

/// A margin that vertices can be moved by.
fn margin(word: &str) -> Result<f32, Failure> {
    let value = number(word).map_err(|words| Failure::Usage(format!("--margin: {words}")))?;
    if !value.is_finite() || value < 0.0 {
        return Err(Failure::Usage(format!("--margin '{word}': expected a finite number, 0 or more")));
    }
    Ok(value)
}

/// A corner of a query: three numbers with commas.
pub fn corner(word: &str) -> Result<Vec3, Failure> {
    let wrong = || Failure::Usage(format!("'{word}' is no corner: expected three numbers with commas, as 6,0,0.5"));
    let [x, y, z] = point(word).ok_or_else(wrong)?;
    Ok(Vec3::new(x, y, z))
}

/// Runs a command line and answers the exit status. A program that asked for JSON has a failure as JSON too.
pub fn run(given: &[String]) -> Result<u8, Failure> {
    let answer = respond(given);
    match &answer {
        Ok(answer) => output::answer(&answer.text)?,
        Err(failure) if given.iter().any(|word| word == "--json") => output::answer(&failure.json())?,
        Err(_) => (),
    }
    answer.map(|answer| answer.status)
}

fn respond(given: &[String]) -> Result<Answer, Failure> {
    let line = Line::of(given)?;
    let Some((name, words)) = line.words.split_first() else {
        return match () {
            () if line.has("--help") => Ok(Answer::of(help::overview())),
            () if line.has("--version") => Ok(Answer::of(help::version() + "\n")),
            () => Err(Failure::Usage("no command is given".into())),
        };
    };
    let command = commands::named(name)?;
    if line.has("--help") {
        return Ok(Answer::of(help::of(&command)));
    }
    check(&command, words, &line)?;
    (command.run)(&Line { words: words.to_vec(), options: line.options })
}

/// Whether a command takes these words and options.
fn check(command: &Command, words: &[String], line: &Line) -> Result<(), Failure> {
    if let Some((name, _)) = line.options.iter().find(|(name, _)| !command.options.contains(name)) {
        return Err(Failure::Usage(format!("`bounds {}` takes no {name}", command.name)));
    }
    let (least, most) = command.words;
    if words.len() < least || words.len() > most {
        return Err(Failure::Usage(format!("expected: {}", help::forms(command).join("\n          or: "))));
    }
    if line.has("--force") && !line.has("--out") {
        return Err(Failure::Usage("--force goes with --out PATH, which it replaces".into()));
    }
    Ok(())
}
