//! `bounds check` of many files and folders: one line each, on all processors, and a summary.

use super::{one, One};
use crate::boxes::read_world;
use crate::cli::{Answer, Line};
use crate::dump::kind_of;
use crate::failure::Failure;
use crate::json::Json;
use crate::mesh::form;
use crate::number::counted;
use crate::parallel::each;
use crate::progress::counting;
use bounds::Refusal;
use std::collections::BTreeMap;
use std::convert::Infallible;
use std::fs;
use std::path::Path;

/// Endings of files that are looked into where a folder is searched.
const ENDINGS: [&str; 3] = ["obj", "txt", "bin"];

/// What came of a file or a dump.
enum State {
    Passed,
    /// By the library's number.
    Refused(u32),
    /// By what was found, in words that several may share.
    Failed(String),
}

struct Verdict {
    path: String,
    state: State,
    /// The first line of what there is to say.
    words: String,
    json: Json,
}

/// Whether words of a command line name more than one file or dump.
pub fn is_asked(words: &[String]) -> bool {
    words.len() > 1 || words.iter().any(|word| is_searched(word))
}

/// A folder that is no dump.
fn is_searched(path: &str) -> bool {
    Path::new(path).is_dir() && kind_of(path).is_none()
}

pub fn answer(line: &Line) -> Result<Answer, Failure> {
    let (paths, passed_over) = found(&line.words)?;
    let Ok(verdicts) = counting("checking", paths.len(), |done| {
        each(paths.len(), done, |k| Ok::<_, Infallible>(Verdict::of(&paths[k], one(&paths[k], line))))
    });
    let failed = verdicts.iter().any(|verdict| !matches!(verdict.state, State::Passed));
    let text = match line.json() {
        true => format!("{}\n", json(&verdicts, passed_over)),
        false => text(&verdicts, passed_over),
    };
    Ok(Answer { text, status: u8::from(failed) })
}

/// The files and dumps that words lead to, each folder's in the order of their names, and how many files of folders are passed
/// over.
fn found(words: &[String]) -> Result<(Vec<String>, usize), Failure> {
    let (mut paths, mut passed_over) = (Vec::new(), 0);
    for word in words {
        if is_searched(word) {
            search(Path::new(word), &mut paths, &mut passed_over)?;
        } else {
            paths.push(word.clone());
        }
    }
    Ok((paths, passed_over))
}

fn search(folder: &Path, paths: &mut Vec<String>, passed_over: &mut usize) -> Result<(), Failure> {
    let failed = |error| Failure::reach(&folder.to_string_lossy(), "read", &error);
    let entries = fs::read_dir(folder).map_err(failed)?;
    let mut names = entries.map(|entry| Ok(entry?.path())).collect::<std::io::Result<Vec<_>>>().map_err(failed)?;
    names.sort();
    for path in names {
        let name = path.to_string_lossy().into_owned();
        // A link to a folder may lead back to one above it.
        let linked = fs::symlink_metadata(&path).is_ok_and(|found| found.is_symlink());
        match (path.is_dir(), linked) {
            (true, true) => *passed_over += 1,
            (true, false) if is_searched(&name) => search(&path, paths, passed_over)?,
            (true, false) => paths.push(name),
            (false, _) if is_looked_into(&path) => paths.push(name),
            (false, _) => *passed_over += 1,
        }
    }
    Ok(())
}

/// Whether a file in a folder looks like a mesh or boxes. One that cannot be read does: that has to be told.
fn is_looked_into(path: &Path) -> bool {
    let ending = path.extension().map(|ending| ending.to_string_lossy().to_ascii_lowercase()).unwrap_or_default();
    if !ENDINGS.contains(&ending.as_str()) {
        return false;
    }
    let name = path.to_string_lossy();
    let Ok(bytes) = read_world(&name) else { return true };
    ending != "txt" || form(&name, &bytes).is_some() || begins_with_a_box(&bytes)
}

/// Whether the first line that says something is one of boxes as text.
fn begins_with_a_box(bytes: &[u8]) -> bool {
    let text = String::from_utf8_lossy(bytes);
    let said = text.lines().map(|line| line.split('#').next().unwrap_or("").trim()).find(|line| !line.is_empty());
    let word = said.and_then(|said| said.split_ascii_whitespace().next()).unwrap_or("");
    word == "absent" || crate::boxes::number(word).is_ok()
}

impl Verdict {
    fn of(path: &str, answer: Result<One, Failure>) -> Verdict {
        let (state, words, json) = match answer {
            Ok(One { failed: None, text, json }) => (State::Passed, text, json),
            Ok(One { failed: Some(why), text, json }) => (State::Failed(why), text, json),
            Err(failure) => {
                let words = failure.to_string();
                let words = words.strip_prefix("bounds: ").unwrap_or(&words).replace('\n', "; ");
                let state = match failure.refusal() {
                    Some(number) => State::Refused(number),
                    None => State::Failed("cannot be read as a mesh or boxes".into()),
                };
                (state, words, Json::Null)
            }
        };
        let words = words.lines().next().unwrap_or("").to_string();
        // A message may begin with the file's name, which the line has already.
        let words =
            words.strip_prefix(path).map_or(words.as_str(), |rest| rest.trim_start_matches([':', ',', ' '])).into();
        Verdict { path: path.into(), state, words, json }
    }

    fn text(&self) -> String {
        let state = match self.state {
            State::Passed => "passed ",
            State::Refused(_) => "REFUSED",
            State::Failed(_) => "FAILED ",
        };
        format!("{state} {}: {}\n", self.path, self.words)
    }

    /// Why it did not pass.
    fn reason(&self) -> Option<String> {
        match &self.state {
            State::Passed => None,
            State::Refused(number) => {
                Some(Refusal::from_number(*number).map_or(format!("refused {number}"), |refusal| refusal.to_string()))
            }
            State::Failed(why) => Some(why.clone()),
        }
    }

    fn json(&self) -> Json {
        let refusal = match self.state {
            State::Refused(number) => Some(number as usize),
            _ => None,
        };
        Json::Object(vec![
            ("file", self.path.as_str().into()),
            ("passed", matches!(self.state, State::Passed).into()),
            ("refusal", refusal.into()),
            ("reason", self.reason().into()),
            ("words", self.words.as_str().into()),
            ("checked", self.json.clone()),
        ])
    }
}

/// Passed, failed, refused; and how many there are of each reason.
fn counts(verdicts: &[Verdict]) -> ([usize; 3], BTreeMap<String, usize>) {
    let (mut counts, mut reasons) = ([0; 3], BTreeMap::new());
    for verdict in verdicts {
        let place = match verdict.state {
            State::Passed => 0,
            State::Failed(_) => 1,
            State::Refused(_) => 2,
        };
        counts[place] += 1;
        verdict.reason().into_iter().for_each(|reason| *reasons.entry(reason).or_insert(0) += 1);
    }
    (counts, reasons)
}

fn text(verdicts: &[Verdict], passed_over: usize) -> String {
    let ([passed, failed, refused], reasons) = counts(verdicts);
    let mut text: String = verdicts.iter().map(Verdict::text).collect();
    text += &format!("{} checked: {passed} passed, {failed} failed, {refused} refused\n", verdicts.len());
    text.extend(reasons.iter().map(|(reason, n)| format!("  {n:>5}  {reason}\n")));
    if passed_over > 0 {
        text += &format!("{} in folders passed over: neither a mesh nor boxes\n", counted(passed_over, "file"));
    }
    text
}

fn json(verdicts: &[Verdict], passed_over: usize) -> Json {
    let ([passed, failed, refused], reasons) = counts(verdicts);
    let reason =
        |(reason, n): (&String, &usize)| Json::Object(vec![("reason", reason.as_str().into()), ("files", (*n).into())]);
    Json::Object(vec![
        ("files", Json::list(verdicts.iter().map(Verdict::json))),
        ("checked", verdicts.len().into()),
        ("passed", passed.into()),
        ("failed", failed.into()),
        ("refused", refused.into()),
        ("reasons", Json::list(reasons.iter().map(reason))),
        ("passed_over", passed_over.into()),
    ])
}
