//! The help texts, made from the tables of commands and options.

use crate::cli::Command;
use crate::commands;
use crate::options::{self, Row, OPTIONS};

/// What the command is, in a line.
pub const DOES: &str =
    "collision meshes prepared and trees of boxes built by the proved library, explained rule by rule";

/// What the words are that commands take, in paragraphs.
pub const WORDS: &str =
    "A MESH is a Wavefront .obj, or a text that begins with `bounds mesh 1`: see `bounds help prepare`. A FILE holds boxes: as
text, six numbers a line (min x y z, max x y z), `absent` for an entry that is not there, `#` before a comment, numbers as
decimals, inf, nan or 0x and eight digits; or as child box records of 32 bytes (min, w, max, w; w is ignored). `-` is
standard input. A DUMP is a folder that `bounds prepare --out` or `bounds build --out` wrote, or a MESH or FILE, of which it
is made. MIN and MAX are corners of a query, each three numbers with commas.
";

pub const STATUS: &str = "0 an answer; 1 refused, by its number and in words, or a verdict that is no; 2 usage, or a file that cannot be used.\n";

pub const EXAMPLES: &str = "  bounds prepare terrain.obj --out terrain
  bounds query terrain 110,-190,-50 113,-187,50
  bounds explain terrain polygon 3 link 1
  bounds draw terrain -o terrain.svg

  printf '0 0 0 1 1 1\\n2 0 0 3 1 1\\n' > two.txt
  bounds build two.txt --out two
  bounds query two 0.5,0.5,0.5 2.5,0.5,0.5
  bounds explain two node 0 min.x
";

/// Letters in a line, at most.
const WIDTH: usize = 124;

/// What the tool can do.
pub fn overview() -> String {
    let table = commands::table();
    let commands = columns(table.iter().map(|command| (command.name.into(), command.does.into())));
    let options = columns(OPTIONS.iter().map(|row| (row.heading(), format!("{}{}", row.does, taken(row)))));
    format!(
        "bounds: {DOES}\n\nusage: bounds COMMAND .. [OPTION..]\n\ncommands\n{commands}\n{WORDS}\noptions\n{options}\nExit status: \
         {STATUS}\nexamples\n{EXAMPLES}\n`bounds help COMMAND` says more of each. Rules are those of docs/RULES.md.\n"
    )
}

/// Which commands take an option, in brackets; nothing where all do, or none.
pub fn taken(row: &Row) -> String {
    let takes = |command: &Command| command.options.contains(&row.name);
    let names: Vec<&str> = commands::table().iter().filter(|command| takes(command)).map(|c| c.name).collect();
    if names.is_empty() {
        return String::new();
    }
    format!(" [{}]", names.join(", "))
}

/// `bounds query DUMP MIN MAX [OPTION..]`, for each form of a command.
pub fn forms(command: &Command) -> Vec<String> {
    let options = if command.options.is_empty() { "" } else { " [OPTION..]" };
    command
        .forms
        .iter()
        .map(|form| format!("bounds {} {form}", command.name).trim_end().to_string() + options)
        .collect()
}

/// The options that a command takes.
pub fn rows(command: &Command) -> impl Iterator<Item = &'static Row> + '_ {
    let takes = |row: &&Row| row.name == "--help" || command.options.contains(&row.name);
    OPTIONS.iter().filter(takes)
}

/// What a command does.
pub fn of(command: &Command) -> String {
    let usage = forms(command).join("\n       ");
    let options = columns(rows(command).map(|row| (row.heading(), row.does.into())));
    format!("usage: {usage}\n\n{}\noptions\n{options}\nexamples\n{}", command.help, command.examples)
}

/// The version of the command, and a sum of the archives that it was built with.
pub fn version() -> String {
    format!("bounds {}, library {}", env!("CARGO_PKG_VERSION"), env!("BOUNDS_SUM"))
}

/// Names, and behind them what each is, in lines that are not too long.
fn columns(rows: impl Iterator<Item = (String, String)>) -> String {
    let rows: Vec<(String, String)> = rows.collect();
    let wide = rows.iter().map(|(name, _)| name.chars().count()).max().unwrap_or(0) + 4;
    let line = |(name, what): &(String, String)| {
        let lines = wrapped(what, WIDTH - wide).join(&format!("\n{:wide$}", ""));
        format!("  {name:<rest$}{lines}\n", rest = wide - 2)
    };
    rows.iter().map(line).collect()
}

/// Words in lines of so many letters at most.
fn wrapped(text: &str, most: usize) -> Vec<String> {
    let mut lines = vec![String::new()];
    for word in text.split(' ') {
        let last = lines.last_mut().expect("there is one");
        if last.is_empty() {
            last.push_str(word);
        } else if last.chars().count() + 1 + word.chars().count() <= most {
            *last += &format!(" {word}");
        } else {
            lines.push(word.into());
        }
    }
    lines
}

/// What may stand where a form has this word: its choices, or the commands.
pub fn choices(word: &str) -> Option<Vec<&str>> {
    match word.trim_matches(['[', ']']) {
        "COMMAND" => Some(commands::table().iter().map(|command| command.name).collect()),
        word => options::choices(word),
    }
}

#[cfg(test)]
mod tests {
    use super::{columns, wrapped};

    #[test]
    fn lines_are_not_too_long_and_lose_no_word() {
        let text = "a leaf of the tree holds so many boxes at most";
        let lines = wrapped(text, 12);
        assert_eq!(lines, ["a leaf of", "the tree", "holds so", "many boxes", "at most"]);
        assert_eq!(lines.join(" "), text);
        let rows = [("a", "x"), ("bcd", "y")].map(|(name, what)| (name.to_string(), what.to_string()));
        assert_eq!(columns(rows.into_iter()), "  a    x\n  bcd  y\n");
    }
}
