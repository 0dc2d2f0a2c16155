//! `bounds help`, `bounds completion` and `bounds man`: what the tables of commands and options say.

use crate::cli::{Answer, Command, Line};
use crate::failure::Failure;
use crate::{commands, completion, help, man};

pub fn command() -> Command {
    Command {
        name: "help",
        does: "says what there is, or what a command does",
        forms: &["[COMMAND]"],
        words: (0, 1),
        options: &[],
        run: |line| match line.words.first() {
            Some(name) => Ok(Answer::of(help::of(&commands::named(name)?))),
            None => Ok(Answer::of(help::overview())),
        },
        help: "What `bounds COMMAND --help` says, or without a command what `bounds --help` does.\n",
        examples: "  bounds help\n  bounds help prepare\n",
    }
}

pub fn completion() -> Command {
    Command {
        name: "completion",
        does: "prints completion for a shell",
        forms: &["bash|zsh"],
        words: (1, 1),
        options: &[],
        run: completed,
        help: "What a shell reads to complete commands, options and their values.\n",
        examples: "  source <(bounds completion bash)             in ~/.bashrc
  bounds completion zsh > \"${fpath[1]}/_bounds\"\n",
    }
}

fn completed(line: &Line) -> Result<Answer, Failure> {
    match line.words[0].as_str() {
        "bash" => Ok(Answer::of(completion::bash())),
        "zsh" => Ok(Answer::of(completion::zsh())),
        other => Err(Failure::Usage(format!("completion for '{other}': expected bash or zsh"))),
    }
}

pub fn man() -> Command {
    Command {
        name: "man",
        does: "prints the man page",
        forms: &[""],
        words: (0, 0),
        options: &[],
        run: |_| Ok(Answer::of(man::page())),
        help: "The page is roff, for man and groff.\n",
        examples: "  bounds man > bounds.1 && man -l bounds.1\n",
    }
}
