//! Completion for shells, made from the tables of commands and options.

use crate::cli::Command;
use crate::commands;
use crate::help::{choices, rows};
use crate::options::{self, Row, OPTIONS};

/// The names by which an option is given.
fn names(row: &Row) -> Vec<&'static str> {
    [Some(row.name), row.short].into_iter().flatten().collect()
}

/// The options of a command line that has no command.
fn without_command() -> impl Iterator<Item = &'static Row> {
    OPTIONS.iter().filter(|row| ["--help", "--version"].contains(&row.name))
}

fn listed<'a>(rows: impl Iterator<Item = &'a Row>) -> String {
    rows.flat_map(names).collect::<Vec<_>>().join(" ")
}

/// For bash: options and what may stand behind them; where that is any word, bash offers files.
pub fn bash() -> String {
    let table = commands::table();
    let all: Vec<&str> = table.iter().map(|command| command.name).collect();
    let behind = |row: &Row| {
        let offered = options::choices(row.values.first()?).unwrap_or_default().join(" ");
        Some(format!("    {}) offered='{offered}' ;;\n", names(row).join("|")))
    };
    let of = |command: &Command| {
        let words = command.forms.iter().filter_map(|form| choices(form)).flatten().collect::<Vec<_>>().join(" ");
        format!("    {}) options='{}' offered='{words}' ;;\n", command.name, listed(rows(command)))
    };
    let (behind, commands): (String, String) =
        (OPTIONS.iter().filter_map(behind).collect(), table.iter().map(of).collect());
    format!(
        "# Completion of the command bounds for bash: source <(bounds completion bash)
_bounds() {{
    local word=${{COMP_WORDS[COMP_CWORD]}} before=${{COMP_WORDS[COMP_CWORD - 1]}} command= options= offered= given
    # Bash takes the = of --kind=4 for a word.
    if [[ $word == = ]]; then word=; elif [[ $before == = ]]; then before=${{COMP_WORDS[COMP_CWORD - 2]}}; fi
    for given in \"${{COMP_WORDS[@]:1:COMP_CWORD-1}}\"; do
        case ' {all} ' in *\" $given \"*) command=$given; break ;; esac
    done
    case $command in
    '') options='{top}' offered='{all}' ;;
{commands}    esac
    case $before in
{behind}    *) [[ $word == -* ]] && offered=$options ;;
    esac
    COMPREPLY=($(compgen -W \"$offered\" -- \"$word\"))
}}
complete -o default -F _bounds bounds
",
        all = all.join(" "),
        top = listed(without_command()),
    )
}

/// Text between single quotes of a shell.
fn quoted(text: &str) -> String {
    format!("'{}'", text.replace('\'', "'\\''"))
}

/// An option as zsh's _arguments takes it: `'(-o --out)'{-o,--out}'[what it does]:PATH:_files'`.
fn argument(row: &Row) -> String {
    let does: String =
        row.does.chars().flat_map(|c| if "[]:\\".contains(c) { vec!['\\', c] } else { vec![c] }).collect();
    let value = |name: &&str| match options::choices(name) {
        Some(choices) => format!(":{name}:({})", choices.join(" ")),
        None => format!(":{name}:_files"),
    };
    let behind = format!("[{does}]{}", row.values.iter().map(value).collect::<String>());
    match row.short {
        Some(short) => format!("'({short} {name})'{{{short},{name}}}{}", quoted(&behind), name = row.name),
        None => quoted(&format!("{}{behind}", row.name)),
    }
}

/// For zsh, with what each command and option does.
pub fn zsh() -> String {
    let table = commands::table();
    let described = |command: &Command| {
        format!("        {}\n", quoted(&format!("{}:{}", command.name, command.does.replace(':', "\\:"))))
    };
    let arguments = |rows: &mut dyn Iterator<Item = &'static Row>| -> String {
        rows.map(|row| format!(" \\\n            {}", argument(row))).collect()
    };
    let of = |command: &Command| {
        let words = command.forms.first().and_then(|form| choices(form));
        let words = words.map_or("_files".into(), |words| format!("({})", words.join(" ")));
        let rows = arguments(&mut rows(command));
        format!(
            "    {})\n        _arguments{rows} \\\n            {} ;;\n",
            command.name,
            quoted(&format!("*:word:{words}"))
        )
    };
    let (all, each): (String, String) = (table.iter().map(described).collect(), table.iter().map(of).collect());
    format!(
        "#compdef bounds
# Completion of the command bounds for zsh: bounds completion zsh > a folder of $fpath, as _bounds
_bounds() {{
    local -a commands
    commands=(
{all}    )
    if (( CURRENT == 2 )); then
        _describe command commands
        _arguments{top}
        return
    fi
    local command=$words[2]
    shift words
    (( CURRENT-- ))
    case $command in
{each}    esac
}}
if [[ $funcstack[1] == _bounds ]]; then _bounds \"$@\"; else compdef _bounds bounds; fi
",
        top = arguments(&mut without_command()),
    )
}
