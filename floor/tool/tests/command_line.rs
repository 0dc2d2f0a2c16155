//! The command line: what the tables of commands and options promise, in help, completion and man page, and what is done with
//! files and folders that exist.

mod common;

use common::command::Folder;
use std::process::{Command, Stdio};
use tool::commands::table;
use tool::options::OPTIONS;

#[test]
fn every_option_is_in_help_completion_and_man_page() {
    let folder = Folder::with_inputs("tables");
    let (overview, man) = (folder.said("--help"), folder.said("man").replace("\\-", "-"));
    let (bash, zsh) = (folder.said("completion bash"), folder.said("completion zsh"));
    assert_eq!(overview, folder.said("help"));
    for row in OPTIONS {
        for name in [Some(row.name), row.short].into_iter().flatten() {
            assert!(man.contains(&format!("\\fB{name}\\fR")) && overview.contains(name), "{name}");
            assert!(zsh.contains(name) && bash.contains(name), "{name}");
        }
        let said = |page: &str| page.split_whitespace().collect::<Vec<_>>().join(" ").contains(row.does);
        assert!(said(&overview) && said(&man), "{}: what it does", row.name);
    }
    for command in table() {
        let help = folder.said(&format!("help {}", command.name));
        assert_eq!(help, folder.said(&format!("{} --help", command.name)));
        let of = |page: &str, from: &str, to: &str| {
            let rest = page.split(from).nth(1).unwrap_or_else(|| panic!("{}: {from}", command.name)).to_string();
            rest.split(to).next().expect("a part").to_string()
        };
        let pages = [
            of(&help, "\noptions\n", "\nexamples\n"),
            of(&of(&man, &format!(".SS {}\n", command.name), ".S"), "\nOptions: ", "\n").replace("\\fB", " "),
            of(&bash, &format!("\n    {}) options=", command.name), ";;"),
            of(&zsh, &format!("\n    {})\n", command.name), ";;"),
        ];
        for (page, row) in pages.iter().flat_map(|page| OPTIONS.iter().map(move |row| (page, row))) {
            let takes = row.name == "--help" || command.options.contains(&row.name);
            let listed = page.split(|c: char| c.is_whitespace() || "'[\\{},=".contains(c)).any(|word| word == row.name);
            assert_eq!(listed, takes, "{} {}: {page}", command.name, row.name);
        }
        assert!(overview.contains(&format!("\n  {:<12}{}\n", command.name, command.does)), "{}", command.name);
    }
}

#[test]
fn every_option_is_some_command_s_and_is_known() {
    for name in table().iter().flat_map(|command| command.options) {
        assert!(OPTIONS.iter().any(|row| row.name == *name), "{name} is in no row");
    }
    for row in OPTIONS.iter().filter(|row| !["--help", "--version"].contains(&row.name)) {
        assert!(table().iter().any(|command| command.options.contains(&row.name)), "{} is no command's", row.name);
    }
}

#[test]
fn a_command_refuses_what_it_does_not_take() {
    let folder = Folder::with_inputs("taken");
    for command in table() {
        for row in OPTIONS.iter().filter(|row| row.name != "--help") {
            let line = format!("{} {} {}", command.name, row.name, row.values.join(" "));
            let takes = command.options.contains(&row.name);
            let refusal = format!("`bounds {}` takes no {}", command.name, row.name);
            assert_eq!(wrong_or_said(&folder, &line).contains(&refusal), !takes, "{line}");
        }
        let words = vec!["x"; command.words.1.min(20) + 1].join(" ");
        if command.words.1 < 20 {
            let said = folder.wrong(&format!("{} {words}", command.name));
            assert!(said.contains("expected: bounds"), "{said}");
        }
    }
    for (line, words) in [
        ("prepare terrain.obj --paint", "option --paint is unknown"),
        ("prepare terrain.obj --kind", "--kind needs 4|8 behind it"),
        ("draw a.bin --query 1,1,1", "--query needs MAX behind it"),
        ("draw a.bin --json=1", "--json takes no value: leave out '=1'"),
        ("build a.bin --force", "--force goes with --out PATH"),
        ("paint a.bin", "command 'paint' is unknown"),
        ("help paint", "command 'paint' is unknown"),
        ("completion fish", "expected bash or zsh"),
        ("prepare terrain.obj --version", "`bounds prepare` takes no --version"),
        ("--json", "no command is given"),
        ("", "no command is given"),
    ] {
        let said = folder.wrong(line);
        assert!(said.contains(words), "{line}: {said}");
    }
}

fn wrong_or_said(folder: &Folder, line: &str) -> String {
    String::from_utf8_lossy(&folder.run(line).stderr).into_owned()
}

#[test]
fn a_value_may_stand_behind_an_equals_sign() {
    let folder = Folder::with_inputs("equals");
    for (joined, apart) in [
        ("prepare kinds.txt --kind=4 --margin=0.02", "prepare kinds.txt --kind 4 --margin 0.02"),
        ("build --threshold=2 six.txt --json", "build six.txt --threshold 2 --json"),
        ("draw a.bin --query=6,0,0 7,1,1", "draw a.bin --query 6,0,0 7,1,1"),
        ("query a.bin -- -6,0,0 7,1,1", "query a.bin -6,0,0 7,1,1"),
    ] {
        assert_eq!(folder.said(joined), folder.said(apart), "{joined}");
    }
    let version = folder.said("--version");
    let sum = version.strip_prefix(&format!("bounds {}, library ", env!("CARGO_PKG_VERSION"))).expect("a version");
    assert!(sum.trim_end().len() == 16 && sum.trim_end().chars().all(|c| c.is_ascii_hexdigit()), "{version}");
}

#[test]
fn a_margin_is_finite_and_not_below_0() {
    let folder = Folder::with_inputs("margins");
    for margin in ["nan", "inf", "-inf", "-0.01", "0x7FC00000", "0xBF800000"] {
        let said = folder.wrong(&format!("prepare kinds.txt --margin {margin}"));
        assert!(said.contains(&format!("--margin '{margin}': expected a finite number, 0 or more")), "{said}");
    }
    assert!(folder.wrong("prepare kinds.txt --margin wide").contains("--margin: "));
    for margin in ["0", "0.04", "1e-30"] {
        folder.said(&format!("prepare kinds.txt --margin {margin}"));
    }
}

#[test]
fn a_refusal_has_its_number_in_json() {
    let folder = Folder::with_inputs("numbers");
    folder.write("ragged.bin", &[0; 33]);
    folder.write("nine.txt", b"bounds mesh 1\nkind 9\nvertex 0 0 0\n");
    for (line, status, refusal) in [
        ("build six.txt --threshold 0 --json", 1, "3"),
        ("build ragged.bin --records --json", 1, "13"),
        ("prepare nine.txt --json", 1, "6"),
        ("prepare none.obj --json", 2, "null"),
        ("paint --json", 2, "null"),
    ] {
        let output = folder.run(line);
        assert_eq!(output.status.code(), Some(status), "{line}");
        let said = String::from_utf8(output.stdout).expect("text");
        assert!(said.ends_with(&format!("\"status\": {status}, \"refusal\": {refusal}}}\n")), "{line}: {said}");
    }
}

#[test]
fn what_exists_is_replaced_by_force_alone() {
    let folder = Folder::with_inputs("force");
    let before = folder.names();
    folder.said("build a.bin --out tree");
    folder.said("draw a.bin -o a.svg");
    let bytes = |name: &str| folder.read(name);
    let (tree, picture) = (bytes("tree/boxes.bin"), bytes("a.svg"));
    for line in ["build b.bin --out tree", "build b.bin -o tree/", "draw b.bin --out a.svg", "prepare road.txt -o tree"]
    {
        let said = folder.wrong(line);
        assert!(said.contains("exists already; remove it, choose another name, or give --force"), "{line}: {said}");
    }
    assert_eq!((bytes("tree/boxes.bin"), bytes("a.svg")), (tree.clone(), picture.clone()));
    folder.write("tree/more.txt", b"what was added is gone with the folder");
    folder.said("build b.bin --out tree --force");
    folder.said("draw b.bin -o a.svg --force");
    assert!(bytes("tree/boxes.bin") != tree && bytes("a.svg") != picture);
    assert!(!folder.names_in("tree").contains(&"more.txt".into()));
    folder.said("prepare road.txt --out tree/ --force");
    assert!(folder.names_in("tree").contains(&"polygons.bin".into()));
    assert_eq!(folder.names().len(), before.len() + 2, "nothing is left beside them: {:?}", folder.names());
}

#[test]
fn force_replaces_no_folder_of_others_and_no_file_by_a_folder() {
    let folder = Folder::with_inputs("others");
    std::fs::create_dir(folder.0.join("mine")).expect("a folder");
    folder.write("mine/letter.txt", b"dear");
    for (line, words) in [
        ("build a.bin --out mine --force", "has no dump.txt"),
        ("build a.bin --out six.txt --force", "is no folder"),
        ("draw a.bin --out mine --force", "is a folder; name a file"),
        ("build a.bin --out= --force", "is no name of a folder"),
        ("prepare road.txt --out no/such/folder --force", "cannot be written"),
    ] {
        let said = folder.wrong(line);
        assert!(said.contains(words), "{line}: {said}");
    }
    assert_eq!(folder.names_in("mine"), ["letter.txt"]);
    let picture = folder.said("draw a.bin");
    folder.said("draw a.bin -o /dev/null");
    let mut pipe = folder.command("draw a.bin -o /dev/stdout");
    let output = pipe.stdout(Stdio::piped()).output().expect("runs");
    assert!(String::from_utf8_lossy(&output.stdout).starts_with(&picture), "a pipe is written to as it is");
}

/// What bash offers for a command line, its last word being the one that is typed.
fn offered(script: &str, line: &[&str]) -> Vec<String> {
    let words: String = line.iter().map(|word| format!(" '{word}'")).collect();
    let ask = format!(
        "{script}\nCOMP_WORDS=({words}); COMP_CWORD={}; _bounds; printf '%s\\n' \"${{COMPREPLY[@]}}\"",
        line.len() - 1
    );
    let output = Command::new("bash").args(["-u", "-c", &ask]).output().expect("bash runs");
    assert!(output.status.success() && output.stderr.is_empty(), "{}", String::from_utf8_lossy(&output.stderr));
    String::from_utf8_lossy(&output.stdout).split_whitespace().map(String::from).collect()
}

#[test]
fn bash_offers_what_may_stand_there() {
    let folder = Folder::with_inputs("bash");
    let script = folder.said("completion bash");
    assert_eq!(offered(&script, &["bounds", "d"]), ["dump", "diff", "draw"]);
    assert_eq!(offered(&script, &["bounds", "--v"]), ["--version"]);
    assert_eq!(offered(&script, &["bounds", "prepare", "x.obj", "--kind", ""]), ["4", "8"]);
    assert_eq!(offered(&script, &["bounds", "prepare", "x.obj", "--kind", "="]), ["4", "8"]);
    assert_eq!(offered(&script, &["bounds", "prepare", "x.obj", "--kind", "=", "8"]), ["8"]);
    assert_eq!(offered(&script, &["bounds", "prepare", "--ma"]), ["--margin"]);
    assert_eq!(offered(&script, &["bounds", "build", "--ma"]), [""; 0], "it takes none");
    assert_eq!(offered(&script, &["bounds", "draw", "x", "-o", ""]), [""; 0], "bash offers files");
    assert_eq!(offered(&script, &["bounds", "completion", ""]), ["bash", "zsh"]);
    assert_eq!(offered(&script, &["bounds", "help", "pre"]), ["prepare"]);
}

/// Runs a program over a text, if it is installed.
fn through(program: &str, words: &[&str], text: &str) -> Option<String> {
    use std::io::Write;
    let mut command = Command::new(program);
    command.args(words).stdin(Stdio::piped()).stdout(Stdio::piped()).stderr(Stdio::piped());
    let mut child = command.spawn().ok()?;
    child.stdin.take().expect("a pipe").write_all(text.as_bytes()).expect("it reads");
    let output = child.wait_with_output().expect("it ends");
    let said = String::from_utf8_lossy(&output.stderr).into_owned();
    assert!(output.status.success() && said.is_empty(), "{program}: {said}");
    Some(String::from_utf8_lossy(&output.stdout).into_owned())
}

#[test]
fn groff_and_zsh_take_what_is_made_for_them() {
    let folder = Folder::with_inputs("roff");
    if let Some(page) = through("groff", &["-man", "-ww", "-Tascii", "-P-cbou", "-rLL=130n"], &folder.said("man")) {
        for row in OPTIONS {
            assert!(page.contains(&row.heading()), "{}", row.name);
        }
        assert!(page.contains("2^-100") && page.contains("printf '0 0 0 1 1 1\\n2 0 0 3 1 1\\n'"), "{page}");
    }
    through("zsh", &["-n"], &folder.said("completion zsh"));
}
