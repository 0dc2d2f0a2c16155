//! `--json` of every command is JSON.

mod common;

use common::command::Folder;

/// What is left behind a value, or nothing where there is none.
fn value(text: &str) -> Option<&str> {
    let text = text.trim_start();
    match text.chars().next()? {
        '{' => items(&text[1..], '}', |rest| value(string(rest.trim_start())?.trim_start().strip_prefix(':')?)),
        '[' => items(&text[1..], ']', value),
        '"' => string(text),
        _ => ["null", "true", "false"].iter().find_map(|word| text.strip_prefix(word)).or_else(|| number(text)),
    }
}

fn items(text: &str, end: char, item: impl Fn(&str) -> Option<&str>) -> Option<&str> {
    if let Some(rest) = text.trim_start().strip_prefix(end) {
        return Some(rest);
    }
    let mut rest = item(text)?.trim_start();
    while let Some(next) = rest.strip_prefix(',') {
        rest = item(next)?.trim_start();
    }
    rest.strip_prefix(end)
}

fn string(text: &str) -> Option<&str> {
    let mut escaped = false;
    for (at, c) in text.strip_prefix('"')?.char_indices() {
        match c {
            _ if escaped => escaped = false,
            '\\' => escaped = true,
            '"' => return Some(&text[at + 2..]),
            c if (c as u32) < 0x20 => return None,
            _ => (),
        }
    }
    None
}

fn number(text: &str) -> Option<&str> {
    let digits = text.strip_prefix('-').unwrap_or(text);
    let rest = digits.trim_start_matches(|c: char| c.is_ascii_digit());
    (rest.len() < digits.len()).then_some(rest)
}

#[test]
fn every_command_answers_json() {
    let folder = Folder::with_inputs("json");
    let lines = [
        "build b.bin",
        "build b.bin --out b",
        "check b.bin",
        "check a.bin",
        "query b 6,0,0 7,1,1",
        "query b --all queries.txt",
        "dump b",
        "explain b node 9 min.x",
        "explain b header node_address",
        "explain b node 0 split",
        "explain b query 6,0,0 7,1,1 item 3",
        "diff a.bin b",
        "diff a.bin a.bin",
        "draw b",
        "draw b -o b.svg",
        "prepare terrain.obj",
        "prepare terrain.obj --out terrain",
        "prepare kinds.txt --kind 4 --out plain",
        "check terrain.obj",
        "check kinds.txt --kind 4",
        "query terrain 110,-190,-50 113,-187,50",
        "dump terrain",
        "dump plain",
        "draw terrain",
        "draw plain -o plain.svg",
    ];
    for line in lines {
        let output = folder.run(&format!("{line} --json"));
        let text = String::from_utf8(output.stdout).expect("text");
        assert_eq!(value(&text).map(str::trim), Some(""), "{line}: {text}");
        assert_eq!(text.lines().count(), 1, "{line}: one line");
    }
    assert_eq!(value("[1, {\"a\": }]"), None, "what is no JSON is found");
    assert_eq!(value("{\"a\": \"b\\\"\", \"c\": [-1, null]} x"), Some(" x"));
}
