//! Runs the command in a folder of its own, and writes down what it says.
#![allow(dead_code)] // each test takes what it needs

use std::path::{Path, PathBuf};
use std::process::{Command, Output, Stdio};

/// A folder that is gone when the test is.
pub struct Folder(pub PathBuf);

impl Folder {
    /// A new folder with a copy of every input.
    pub fn with_inputs(name: &str) -> Folder {
        let path = std::env::temp_dir().join(format!("bounds-{name}-{}", std::process::id()));
        let _ = std::fs::remove_dir_all(&path);
        std::fs::create_dir_all(&path).expect("a folder");
        let inputs = Path::new(env!("CARGO_MANIFEST_DIR")).join("tests/inputs");
        for file in std::fs::read_dir(inputs).expect("the inputs") {
            let file = file.expect("an input").path();
            std::fs::copy(&file, path.join(file.file_name().expect("a name"))).expect("a copy");
        }
        Folder(path)
    }

    /// Runs the command with these words, cut at spaces.
    pub fn run(&self, line: &str) -> Output {
        self.command(line).output().expect("the command runs")
    }

    pub fn command(&self, line: &str) -> Command {
        let mut command = Command::new(env!("CARGO_BIN_EXE_bounds"));
        command.args(line.split_whitespace()).current_dir(&self.0).stdin(Stdio::null());
        command
    }

    pub fn write(&self, name: &str, bytes: &[u8]) {
        std::fs::write(self.0.join(name), bytes).expect("written");
    }

    /// A shell's view of a command: the line, what it says, and its status where that is not 0.
    pub fn log(&self, line: &str) -> String {
        let output = self.run(line);
        let said = String::from_utf8_lossy(&output.stdout).into_owned() + &String::from_utf8_lossy(&output.stderr);
        let status = match output.status.code() {
            Some(0) => String::new(),
            Some(status) => format!("[exit status {status}]\n"),
            None => "[killed]\n".into(),
        };
        format!("$ bounds {line}\n{said}{status}\n")
    }

    /// [`Folder::log`] of a command that says much: its first and last lines, how many there are, and a sum of all; of a long
    /// line its beginning.
    pub fn cut_log(&self, line: &str) -> String {
        const LINES: (usize, usize) = (24, 6);
        const LETTERS: usize = 200;
        let log = self.log(line);
        let sum = log.bytes().fold(0xCBF2_9CE4_8422_2325u64, |sum, b| (sum ^ b as u64).wrapping_mul(0x100_0000_01B3));
        let lines: Vec<&str> = log.lines().collect();
        let (few, short) = (lines.len() <= LINES.0 + LINES.1 + 2, lines.iter().all(|line| line.len() <= LETTERS));
        if few && short {
            return log;
        }
        let cut = |line: &&str| match line.char_indices().nth(LETTERS) {
            Some((at, _)) => format!("{} [.. {} letters]\n", &line[..at], line.chars().count()),
            None => format!("{line}\n"),
        };
        let (first, last) = if few { (lines.len(), 0) } else { LINES };
        let head: String = lines[..first].iter().map(cut).collect();
        let tail: String = lines[lines.len() - last..].iter().map(cut).collect();
        let left_out = if few { String::new() } else { format!("[.. {} lines]\n", lines.len() - first - last) };
        format!("{head}{left_out}{tail}[sum {sum:016X}]\n\n")
    }

    /// Names in the folder, hidden ones too.
    pub fn names(&self) -> Vec<String> {
        self.names_in("")
    }

    /// Names in a folder in it.
    pub fn names_in(&self, folder: &str) -> Vec<String> {
        let entries = std::fs::read_dir(self.0.join(folder)).expect("the folder");
        let mut names: Vec<String> =
            entries.map(|entry| entry.expect("an entry").file_name().to_string_lossy().into_owned()).collect();
        names.sort();
        names
    }
}

impl Drop for Folder {
    fn drop(&mut self) {
        let _ = std::fs::remove_dir_all(&self.0);
    }
}

/// Compares a log with the kept one; with BLESS set it is kept instead.
pub fn expect(name: &str, log: &str) {
    let path = Path::new(env!("CARGO_MANIFEST_DIR")).join("tests/expected").join(name);
    if std::env::var_os("BLESS").is_some() {
        std::fs::create_dir_all(path.parent().expect("a folder")).expect("a folder");
        std::fs::write(&path, log).expect("kept");
        return;
    }
    let kept = std::fs::read_to_string(&path).expect("the kept log; BLESS=1 cargo test -p tool keeps one");
    for (number, (is, was)) in log.lines().zip(kept.lines()).enumerate() {
        assert_eq!(is, was, "{name}, line {}", number + 1);
    }
    assert_eq!(log.lines().count(), kept.lines().count(), "{name}: lines");
}
