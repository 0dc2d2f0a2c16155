//! Runs the command in a folder of its own, and writes down what it says.
#![allow(dead_code)] // each test takes what it needs

use std::fs::File;
use std::path::{Path, PathBuf};
use std::process::{Command, Output, Stdio};

/// A folder that is gone when the test is.
pub struct Folder(pub PathBuf);

impl Folder {
    /// A new folder with a copy of every input.
    pub fn with_inputs(name: &str) -> Folder {
        let path = std::env::temp_dir().join(format!("bounds-{name}-{}", std::process::id()));
        let _ = std::fs::remove_dir_all(&path);
        std::fs::create_dir_all(&path).expect("a folder");
        let inputs = Path::new(env!("CARGO_MANIFEST_DIR")).join("tests/inputs");
        for file in std::fs::read_dir(inputs).expect("the inputs") {
            let file = file.expect("an input").path();
            std::fs::copy(&file, path.join(file.file_name().expect("a name"))).expect("a copy");
        }
        Folder(path)
    }

    /// Runs the command with these words, cut at spaces.
    pub fn run(&self, line: &str) -> Output {
        self.command(line).output().expect("the command runs")
    }

    pub fn command(&self, line: &str) -> Command {
        let mut command = Command::new(env!("CARGO_BIN_EXE_bounds"));
        command.args(line.split_whitespace()).current_dir(&self.0).stdin(Stdio::null());
        command
    }

    pub fn write(&self, name: &str, bytes: &[u8]) {
        std::fs::write(self.0.join(name), bytes).expect("written");
    }

    pub fn read(&self, name: &str) -> Vec<u8> {
        std::fs::read(self.0.join(name)).expect(name)
    }

    pub fn read_text(&self, name: &str) -> String {
        String::from_utf8(self.read(name)).expect("text")
    }

    /// A copy of a folder in which one file is another.
    pub fn copy(&self, from: &str, to: &str, file: &str, change: &dyn Fn(&mut Vec<u8>)) {
        std::fs::create_dir(self.0.join(to)).expect("a folder");
        for name in self.names_in(from) {
            let mut bytes = self.read(&format!("{from}/{name}"));
            if name == file {
                change(&mut bytes);
            }
            self.write(&format!("{to}/{name}"), &bytes);
        }
    }

    /// An answer: its status is 0.
    pub fn said(&self, line: &str) -> String {
        let output = self.run(line);
        assert_eq!(output.status.code(), Some(0), "{line}: {}", String::from_utf8_lossy(&output.stderr));
        String::from_utf8(output.stdout).expect("text")
    }

    /// What is said where there is no answer: its status is 2.
    pub fn wrong(&self, line: &str) -> String {
        let output = self.run(line);
        assert_eq!(output.status.code(), Some(2), "{line}: {}", String::from_utf8_lossy(&output.stdout));
        String::from_utf8(output.stderr).expect("text")
    }

    /// Whatever the files hold, there is a status and no panic.
    pub fn status(&self, line: &str) -> usize {
        let output = self.run(line);
        let said = String::from_utf8_lossy(&output.stderr).into_owned();
        assert!(!said.contains("panicked"), "{line}: {said}");
        output.status.code().expect("a status") as usize
    }

    /// A reader that goes away is no failure, and changes no status.
    pub fn closed_pipe(&self, line: &str, status: i32) {
        let (reader, writer) = std::io::pipe().expect("a pipe");
        drop(reader);
        let output = self.command(line).stdout(writer).stderr(Stdio::piped()).output().expect("it runs");
        assert_eq!((output.status.code(), output.stderr.len()), (Some(status), 0), "{line}");
    }

    /// A disk without room is a failure, whether standard output or a file is on it.
    pub fn full_disk(&self, line: &str) {
        let full = File::options().write(true).open("/dev/full").expect("/dev/full");
        let output = self.command(line).stdout(full).output().expect("it runs");
        assert_eq!(output.status.code(), Some(2), "{line}");
        assert!(String::from_utf8_lossy(&output.stderr).contains("standard output cannot be written"), "{line}");
    }

    /// What the lines say is what is kept.
    pub fn expect(&self, name: &str, lines: &[impl AsRef<str>]) {
        expect(name, &lines.iter().map(|line| self.log(line.as_ref())).collect::<String>());
    }

    /// The same of commands that say much.
    pub fn expect_cut(&self, name: &str, lines: &[&str]) {
        expect(name, &lines.iter().map(|line| self.cut_log(line)).collect::<String>());
    }

    /// A shell's view of a command: the line, what it says, and its status where that is not 0.
    pub fn log(&self, line: &str) -> String {
        let output = self.run(line);
        let said = String::from_utf8_lossy(&output.stdout).into_owned() + &String::from_utf8_lossy(&output.stderr);
        let status = match output.status.code() {
            Some(0) => String::new(),
            Some(status) => format!("[exit status {status}]\n"),
            None => "[killed]\n".into(),
        };
        format!("$ bounds {line}\n{said}{status}\n")
    }

    /// [`Folder::log`] of a command that says much: its first and last lines, how many there are, and a sum of all; of a long
    /// line its beginning.
    pub fn cut_log(&self, line: &str) -> String {
        const LINES: (usize, usize) = (24, 6);
        const LETTERS: usize = 200;
        let log = self.log(line);
        let sum = log.bytes().fold(0xCBF2_9CE4_8422_2325u64, |sum, b| (sum ^ b as u64).wrapping_mul(0x100_0000_01B3));
        let lines: Vec<&str> = log.lines().collect();
        let (few, short) = (lines.len() <= LINES.0 + LINES.1 + 2, lines.iter().all(|line| line.len() <= LETTERS));
        if few && short {
            return log;
        }
        let cut = |line: &&str| match line.char_indices().nth(LETTERS) {
            Some((at, _)) => format!("{} [.. {} letters]\n", &line[..at], line.chars().count()),
            None => format!("{line}\n"),
        };
        let (first, last) = if few { (lines.len(), 0) } else { LINES };
        let head: String = lines[..first].iter().map(cut).collect();
        let tail: String = lines[lines.len() - last..].iter().map(cut).collect();
        let left_out = if few { String::new() } else { format!("[.. {} lines]\n", lines.len() - first - last) };
        format!("{head}{left_out}{tail}[sum {sum:016X}]\n\n")
    }

    /// Names in the folder, hidden ones too.
    pub fn names(&self) -> Vec<String> {
        self.names_in("")
    }

    /// Names in a folder in it.
    pub fn names_in(&self, folder: &str) -> Vec<String> {
        let entries = std::fs::read_dir(self.0.join(folder)).expect("the folder");
        let mut names: Vec<String> =
            entries.map(|entry| entry.expect("an entry").file_name().to_string_lossy().into_owned()).collect();
        names.sort();
        names
    }
}

impl Drop for Folder {
    fn drop(&mut self) {
        let _ = std::fs::remove_dir_all(&self.0);
    }
}

/// Compares a log with the kept one; with BLESS set it is kept instead.
pub fn expect(name: &str, log: &str) {
    keep(&Path::new(env!("CARGO_MANIFEST_DIR")).join("tests/expected").join(name), log);
}

/// Compares a page with the kept one; with BLESS set it is kept instead.
pub fn keep(path: &Path, page: &str) {
    if std::env::var_os("BLESS").is_some() {
        std::fs::write(path, page).expect("kept");
        return;
    }
    let kept = std::fs::read_to_string(path).expect("the kept page; BLESS=1 cargo test -p tool keeps one");
    for (number, (is, was)) in page.lines().zip(kept.lines()).enumerate() {
        assert_eq!(is, was, "{}, line {}", path.display(), number + 1);
    }
    assert_eq!(page, kept, "{}", path.display());
}
