//! Answers and files, written whole or not at all.

use crate::failure::Failure;
use std::fs;
use std::io::{self, ErrorKind, Write};
use std::path::{Path, PathBuf};

/// Writes an answer to standard output. A reader that has closed its end has read what it wanted: no failure.
pub fn answer(text: &str) -> Result<(), Failure> {
    let mut out = io::stdout().lock();
    match out.write_all(text.as_bytes()).and_then(|()| out.flush()) {
        Err(error) if error.kind() == ErrorKind::BrokenPipe => Ok(()),
        Err(error) => Err(Failure::Output(error)),
        Ok(()) => Ok(()),
    }
}

/// A name beside the target, so that a rename stays on its disk.
fn temporary(path: &Path, what: &str) -> PathBuf {
    let name = path.file_name().map_or_else(|| "out".into(), |name| name.to_string_lossy().into_owned());
    path.with_file_name(format!(".{name}.{}.{what}", std::process::id()))
}

/// Where an answer is to be written.
#[derive(Clone, Copy, Debug)]
pub struct Target<'a> {
    pub path: &'a str,
    /// Whether what exists is replaced.
    pub force: bool,
}

impl Target<'_> {
    /// A place at which nothing is replaced.
    pub fn at(path: &str) -> Target<'_> {
        Target { path, force: false }
    }

    fn as_path(&self) -> &Path {
        Path::new(self.path.trim_end_matches('/'))
    }

    fn refused(&self, why: &str) -> Failure {
        Failure::File(format!("{}: {why}", self.path))
    }

    /// Whether a file may be written here.
    pub fn file(&self) -> Result<(), Failure> {
        match fs::metadata(self.as_path()) {
            Ok(found) if found.is_dir() => Err(self.refused("is a folder; name a file")),
            Ok(found) if found.is_file() && !self.force => Err(self.refused(EXISTS)),
            _ => Ok(()), // nothing, or a device or pipe
        }
    }

    /// Whether a folder may be written here. What this command did not write is not replaced: a slip would cost a whole
    /// folder.
    pub fn folder(&self) -> Result<(), Failure> {
        let target = self.as_path();
        let Ok(found) = fs::symlink_metadata(target) else {
            return if self.path.is_empty() { Err(self.refused("is no name of a folder")) } else { Ok(()) };
        };
        match () {
            () if !self.force => Err(self.refused(EXISTS)),
            () if !found.is_dir() => Err(self.refused("is no folder; --force replaces a folder by a folder")),
            () if !target.join("dump.txt").is_file() => {
                Err(self.refused("has no dump.txt, so it is no dump; --force replaces what `bounds` wrote"))
            }
            () => Ok(()),
        }
    }
}

const EXISTS: &str = "exists already; remove it, choose another name, or give --force";

/// Writes a file under another name and renames it. What is no file (a device, a pipe) is written to as it is: a rename
/// would put a file in its place.
pub fn write_file(target: &Target, bytes: &[u8]) -> Result<(), Failure> {
    target.file()?;
    let failed = |error: io::Error| Failure::reach(target.path, "written", &error);
    let path = target.as_path();
    if fs::metadata(path).is_ok_and(|found| !found.is_file()) {
        return fs::OpenOptions::new().write(true).open(path).and_then(|mut f| f.write_all(bytes)).map_err(failed);
    }
    let beside = temporary(path, "tmp");
    let written = fs::write(&beside, bytes).and_then(|()| fs::rename(&beside, path));
    written.map_err(|error| {
        let _ = fs::remove_file(&beside); // the first failure is the one to tell
        failed(error)
    })
}

/// Writes a folder of files under another name and renames it.
pub fn write_folder(target: &Target, files: &[(&str, Vec<u8>)]) -> Result<(), Failure> {
    fill_folder(target, |folder| {
        write_files(folder, files).map_err(|error| Failure::reach(target.path, "written", &error))
    })
}

/// Writes files into a folder that is there.
pub fn write_files(folder: &Path, files: &[(&str, Vec<u8>)]) -> io::Result<()> {
    files.iter().try_for_each(|(name, bytes)| fs::write(folder.join(name), bytes))
}

/// A folder that is filled under another name and renamed when it is whole.
pub fn fill_folder<T>(target: &Target, fill: impl FnOnce(&Path) -> Result<T, Failure>) -> Result<T, Failure> {
    target.folder()?;
    let failed = |error: io::Error| Failure::reach(target.path, "written", &error);
    let path = target.as_path();
    let beside = temporary(path, "tmp");
    let filled = || {
        fs::create_dir(&beside).map_err(failed)?;
        let answer = fill(&beside)?;
        exchange(&beside, path).map_err(failed)?;
        Ok(answer)
    };
    filled().inspect_err(|_| {
        let _ = fs::remove_dir_all(&beside); // the first failure is the one to tell
    })
}

/// Puts a folder in its place. One that is there is put aside, and put back where that fails.
fn exchange(beside: &Path, path: &Path) -> io::Result<()> {
    if fs::symlink_metadata(path).is_err() {
        return fs::rename(beside, path);
    }
    let old = temporary(path, "old");
    fs::rename(path, &old)?;
    if let Err(error) = fs::rename(beside, path) {
        let _ = fs::rename(&old, path); // the first failure is the one to tell
        return Err(error);
    }
    fs::remove_dir_all(&old)
}
