//! Answers and files, written whole or not at all.

use crate::failure::Failure;
use std::fs;
use std::io::{self, ErrorKind, Write};
use std::path::{Path, PathBuf};

/// Writes an answer to standard output. A reader that has closed its end has read what it wanted: no failure.
pub fn answer(text: &str) -> Result<(), Failure> {
    let mut out = io::stdout().lock();
    match out.write_all(text.as_bytes()).and_then(|()| out.flush()) {
        Err(error) if error.kind() == ErrorKind::BrokenPipe => Ok(()),
        Err(error) => Err(Failure::Output(error)),
        Ok(()) => Ok(()),
    }
}

/// A name beside the target, so that a rename stays on its disk.
fn temporary(path: &Path) -> PathBuf {
    let name = path.file_name().map_or_else(|| "out".into(), |name| name.to_string_lossy().into_owned());
    path.with_file_name(format!(".{name}.{}.tmp", std::process::id()))
}

/// Writes a file under another name and renames it. What is no file (a device, a pipe) is written to as it is: a rename
/// would put a file in its place.
pub fn write_file(path: &str, bytes: &[u8]) -> Result<(), Failure> {
    let failed = |error: io::Error| Failure::reach(path, "written", &error);
    let target = Path::new(path);
    if fs::metadata(target).is_ok_and(|found| !found.is_file()) {
        return fs::OpenOptions::new().write(true).open(target).and_then(|mut f| f.write_all(bytes)).map_err(failed);
    }
    let beside = temporary(target);
    let written = fs::write(&beside, bytes).and_then(|()| fs::rename(&beside, target));
    written.map_err(|error| {
        let _ = fs::remove_file(&beside); // the first failure is the one to tell
        failed(error)
    })
}

/// Writes a folder of files under another name and renames it. One that exists is left alone.
pub fn write_folder(path: &str, files: &[(&str, Vec<u8>)]) -> Result<(), Failure> {
    let target = Path::new(path.trim_end_matches('/'));
    if path.is_empty() || fs::symlink_metadata(target).is_ok() {
        return Err(Failure::File(format!("{path}: exists already; remove it or choose another name")));
    }
    let beside = temporary(target);
    let fill = || -> io::Result<()> {
        fs::create_dir(&beside)?;
        for (name, bytes) in files {
            fs::write(beside.join(name), bytes)?;
        }
        fs::rename(&beside, target)
    };
    fill().map_err(|error| {
        let _ = fs::remove_dir_all(&beside); // the first failure is the one to tell
        Failure::reach(path, "written", &error)
    })
}
