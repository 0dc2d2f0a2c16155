//! What was measured, with what, and where.

use std::path::Path;
use std::process::Command;

/// Lines that name the commit, the compilers and the machine; what cannot be had is said so or left out.
pub fn described() -> String {
    let commit = match (said("git", &["rev-parse", "--short=12", "HEAD"]), said("git", &["status", "--porcelain"])) {
        (Some(id), Some(changes)) if changes.is_empty() => id,
        (Some(id), _) => format!("{id}, with changes that are not committed"),
        (None, _) => "unknown".to_string(),
    };
    let mut lines = vec![format!("commit {commit}")];
    lines.push(said("rustc", &["--version"]).unwrap_or("rustc of unknown version".to_string()) + ", release mode");
    lines.extend(said("rt", &["version"]).map(|version| format!("the library by rt: {version}")));
    let processors = std::thread::available_parallelism().map_or(1, |n| n.get());
    lines.push(format!("{}, {processors} processors{}", processor(), load()));
    lines.iter().map(|line| format!("- {line}\n")).collect()
}

/// The first line that a program writes, where it can be run.
fn said(program: &str, words: &[&str]) -> Option<String> {
    let here = Path::new(env!("CARGO_MANIFEST_DIR"));
    let out = Command::new(program).args(words).current_dir(here).output().ok().filter(|out| out.status.success())?;
    Some(String::from_utf8(out.stdout).ok()?.lines().next().unwrap_or_default().to_string())
}

fn processor() -> String {
    let info = std::fs::read_to_string("/proc/cpuinfo").unwrap_or_default();
    let model = info.lines().find_map(|l| l.strip_prefix("model name")?.split_once(':'));
    model.map_or("a processor that does not say its name".to_string(), |(_, name)| name.trim().to_string())
}

/// What else the machine did: a shared one is slower, and the least of the samples hides that only in part.
fn load() -> String {
    let average = std::fs::read_to_string("/proc/loadavg").unwrap_or_default();
    let load = average.split(' ').next().filter(|load| !load.is_empty());
    load.map_or(String::new(), |load| format!(", under a load of {load} at the end of the run"))
}
