//! The script `bounds` at the repository's root, in a small repository of its own with stand-ins for rt and cargo: what it says
//! on the way, what it makes again and what not, and what it says where a tool is missing.

use std::fs;
use std::os::unix::fs::{symlink, PermissionsExt};
use std::path::{Path, PathBuf};
use std::process::{Command, Output};

const ROOT: &str = concat!(env!("CARGO_MANIFEST_DIR"), "/../..");

/// What the script calls, beside rt, cargo and rustc.
const TOOLS: [&str; 16] = [
    "bash", "sh", "awk", "cat", "chmod", "cp", "date", "dirname", "env", "find", "mkdir", "printf", "readlink", "tail",
    "tee", "touch",
];

/// rt as it speaks: a crate's functions and its verdict, nothing of a library that did not change, and the archive.
const RT: &str = r#"#!/bin/sh
echo "rt $* in $PWD" >> "$CALLS"
[ ! -e "$FAIL" ] || { echo 'fn base::put: not proved'; echo 'logic=not-proved'; echo 'rt: the library base did not build'; exit 1; }
said() {
    echo "fn $1::words::put: proved"
    echo "statements std: modules loaded=23 checked=0"
    echo "crate $1: modules loaded=0 checked=9"
    echo "logic=proved functions=1 statements=trusted"
}
name=${PWD##*/}
for below in base math; do
    [ -e "../$below/out" ] || said $below
    mkdir -p "../$below/out"
done
[ $name = bounds ] || said prepared
said $name
mkdir -p out
echo archive > "out/lib$name.a"
"#;

/// cargo, which builds a command that says how it was called, and leaves alone one that is there.
const CARGO: &str = r#"#!/bin/sh
echo "cargo $* BOUNDS_LIB=${BOUNDS_LIB:-}" >> "$CALLS"
root=${5%/*}
[ ! -e "$root/target/release/bounds" ] || exit 0
mkdir -p "$root/target/release"
printf '#!/bin/sh\necho "in $PWD"\nfor word in "$@"; do echo "<$word>"; done\nexit 7\n' > "$root/target/release/bounds"
chmod +x "$root/target/release/bounds"
"#;

const RUSTC: &str = "#!/bin/sh\necho \"rustc ${RUSTC_VERSION:-1.88.0} (6b00bc388 2025-06-23)\"\n";

/// A repository with the script, and a folder of the programs that it finds.
struct Repository(PathBuf);

impl Repository {
    fn new(name: &str) -> Repository {
        let root = std::env::temp_dir().join(format!("bounds-script-{name}-{}", std::process::id()));
        let _ = fs::remove_dir_all(&root);
        let crates = ["base", "math", "prepared", "bounds", "bounds_prepare"].map(|name| format!("crates/{name}"));
        let others = ["floor/bounds/src", "floor/tool/src", "bin", "elsewhere"].map(String::from);
        for folder in crates.iter().chain(&others) {
            fs::create_dir_all(root.join(folder)).expect("a folder");
        }
        let repository = Repository(root);
        repository.write("crates.txt", "# NAME: what it depends on\nbase:\nmath: base\nprepared: base math\nother: math\nbounds staticlib: base math\nbounds_prepare staticlib: base prepared\n");
        repository
            .write("floor/seconds.txt", "base 50\nmath 60\nprepared 240\nbounds 120\nbounds_prepare 240\nother 999\n");
        for file in [
            "crates/base/lib.rt",
            "floor/Cargo.toml",
            "floor/Cargo.lock",
            "floor/bounds/src/lib.rs",
            "floor/tool/src/lib.rs",
        ] {
            repository.write(file, "x\n");
        }
        for file in ["floor/bounds/Cargo.toml", "floor/tool/Cargo.toml", "floor/bounds/build.rs", "floor/tool/build.rs"]
        {
            repository.write(file, "x\n");
        }
        fs::copy(Path::new(ROOT).join("bounds"), repository.path("bounds")).expect("the script");
        let path = std::env::var_os("PATH").expect("a path");
        for tool in TOOLS {
            let found = std::env::split_paths(&path).map(|folder| folder.join(tool)).find(|file| file.is_file());
            let found = found.unwrap_or_else(|| panic!("{tool} is not here"));
            symlink(found, repository.path("bin").join(tool)).expect("a link");
        }
        for (name, text) in [("rt", RT), ("cargo", CARGO), ("rustc", RUSTC)] {
            repository.write(&format!("bin/{name}"), text);
            fs::set_permissions(repository.path("bin").join(name), PermissionsExt::from_mode(0o755)).expect("its mode");
        }
        repository
    }

    fn path(&self, name: &str) -> PathBuf {
        self.0.join(name)
    }

    /// Writes a file, which is then newer than all before it.
    fn write(&self, name: &str, text: &str) {
        std::thread::sleep(std::time::Duration::from_millis(12));
        fs::write(self.path(name), text).expect("written");
    }

    fn without(&self, tools: &[&str]) {
        tools.iter().for_each(|tool| fs::remove_file(self.path("bin").join(tool)).expect("it was there"));
    }

    /// Runs the script in another folder, with these variables set.
    fn run(&self, words: &[&str], variables: &[(&str, &str)]) -> Output {
        std::thread::sleep(std::time::Duration::from_millis(12));
        let _ = fs::remove_file(self.path("calls"));
        let mut command = Command::new(self.path("bounds"));
        command.args(words).current_dir(self.path("elsewhere")).env_clear().env("PATH", self.path("bin"));
        command.env("CALLS", self.path("calls")).env("FAIL", self.path("fail")).envs(variables.iter().copied());
        command.output().expect("the script runs")
    }

    fn calls(&self) -> String {
        fs::read_to_string(self.path("calls")).unwrap_or_default().replace(&self.0.display().to_string(), "")
    }
}

impl Drop for Repository {
    fn drop(&mut self) {
        let _ = fs::remove_dir_all(&self.0);
    }
}

fn said(output: &Output) -> String {
    String::from_utf8_lossy(&output.stderr).into_owned()
}

const PROVE: &str = "rt lib in /crates/bounds\n";
const BUILD: &str = "cargo build --quiet --release --manifest-path /floor/Cargo.toml -p tool BOUNDS_LIB=\n";

#[test]
fn the_first_run_proves_and_builds_and_the_second_runs_at_once() {
    let repository = Repository::new("twice");
    let first = repository.run(&["prepare", "a mesh.obj", "--out", "terrain"], &[]);
    let lines = [
        "bounds: proves the library: 5 crates, some 12 minutes by the last run's times; later runs do without",
        "bounds: 1 of 5 proved: base, 0 s; some 11 minutes left",
        "bounds: 2 of 5 proved: math, 0 s; less than a minute left",
        "bounds: 3 of 5 proved: bounds, 0 s; less than a minute left",
        "bounds: 4 of 5 proved: prepared, 0 s; less than a minute left",
        "bounds: 5 of 5 proved: bounds_prepare, 0 s",
        "bounds: builds the command",
        "bounds: built, 0 s",
    ];
    // A step takes a second where the machine has much to do.
    assert_eq!(said(&first).replace(", 1 s", ", 0 s").lines().collect::<Vec<_>>(), lines);
    assert_eq!(first.status.code(), Some(7), "the command's own");
    let folder = repository.path("elsewhere").canonicalize().expect("it is there");
    let answer = format!("in {}\n<prepare>\n<a mesh.obj>\n<--out>\n<terrain>\n", folder.display());
    assert_eq!(String::from_utf8_lossy(&first.stdout), answer);
    assert_eq!(repository.calls(), format!("{PROVE}rt lib in /crates/bounds_prepare\n{BUILD}"));
    let made = fs::read_to_string(repository.path("target/staticlib/libbounds_prepare.a")).expect("an archive");
    assert_eq!(made, "archive\n");
    let second = repository.run(&["check"], &[]);
    assert_eq!((said(&second).as_str(), repository.calls().as_str()), ("", ""), "nothing is made again");
    assert_eq!(second.status.code(), Some(7));
}

#[test]
fn what_changed_is_made_again_and_the_last_run_s_times_count() {
    let repository = Repository::new("again");
    repository.run(&[], &[]);
    repository.write("crates/base/lib.rt", "another\n");
    let proved = repository.run(&[], &[]);
    assert!(repository.calls().starts_with(PROVE) && repository.calls().ends_with(BUILD));
    assert!(said(&proved).contains("5 crates, less than a minute by the last run's times"), "{}", said(&proved));
    assert!(
        !said(&proved).contains("base, ") && said(&proved).contains("4 of 5 proved: prepared, "),
        "{}",
        said(&proved)
    );
    // What rt leaves in a crate's folder is no change.
    repository.write("crates/base/out/kept", "");
    repository.run(&[], &[]);
    assert_eq!(repository.calls(), "");
    repository.write("floor/tool/src/lib.rs", "another\n");
    repository.run(&[], &[]);
    assert_eq!(repository.calls(), BUILD, "the library is as it was");
    repository.run(&[], &[]);
    assert_eq!(repository.calls(), "");
}

#[test]
fn another_library_is_linked_and_not_proved() {
    let repository = Repository::new("given");
    repository.run(&[], &[]);
    fs::create_dir(repository.path("elsewhere/lib")).expect("a folder");
    let missing = repository.run(&[], &[("BOUNDS_LIB", "lib")]);
    assert!(
        said(&missing).contains("libbounds.a is missing, in the folder that BOUNDS_LIB names"),
        "{}",
        said(&missing)
    );
    assert_eq!((missing.status.code(), repository.calls().as_str()), (Some(2), ""));
    for name in ["elsewhere/lib/libbounds.a", "elsewhere/lib/libbounds_prepare.a"] {
        repository.write(name, "archive");
    }
    repository.write("crates/base/lib.rt", "another\n");
    assert_eq!(repository.run(&[], &[("BOUNDS_LIB", "lib")]).status.code(), Some(7));
    assert_eq!(repository.calls(), BUILD.replace("BOUNDS_LIB=", "BOUNDS_LIB=/elsewhere/lib"));
    repository.run(&[], &[("BOUNDS_LIB", "lib")]);
    assert_eq!(repository.calls(), "", "the second time it runs at once");
    let none = repository.run(&[], &[("BOUNDS_LIB", "nowhere")]);
    assert_eq!(said(&none), "bounds: BOUNDS_LIB names no folder: nowhere\n");
}

#[test]
fn without_rust_it_says_what_to_install_before_anything_is_proved() {
    let repository = Repository::new("rustless");
    let old = repository.run(&[], &[("RUSTC_VERSION", "1.87.0")]);
    assert!(said(&old).starts_with("bounds: rustc 1.87.0 is too old. "), "{}", said(&old));
    repository.without(&["cargo"]);
    let output = repository.run(&[], &[]);
    let words = "bounds: Rust is not installed. The command is written in Rust: install rustc and cargo, 1.88 or newer, with your \
                 system's package manager.\nbounds: Without Rust there is the proved program, which prepares the mesh in \
                 crates/prepare/stdin:\nbounds:   cd crates/prepare && rt run < stdin\n";
    assert_eq!(said(&output), words);
    assert_eq!((output.status.code(), repository.calls().as_str()), (Some(2), ""));
}

#[test]
fn without_rt_it_says_where_that_must_be_and_uses_the_archives_that_are_there() {
    let repository = Repository::new("toolless");
    repository.without(&["rt"]);
    let output = repository.run(&[], &[]);
    let words = "bounds: the library is not built yet, and rt, the Rattle toolchain, is not on PATH.\nbounds: Put the folder that \
                 holds rt on PATH: the kit installs to /opt/rattle, so /opt/rattle/bin; 'rt doc' then names its guide.\n";
    assert_eq!(said(&output), words);
    assert_eq!((output.status.code(), repository.calls().as_str()), (Some(2), ""));
    fs::create_dir_all(repository.path("target/staticlib")).expect("a folder");
    for name in ["target/staticlib/libbounds.a", "target/staticlib/libbounds_prepare.a"] {
        repository.write(name, "archive");
    }
    assert_eq!(repository.run(&[], &[]).status.code(), Some(7));
    assert_eq!(repository.calls(), BUILD);
    repository.write("crates.txt", "bounds:\nbounds_prepare:\n");
    let output = repository.run(&[], &[]);
    assert!(said(&output).contains("the library is older than crates/, and rt"), "{}", said(&output));
    assert_eq!(output.status.code(), Some(7), "it is used as it is");
}

#[test]
fn what_is_not_proved_is_not_built() {
    let repository = Repository::new("unproved");
    repository.write("fail", "");
    let output = repository.run(&[], &[]);
    assert_eq!(output.status.code(), Some(2));
    assert!(said(&output)
        .contains("rt: the library base did not build\nbounds: the library is not proved; all that rt said is in "));
    assert_eq!(repository.calls(), PROVE);
}

#[test]
fn the_repository_has_a_time_for_every_crate_of_the_library() {
    let read = |name: &str| fs::read_to_string(Path::new(ROOT).join(name)).expect("a file of the repository");
    let (crates, seconds) = (read("crates.txt"), read("floor/seconds.txt"));
    let mut wanted = vec!["bounds", "bounds_prepare"];
    for line in crates.lines().rev() {
        let (said, needs) = line.split_once(':').expect("NAME: what it depends on");
        if said.split_whitespace().next().is_some_and(|name| wanted.contains(&name)) {
            wanted.extend(needs.split_whitespace());
        }
    }
    for name in &wanted {
        let took = seconds.lines().find_map(|line| line.strip_prefix(&format!("{name} "))?.parse::<u32>().ok());
        assert!(took.is_some_and(|took| took > 0), "{name} has no time");
    }
    let mut names: Vec<&str> = seconds.lines().filter_map(|line| line.split(' ').next()).collect();
    assert!(names.iter().all(|name| wanted.contains(name)), "a crate that is none of the library's");
    let all = names.len();
    names.dedup();
    assert_eq!(names.len(), all, "one time for each");
}
