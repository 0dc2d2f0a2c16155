//! Which functions of the library a program holds.

use std::path::Path;

/// The functions of the library that are in this program, by its table of symbols: a linker leaves out what nothing calls.
pub fn linked() -> Vec<String> {
    let program = std::fs::read(std::env::current_exe().expect("a program has a path")).expect("its own bytes");
    let (declared, mut found) = (declared(), symbols(&program));
    found.retain(|name| declared.contains(name));
    found
}

/// The names in the table of symbols of a 64-bit ELF program.
fn symbols(program: &[u8]) -> Vec<String> {
    assert_eq!(&program[..5], b"\x7FELF\x02", "only the programs of Linux are looked into");
    let number =
        |at: usize, bytes: usize| program[at..at + bytes].iter().rev().fold(0, |sum, &byte| sum << 8 | byte as usize);
    let (sections, size, count) = (number(0x28, 8), number(0x3A, 2), number(0x3C, 2));
    let section = |k: usize| sections + k * size;
    let of = |k: usize| (number(section(k) + 0x18, 8), number(section(k) + 0x20, 8));
    let table = (0..count).find(|&k| number(section(k) + 4, 4) == 2).expect("a program of a test has its symbols");
    let ((from, length), (names, _)) = (of(table), of(number(section(table) + 0x28, 4)));
    let name = |at: usize| {
        let from = &program[names + number(at, 4)..];
        String::from_utf8_lossy(&from[..from.iter().position(|&byte| byte == 0).unwrap_or(0)]).into_owned()
    };
    (from..from + length).step_by(24).map(name).collect()
}

/// The functions that package `bounds` declares of the library.
fn declared() -> Vec<String> {
    let source = Path::new(env!("CARGO_MANIFEST_DIR")).join("../bounds/src/ffi.rs");
    let text = std::fs::read_to_string(source).expect("the declarations");
    let names = text.split("fn bounds_").skip(1).map(|rest| {
        let end = rest.find(|c: char| !c.is_alphanumeric() && c != '_').unwrap_or(rest.len());
        format!("bounds_{}", &rest[..end])
    });
    let names: Vec<String> = names.collect();
    assert!(names.len() > 50, "the library has more functions than {}", names.len());
    names
}
