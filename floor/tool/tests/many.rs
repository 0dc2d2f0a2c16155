//! `bounds check` of many files and folders in one call.

mod common;

use common::command::Folder;

/// An upload: a folder of what people send.
fn uploads(name: &str) -> Folder {
    let folder = Folder::with_inputs(name);
    std::fs::create_dir_all(folder.0.join("uploads/sub")).expect("folders");
    let square = "v 0 0 0\nv 1 0 0\nv 1 1 0\nv 0 1 0\nf 1 2 3 4\n";
    folder.write("uploads/square.obj", square.as_bytes());
    folder.write("uploads/Upper.OBJ", square.as_bytes());
    folder.write("uploads/sub/inner.txt", b"bounds mesh 1\nvertex 0 0 0\nsphere 0 0 1\n");
    folder.write("uploads/nan.obj", square.replacen("v 1 0 0", "v 1 nan 0", 1).as_bytes());
    folder.write("uploads/wrong.obj", b"v 0 0 0\nf 1 2 3\n");
    folder.write("uploads/empty.obj", b"");
    folder.write("uploads/large.obj", (square.to_string() + &"f 1 2 3\n".repeat(40_000)).as_bytes());
    folder.write("uploads/boxes.txt", b"# two\n0 0 0 1 1 1\nabsent\n2 0 0 3 1 1\n");
    folder.write("uploads/turned.txt", b"5 0 0 1 1 1\n");
    folder.write("uploads/ragged.bin", &[0; 33]);
    folder.write("uploads/notes.txt", b"Dear operator, here are my meshes.\n");
    folder.write("uploads/picture.png", &[0x89, 0x50]);
    folder.said("prepare uploads/square.obj --out uploads/prepared");
    folder.said("build uploads/boxes.txt --out uploads/sub/built");
    folder.said("prepare uploads/square.obj --split --out uploads/split");
    folder.copy("uploads/prepared", "uploads/spoilt", "nodes.bin", &|bytes| bytes[0] ^= 1);
    folder
}

#[test]
fn what_is_said_of_many() {
    let lines = [
        "check uploads",
        "check uploads --json",
        "check uploads/square.obj uploads/boxes.txt uploads/prepared",
        "check uploads/square.obj uploads/nowhere.obj",
        "check uploads/sub",
        "check uploads/split",
        "check uploads/spoilt",
        "check uploads/large.obj uploads/square.obj --split",
    ];
    uploads("many").expect("many.log", &lines);
}

/// The answer is the same however many processors there are, and one file says what it says alone.
#[test]
fn the_order_is_that_of_the_names() {
    let folder = uploads("order");
    let text = |line: &str| String::from_utf8_lossy(&folder.run(line).stdout).into_owned();
    let said = text("check uploads");
    assert_eq!(said, text("check uploads"));
    let names: Vec<&str> = said
        .lines()
        .filter_map(|line| line.split_ascii_whitespace().nth(1))
        .filter(|name| name.starts_with("uploads/"))
        .collect();
    let mut sorted = names.clone();
    sorted.sort();
    assert_eq!(names, sorted);
    let alone = text("check uploads/square.obj");
    let line = said.lines().find(|line| line.contains("uploads/square.obj")).expect("its line");
    assert!(line.ends_with(alone.lines().next().expect("a verdict")), "{line}");
}
