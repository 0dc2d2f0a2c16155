//! `explain` and `diff` of prepared meshes, as a shell shows them: every kind of polygon, and a road of which one vertex is
//! doubled. The logs are kept in tests/expected; `BLESS=1 cargo test -p tool` keeps new ones.

mod common;

use common::command::{expect, Folder};

fn logged(name: &str, lines: &[&str]) {
    let folder = Folder::with_inputs(name);
    let log: String = lines.iter().map(|line| folder.log(line)).collect();
    expect(&format!("{name}.log"), &log);
}

#[test]
fn explained() {
    logged(
        "explain_meshes",
        &[
            "prepare kinds.txt --out eight",
            "prepare kinds.txt --kind 4 --out four",
            "explain eight polygon 0 link 0",
            "explain eight polygon 0 area",
            "explain eight polygon 1 vertex 2",
            "explain eight polygon 3 zeros",
            "explain eight polygon 9 radius",
            "explain eight polygon 9 kind",
            "explain four polygon 0 link 1",
            "explain eight material 0",
            "explain eight material 1",
            "explain eight material 3",
            "explain eight material_index 3",
            "explain eight material_count",
            "explain eight vertex 2 x",
            "explain eight vertex_float 2 x",
            "explain eight quantum x",
            "explain four quantum x",
            "explain eight box min.x",
            "explain four box min.x",
            "explain eight center sphere.z",
            "explain eight radius",
            "explain four radius",
            "explain eight header inverse.x",
            "explain eight node 0 min.x",
            "explain eight node 1 id",
            "explain eight tree 0 last",
            "explain eight order 4",
            "explain eight node 0 split",
            "explain four shrunk 4 z",
            "explain four shrunk_float 6 x",
            "explain four octant 3 index 0",
            "explain four octant 0 count",
            "explain eight query 6,-4,2 7,-3,2 item 9",
            "explain eight query 6,-4,2 7,-3,2 item 0",
            "explain eight polygon 0 link 0 --json",
            "explain eight polygon 10 link 0",
            "explain eight polygon 0 link 3",
            "explain eight shrunk 0 x",
            "explain four node 0 min.x",
            "explain four query 0,0,0 1,1,1 item 0",
            "explain eight query 0,0,0 1,1,1 item 10",
            "explain kinds.txt --kind 4 radius",
        ],
    );
}

#[test]
fn compared() {
    logged(
        "diff_meshes",
        &[
            "prepare road.txt --out road",
            "prepare split.txt --out split",
            "diff road split",
            "diff road road.txt",
            "diff road.txt split.txt --json",
            "diff road.txt split.txt --kind 4",
            "prepare road.txt --kind 4 --out four",
            "diff road four",
            "prepare kinds.txt --out kinds",
            "diff road kinds",
            "diff road six.txt",
        ],
    );
}
