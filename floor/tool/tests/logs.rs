//! Every command on the scope document's two boxes and on six boxes of which one becomes a NaN, as a shell shows it; `explain`
//! and `diff` of meshes with every kind of polygon, and of a road of which one vertex is doubled. The logs are kept in
//! tests/expected; `BLESS=1 cargo test -p tool` keeps new ones.

mod common;

use common::command::Folder;

fn logged(name: &str, lines: &[&str]) {
    Folder::with_inputs(name).expect(&format!("{name}.log"), lines);
}

#[test]
fn two_boxes() {
    logged(
        "two",
        &[
            "build two.bin",
            "build two.bin --json",
            "build two.bin --out two",
            "check two.bin",
            "check two.bin --json",
            "query two -2,0,0 -0.75,0,0",
            "query two -0.25,-inf,-inf 0.25,inf,inf",
            "query two 0.5,nan,0 0.5,0,0 --json",
            "dump two",
            "explain two node 1 min.x",
            "explain two node 1 id",
            "explain two node 1 count",
            "explain two node 3 id",
            "explain two tree 0 last",
            "explain two header cen.x",
            "explain two header quantum.z",
            "explain two header node_capacity",
            "explain two header node_address",
            "explain two order 1",
            "explain two node 0 split",
            "explain two query 0.75,0,0 2,0,0 item 1",
            "explain two node 1 min.x --json",
            "diff two two.bin",
            "draw two -o two.svg",
        ],
    );
}

#[test]
fn six_boxes_and_a_nan() {
    logged(
        "six",
        &[
            "build a.bin",
            "build b.bin",
            "build six.txt --threshold 2 --json",
            "build a.bin --out a",
            "build b.bin --out b",
            "build six.txt --threshold 4 --out four",
            "check a.bin",
            "check b.bin",
            "check b.bin --json",
            "query a 6,0,0 7,1,1",
            "query b 6,0,0 7,1,1",
            "query four --all queries.txt",
            "query b --all queries.txt --json",
            "dump b",
            "dump four",
            "explain b node 9 min.x",
            "explain b node 8 min.x",
            "explain b header min.x",
            "explain b header inverse.x",
            "explain b node 0 split",
            "explain b node 1 split",
            "explain b tree 0 min.x",
            "explain b query 6,0,0 7,1,1 item 3",
            "explain b query 8,0,0 9,1,1 item 1",
            "explain a query 6,0,0 7,1,1 item 3",
            "explain four order 5",
            "explain four node 2 id",
            "diff a b",
            "diff a.bin b.bin --json",
            "diff a four",
            "draw b --query 6,0,0 7,1,1 -o b.svg --json",
        ],
    );
}

#[test]
fn explained_meshes() {
    logged(
        "explain_meshes",
        &[
            "prepare kinds.txt --out eight",
            "prepare kinds.txt --kind 4 --out four",
            "explain eight polygon 0 link 0",
            "explain eight polygon 0 area",
            "explain eight polygon 1 vertex 2",
            "explain eight polygon 3 zeros",
            "explain eight polygon 9 radius",
            "explain eight polygon 9 kind",
            "explain four polygon 0 link 1",
            "explain eight material 0",
            "explain eight material 1",
            "explain eight material 3",
            "explain eight material_index 3",
            "explain eight material_count",
            "explain eight vertex 2 x",
            "explain eight vertex_float 2 x",
            "explain eight quantum x",
            "explain four quantum x",
            "explain eight box min.x",
            "explain four box min.x",
            "explain eight center sphere.z",
            "explain eight radius",
            "explain four radius",
            "explain eight header inverse.x",
            "explain eight node 0 min.x",
            "explain eight node 1 id",
            "explain eight tree 0 last",
            "explain eight order 4",
            "explain eight node 0 split",
            "explain four shrunk 4 z",
            "explain four shrunk_float 6 x",
            "explain four octant 3 index 0",
            "explain four octant 0 count",
            "explain eight query 6,-4,2 7,-3,2 item 9",
            "explain eight query 6,-4,2 7,-3,2 item 0",
            "explain eight polygon 0 link 0 --json",
            "explain eight polygon 10 link 0",
            "explain eight polygon 0 link 3",
            "explain eight shrunk 0 x",
            "explain four node 0 min.x",
            "explain four query 0,0,0 1,1,1 item 0",
            "explain eight query 0,0,0 1,1,1 item 10",
            "explain kinds.txt --kind 4 radius",
        ],
    );
}

#[test]
fn compared_meshes() {
    logged(
        "diff_meshes",
        &[
            "prepare road.txt --out road",
            "prepare split.txt --out split",
            "diff road split",
            "diff road road.txt",
            "diff road.txt split.txt --json",
            "diff road.txt split.txt --kind 4",
            "prepare road.txt --kind 4 --out four",
            "diff road four",
            "prepare kinds.txt --out kinds",
            "diff road kinds",
            "diff road six.txt",
        ],
    );
}

#[test]
fn help() {
    let each = tool::commands::table().map(|command| format!("help {}", command.name));
    let mut lines = vec!["--help"];
    lines.extend(each.iter().map(String::as_str));
    logged("help", &lines);
}
