//! Every command on the scope document's two boxes and on six boxes of which one becomes a NaN, as a shell shows it. The
//! logs are kept in tests/expected; `BLESS=1 cargo test -p tool` keeps new ones.

mod common;

use common::command::{expect, Folder};

fn logged(name: &str, lines: &[&str]) {
    let folder = Folder::with_inputs(name);
    let log: String = lines.iter().map(|line| folder.log(line)).collect();
    expect(&format!("{name}.log"), &log);
}

#[test]
fn two_boxes() {
    logged(
        "two",
        &[
            "build two.bin",
            "build two.bin --json",
            "build two.bin --out two",
            "check two.bin",
            "check two.bin --json",
            "query two -2,0,0 -0.75,0,0",
            "query two -0.25,-inf,-inf 0.25,inf,inf",
            "query two 0.5,nan,0 0.5,0,0 --json",
            "dump two",
            "explain two node 1 min.x",
            "explain two node 1 id",
            "explain two node 1 count",
            "explain two node 3 id",
            "explain two tree 0 last",
            "explain two header cen.x",
            "explain two header quantum.z",
            "explain two header node_capacity",
            "explain two header node_address",
            "explain two order 1",
            "explain two node 0 split",
            "explain two query 0.75,0,0 2,0,0 item 1",
            "explain two node 1 min.x --json",
            "diff two two.bin",
            "draw two -o two.svg",
        ],
    );
}

#[test]
fn six_boxes_and_a_nan() {
    logged(
        "six",
        &[
            "build a.bin",
            "build b.bin",
            "build six.txt --threshold 2 --json",
            "build a.bin --out a",
            "build b.bin --out b",
            "build six.txt --threshold 4 --out four",
            "check a.bin",
            "check b.bin",
            "check b.bin --json",
            "query a 6,0,0 7,1,1",
            "query b 6,0,0 7,1,1",
            "query four --all queries.txt",
            "query b --all queries.txt --json",
            "dump b",
            "dump four",
            "explain b node 9 min.x",
            "explain b node 8 min.x",
            "explain b header min.x",
            "explain b header inverse.x",
            "explain b node 0 split",
            "explain b node 1 split",
            "explain b tree 0 min.x",
            "explain b query 6,0,0 7,1,1 item 3",
            "explain b query 8,0,0 9,1,1 item 1",
            "explain a query 6,0,0 7,1,1 item 3",
            "explain four order 5",
            "explain four node 2 id",
            "diff a b",
            "diff a.bin b.bin --json",
            "diff a four",
            "draw b --query 6,0,0 7,1,1 -o b.svg --json",
        ],
    );
}

#[test]
fn help() {
    let each =
        ["prepare", "build", "check", "query", "dump", "explain", "diff", "draw"].map(|name| format!("{name} --help"));
    let mut lines = vec!["--help"];
    lines.extend(each.iter().map(String::as_str));
    logged("help", &lines);
}
