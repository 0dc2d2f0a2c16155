//! What commands say of a mesh that was an .obj: its lines, its vertices' numbers and their values as the file has them.

mod common;

use common::command::{expect, Folder};
use common::terrain;

/// A roof over two rooms far from the origin, y up.
const ROOF: &str =
    "o roof\nv 1000.1 3 -20.7\nv 1004.3 3 -20.7\nv 1004.3 3 -25.9\nv 1000.1 3 -25.9\nv 1002.2 5.5 -23.3\n\
                    f 1 2 5\nf 2 3 5\nf 3 4 5\nf 4 1 5\n";

#[test]
fn sources() {
    let folder = Folder::with_inputs("sources");
    let terrain = terrain::obj();
    let moved = terrain.replacen("v 100.0 -200.0 ", "v 87.3 -200.0 ", 1);
    assert_ne!(moved, terrain);
    folder.write("moved.obj", moved.as_bytes());
    folder.write("roof.obj", ROOF.as_bytes());
    folder.write("low.obj", ROOF.replace("1002.2 5.5", "1002.2 4.5").as_bytes());
    let lines = [
        "prepare terrain.obj --out terrain",
        "prepare moved.obj --out moved",
        "diff terrain moved",
        "prepare roof.obj --out z",
        "prepare roof.obj --up y --out y",
        "diff z y",
        "diff roof.obj low.obj --up y --kind 4",
        "query y 1000,20,3 1001,21,3",
        "explain y vertex 4 y",
        "explain y vertex 4 z",
        "explain y polygon 1 vertex 2",
        "explain y polygon 1 link 0",
        "explain y node 0 max.y",
        "explain y material_index 0",
        "explain roof.obj --kind 4 --up y shrunk 4 z",
    ];
    let log: String = lines.iter().map(|line| folder.cut_log(line)).collect();
    let dump = folder.said("dump y");
    let rows: String = dump.lines().filter(|row| row.contains("roof.obj")).map(|row| format!("{row}\n")).collect();
    let text = folder.read_text("y/mesh.txt");
    expect("sources.log", &format!("{log}$ bounds dump y | grep roof.obj\n{rows}\n$ cat y/mesh.txt\n{text}"));
}

/// One vertex of the file is moved, and with it the centre: what is said first is that vertex, and the others are one cause.
#[test]
fn another_centre_is_one_cause() {
    let folder = Folder::with_inputs("centre");
    folder.write("moved.obj", terrain::obj().replacen("v 100.0 -200.0 ", "v 87.3 -200.0 ", 1).as_bytes());
    let text = folder.said("diff terrain.obj moved.obj");
    let first = "vertex 0 x in the file 100.0 -> 87.3 (a: terrain.obj line 3, v 1; b: moved.obj line 3, v 1); ";
    assert!(text.starts_with(&format!("verdict  {first}")), "{text}");
    assert!(text.contains("\ninput    1 difference: vertex 0 x in the file"), "{text}");
    assert!(text.contains(" 1598 of 1599 vertices have the same numbers in both files\n"), "{text}");
    assert_eq!(text.matches("another centre, for vertices that the files have alike: ").count(), 1, "{text}");
    assert!(!text.contains("vertices as they were given: 1599"), "{text}");
}
