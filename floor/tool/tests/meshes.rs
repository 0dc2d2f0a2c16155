//! Every command on meshes, as a shell shows it: a terrain of some three thousand triangles as an .obj, and a mesh of every kind
//! of polygon as our own text. The logs are kept in tests/expected; `BLESS=1 cargo test -p tool` keeps new ones.

mod common;

use common::command::{keep, Folder};
use common::terrain;
use std::path::Path;

/// The terrain among the inputs is the one that is made here.
#[test]
fn the_terrain_is_made_anew() {
    keep(&Path::new(env!("CARGO_MANIFEST_DIR")).join("tests/inputs/terrain.obj"), &terrain::obj());
}

#[test]
fn a_terrain() {
    let folder = Folder::with_inputs("terrain");
    folder.write("places.txt", b"# three places\n110 -190 -50 113 -187 50\n171 -136 20 171 -136 30\n0 0 0 1 1 1\n");
    let lines = [
        "check terrain.obj",
        "check terrain.obj --json",
        "check terrain.obj --kind 4",
        "prepare terrain.obj --out terrain",
        "prepare terrain.obj",
        "prepare terrain.obj --json",
        "prepare terrain.obj --kind 4 --margin 0.02 --out four",
        "prepare terrain.obj --kind 4 --json",
        "prepare four/mesh.txt --out again",
        "prepare terrain.obj --out terrain",
        "query terrain 110,-190,-50 113,-187,50",
        "query terrain --all places.txt",
        "query terrain --all places.txt --json",
        "query terrain.obj 120,-150,-inf 120,-150,inf",
        "query four 110,-190,-50 113,-187,50",
        "dump terrain",
        "dump four",
        "dump terrain --json",
        "explain terrain polygon 3 link 1",
        "explain terrain vertex 7 y",
        "explain terrain material 2",
        "explain terrain node 9 min.x",
        "explain terrain query 121,-151,-inf 121,-151,inf item 2370",
        "explain four shrunk 700 z",
        "explain four octant 3 index 0",
        "explain four octant 3 index 0 --json",
        "diff terrain terrain.obj",
        "diff terrain four",
        "draw terrain --query 130,-170,-50 142,-160,50 -o terrain.svg",
        "draw terrain --json",
        "draw four -o four.svg --json",
        "draw four --query 0,0,0 1,1,1",
    ];
    folder.expect_cut("terrain.log", &lines);
    for name in folder.names_in("four") {
        let [four, again] = ["four", "again"].map(|of| folder.read(&format!("{of}/{name}")));
        assert!(four == again, "{name} of the same mesh prepared again");
    }
}

#[test]
fn every_kind_of_polygon() {
    let folder = Folder::with_inputs("kinds");
    let lines = [
        "check kinds.txt",
        "check kinds.txt --json",
        "prepare kinds.txt",
        "prepare kinds.txt --out kinds",
        "prepare kinds.txt --kind 4 --out plain",
        "prepare kinds.txt --kind 4",
        "prepare kinds.txt --json",
        "query kinds 6,-4,2 7,-3,2",
        "query kinds 9.8,-0.2,7.5 10,0,7.75 --json",
        "dump kinds",
        "dump plain",
        "draw kinds --query 6,-4,2 7,-3,2 -o kinds.svg",
    ];
    folder.expect("kinds.log", &lines);
}

/// A NaN in one vertex: what the premises say, what is lost, and that its bits are kept.
#[test]
fn a_terrain_with_a_nan() {
    let folder = Folder::with_inputs("hole");
    let text = terrain::obj().replacen("v 137.5 -165.0", "v 0x7FC12345 -165.0", 1);
    folder.write("hole.obj", text.as_bytes());
    let lines = [
        "check hole.obj",
        "check hole.obj --json",
        "prepare hole.obj --out hole",
        "query hole 137,-166,-50 138,-164,50",
        "explain hole query 137,-166,-50 138,-164,50 item 1052",
        "diff terrain.obj hole",
        "diff terrain.obj hole --json",
        "draw hole -o hole.svg",
    ];
    folder.expect_cut("hole.log", &lines);
    // Each asked for at its place here; the comparison asks at the places of the other, too.
    assert!(folder.read_text("hole.svg").contains("1630 of 3040 polygons LOST"));
}
