//! Bad meshes, damaged folders of prepared ones, closed pipes and full disks: what is said, the exit status, and that nothing is
//! half written.

mod common;

use common::command::{expect, Folder};
use common::{terrain, Random};
use std::fs::File;
use std::process::Stdio;

/// A pyramid as an .obj, with a quad.
const PYRAMID: &str =
    "v -1 -1 0\nv 1 -1 0\nv 1 1 0\nv -1 1 0\nv 0 0 1\nf 4 3 2 1\nf 1/1/1 2/2/1 5//1\nf 2 3 5\nf -3 -2 -1\nf 4 1 5\n";

#[test]
fn bad_meshes() {
    let folder = Folder::with_inputs("bad-meshes");
    let obj = |name: &str, last: &str| folder.write(&format!("{name}.obj"), format!("{PYRAMID}{last}\n").as_bytes());
    obj("two", "v 1 2");
    obj("word", "v 1 2 three");
    obj("corners", "f 1 2");
    obj("zero", "f 0 1 2");
    obj("past", "f 1 2 9");
    obj("back", "f -1 -2 -9");
    obj("slashes", "f 1/2/3/4 2 3");
    obj("letters", "f 1 2/x 3");
    obj("large", "v 1e39 0 0");
    obj("surface", "curv 0 1 1 2");
    folder.write("bytes.obj", &[PYRAMID.as_bytes(), b"o \xFF\xFE\n"].concat());
    folder.write("empty.txt", b"# nothing\n");
    folder.write("noise.txt", b"no mesh at all\n");
    let text = |name: &str, line: &str| {
        let head = "bounds mesh 1\nvertex 0 0 0\nvertex 1 0 0\nvertex 0 1 0\n";
        folder.write(&format!("{name}.txt"), format!("{head}{line}\ntriangle 0 0 1 2\n").as_bytes());
    };
    let wrong = [
        ("unknown", "sfere 0 1 2"),
        ("kind", "kind four"),
        ("kinds", "kind 4 8"),
        ("nine", "kind 9"),
        ("twice", "margin 1\nmargin 2"),
        ("margin", "margin wide"),
        ("transform", "transform 1 0 0 0 0 1 0 0 0 0 1 0 0 0 0"),
        ("vertex", "vertex 1 2"),
        ("digits", "vertex 0x7FC 0 0"),
        ("material", "material 1"),
        ("words", "material 1 0x100000000"),
        ("triangle", "triangle 0 1 2"),
        ("area", "triangle 0 0 1 2 area"),
        ("number", "triangle 0 0 1 70000"),
        ("many", "triangle 256 0 1 2"),
        ("minus", "sphere 0 -1 1"),
        ("sphere", "sphere 0 1"),
        ("capsule", "capsule 0 1 2"),
        ("box", "box 0 0 1 2"),
    ];
    wrong.iter().for_each(|(name, line)| text(name, line));
    let mut lines: Vec<String> =
        ["two", "word", "corners", "zero", "past", "back", "slashes", "letters", "large", "surface", "bytes"]
            .map(|name| format!("prepare {name}.obj --out out"))
            .to_vec();
    lines.extend(["empty", "noise"].map(|name| format!("prepare {name}.txt --out out")));
    lines.extend(wrong.iter().map(|(name, _)| format!("prepare {name}.txt --out out")));
    let usage = [
        "prepare",
        "prepare missing.obj",
        "prepare two.obj --kind 5",
        "prepare two.obj --margin wide",
        "prepare two.obj --threshold 4",
        "check nine.txt",
        "check word.obj",
        "check a.bin --kind 8",
        "check terrain.obj --threshold 1",
        "query terrain.obj",
        "query terrain.obj 0,0 1,1,1",
        "query a.bin --kind 8 0,0,0 1,1,1",
        "dump terrain.obj --threshold 2",
        "diff a.bin terrain.obj",
        "build terrain.obj",
        "prepare six.txt",
        "prepare terrain.obj --out no/such/folder",
        "prepare terrain.obj --out six.txt",
    ];
    lines.extend(usage.map(String::from));
    let log: String = lines.iter().map(|line| folder.log(line)).collect();
    expect("bad_meshes.log", &log);
    let half = |name: &String| name == "out" || name.contains("tmp");
    assert!(!folder.names().iter().any(half), "{:?}", folder.names());
}

/// Groups of 40 spheres that lie so that each split takes the farthest alone: 443 of them have too many nodes.
fn lonely(groups: usize) -> String {
    let mut text = String::from("bounds mesh 1\n");
    for group in 0..groups {
        let mut x = 1e-30f32;
        for k in 0..40 {
            text += &format!("vertex {x:?} {group} 0\nsphere 0 {} 0\n", 40 * group + k);
            x *= k as f32 + 3.0;
        }
    }
    text
}

/// What preparing refuses, by its number and in words, and that a check says the same.
#[test]
fn refused_meshes() {
    let folder = Folder::with_inputs("refused");
    let repeated = |line: &str, n: usize| format!("{line}\n").repeat(n);
    let three = "bounds mesh 1\nvertex 0 0 0\nvertex 1 0 0\nvertex 0 1 0\n";
    folder.write("polygons.txt", format!("{three}{}", repeated("triangle 0 0 1 2", 32_768)).as_bytes());
    folder.write("vertices.txt", format!("bounds mesh 1\n{}", repeated("vertex 1 2 3", 32_769)).as_bytes());
    folder.write("materials.txt", format!("{three}{}", repeated("material 1 2", 257)).as_bytes());
    let materials: String = (0..256).map(|k| format!("material {k} 9\nsphere {k} 0 1\n")).collect();
    folder.write("used.txt", format!("{three}{materials}").as_bytes());
    let fewer = materials.replacen("sphere 255", "sphere 254", 1);
    folder.write("used255.txt", format!("{three}{fewer}").as_bytes());
    folder
        .write("margin.txt", format!("{three}kind 4\nmargin inf\nbox_max inf nan nan\ntriangle 0 0 1 2\n").as_bytes());
    folder.write("nine.txt", format!("{three}kind 9\n").as_bytes());
    folder.write("lonely.txt", lonely(443).as_bytes());
    folder.write("lonely442.txt", lonely(442).as_bytes());
    let many: String = (0..40_000).map(|k| format!("v {k} 0 0\nv {k} 1 0\nv {k} 0 1\nf -3 -2 -1\n")).collect();
    folder.write("many.obj", many.as_bytes());
    let lines = [
        "prepare polygons.txt --out out",
        "prepare vertices.txt --out out",
        "prepare materials.txt --out out",
        "prepare used.txt --out out",
        "prepare used255.txt --out used",
        "prepare margin.txt --out out",
        "prepare nine.txt --out out",
        "prepare many.obj --out out",
        "prepare lonely.txt --out out",
        "prepare lonely442.txt --out lonely",
        "check lonely.txt",
        "check polygons.txt",
        "check margin.txt --json",
        "check margin.txt --kind 8",
        "check used.txt",
        "query many.obj 0,0,0 1,1,1",
    ];
    let log: String = lines.iter().map(|line| folder.log(line)).collect();
    expect("refused_meshes.log", &log);
    assert!(!folder.names().contains(&"out".to_string()), "{:?}", folder.names());
}

/// A copy of a prepared mesh in which a file is another.
fn copy(folder: &Folder, from: &str, to: &str, file: &str, change: &dyn Fn(&mut Vec<u8>)) {
    std::fs::create_dir(folder.0.join(to)).expect("a folder");
    for name in folder.names_in(from) {
        let mut bytes = std::fs::read(folder.0.join(from).join(&name)).expect("a file");
        if name == file {
            change(&mut bytes);
        }
        std::fs::write(folder.0.join(to).join(&name), bytes).expect("a copy");
    }
}

#[test]
fn damaged_folders() {
    let folder = Folder::with_inputs("damaged-meshes");
    folder.run("prepare kinds.txt --out eight");
    folder.run("prepare kinds.txt --kind 4 --out four");
    let eight = |to: &str, file: &str, change: &dyn Fn(&mut Vec<u8>)| copy(&folder, "eight", to, file, change);
    let four = |to: &str, file: &str, change: &dyn Fn(&mut Vec<u8>)| copy(&folder, "four", to, file, change);
    eight("link", "polygons.bin", &|bytes| bytes[16 + 12] ^= 1);
    eight("unknown", "polygons.bin", &|bytes| bytes[0] |= 7);
    eight("polygons", "polygons.bin", &|bytes| bytes.truncate(100));
    eight("material", "materials.bin", &|bytes| bytes[8] = 9);
    eight("index", "indices.bin", &|bytes| bytes[3] = 200);
    eight("vertex", "vertices.bin", &|bytes| bytes[7] ^= 0x80);
    eight("frame", "frame.bin", &|bytes| bytes.truncate(63));
    eight("quantum", "frame.bin", &|bytes| bytes[3] ^= 0x40);
    eight("leaf", "nodes.bin", &|bytes| bytes[16 * 3 + 14] = 0x7F);
    eight("range", "trees.bin", &|bytes| bytes[15] = 0x7F);
    eight("order", "order.bin", &|bytes| bytes[1] = 0xFF);
    eight("places", "order.bin", &|bytes| bytes.truncate(18));
    eight("header", "header.bin", &|bytes| bytes[15] = 0xFF);
    eight("other", "mesh.txt", &|bytes| bytes.extend(b"vertex 1 2 3\n"));
    eight("wrong", "mesh.txt", &|bytes| bytes.extend(b"vertex 1 2\n"));
    eight("moved", "mesh.txt", &|bytes| {
        *bytes = String::from_utf8_lossy(bytes).replace("center_geom 10.0", "center_geom 11.0").into_bytes();
    });
    eight("bound", "dump.txt", &|bytes| {
        *bytes = b"bounds dump 1\nkind mesh\nbound 5\npolygons 1\nvertices 1\nmaterials 1\n".to_vec()
    });
    eight("numbers", "dump.txt", &|bytes| *bytes = b"bounds dump 1\nkind mesh\nbound 8\npolygons 40000\n".to_vec());
    eight("ends", "dump.txt", &|bytes| *bytes = b"bounds dump 1\nkind mesh\nbound 8\n".to_vec());
    eight("records", "dump.txt", &|_| ());
    std::fs::remove_file(folder.0.join("records/mesh.txt")).expect("only the records");
    eight("missing", "dump.txt", &|_| ());
    std::fs::remove_file(folder.0.join("missing/indices.bin")).expect("a file less");
    four("shrunk", "shrunk.bin", &|bytes| bytes[0] ^= 2);
    four("count", "octants.bin", &|bytes| bytes[4] = 200);
    four("octant", "octants.bin", &|bytes| bytes[32] ^= 1);
    four("octants", "octants.bin", &|bytes| bytes.truncate(20));
    let lines = [
        "dump link",
        "dump unknown",
        "dump polygons",
        "dump material",
        "dump index",
        "dump vertex",
        "dump frame",
        "dump quantum",
        "query leaf 6,-4,2 7,-3,2",
        "query range 6,-4,2 7,-3,2",
        "query order 6,-4,2 7,-3,2",
        "dump places",
        "dump header",
        "dump other",
        "dump wrong",
        "dump moved",
        "draw moved -o moved.svg",
        "dump bound",
        "dump numbers",
        "dump ends",
        "dump records",
        "query records 6,-4,2 7,-3,2",
        "draw records",
        "dump missing",
        "dump shrunk",
        "dump count",
        "dump octant",
        "dump octants",
        "dump eight --kind 8",
        "query eight --margin 1 0,0,0 1,1,1",
    ];
    let first_lines = |log: String| {
        let lines: Vec<&str> = log.lines().collect();
        let tail = if lines.len() > 16 { format!("[.. {} lines]\n\n", lines.len() - 6) } else { String::new() };
        let shown = if lines.len() > 16 { 5 } else { lines.len() };
        lines[..shown].iter().map(|line| format!("{line}\n")).collect::<String>() + &tail
    };
    let log: String = lines.iter().map(|line| first_lines(folder.log(line))).collect();
    expect("damaged_meshes.log", &log);
}

/// A reader that goes away is no failure, and changes no status; a disk without room is one.
#[test]
fn closed_pipes_and_full_disks() {
    let folder = Folder::with_inputs("mesh-pipes");
    folder.write("hole.obj", PYRAMID.replacen("v 0 0 1", "v 0 nan 1", 1).as_bytes());
    folder.run("prepare terrain.obj --out terrain");
    let lines = [
        ("prepare terrain.obj", 0),
        ("prepare terrain.obj --kind 4 --json", 0),
        ("check hole.obj", 1),
        ("dump terrain", 0),
        ("query terrain 110,-190,-50 113,-187,50", 0),
        ("draw terrain", 0),
    ];
    for (line, status) in lines {
        let (reader, writer) = std::io::pipe().expect("a pipe");
        drop(reader);
        let output = folder.command(line).stdout(writer).stderr(Stdio::piped()).output().expect("it runs");
        assert_eq!((output.status.code(), output.stderr.len()), (Some(status), 0), "{line}");
        let full = File::options().write(true).open("/dev/full").expect("/dev/full");
        let output = folder.command(line).stdout(full).output().expect("it runs");
        assert_eq!(output.status.code(), Some(2), "{line}");
        assert!(String::from_utf8_lossy(&output.stderr).contains("standard output cannot be written"), "{line}");
    }
    let output = folder.run("draw terrain -o /dev/full");
    assert_eq!(output.status.code(), Some(2));
    assert!(String::from_utf8_lossy(&output.stderr).contains("/dev/full: cannot be written"));
}

/// `-` is standard input, an .obj and our own text alike.
#[test]
fn a_mesh_from_standard_input() {
    let folder = Folder::with_inputs("mesh-stdin");
    let from = |name: &str, line: &str| {
        let input = File::open(folder.0.join(name)).expect("an input");
        folder.command(line).stdin(input).output().expect("it runs")
    };
    for (name, line) in [("terrain.obj", "prepare"), ("kinds.txt", "prepare"), ("terrain.obj", "check")] {
        let (whole, piped) = (folder.run(&format!("{line} {name}")), from(name, &format!("{line} -")));
        assert!(whole.status.success() && whole.stdout == piped.stdout && !whole.stdout.is_empty(), "{line} {name}");
    }
}

/// Nothing is left of a mesh that could not be written whole, and one that is there is kept.
#[test]
fn folders_are_written_whole() {
    let folder = Folder::with_inputs("mesh-whole");
    assert!(folder.run("prepare kinds.txt --out twice").status.success());
    let before = std::fs::read(folder.0.join("twice/polygons.bin")).expect("a file");
    assert_eq!(folder.run("prepare terrain.obj --out twice").status.code(), Some(2));
    assert_eq!(std::fs::read(folder.0.join("twice/polygons.bin")).expect("a file"), before);
    assert_eq!(folder.run("prepare kinds.txt --out /dev/full/x").status.code(), Some(2));
    assert!(folder.names().iter().all(|name| !name.contains("tmp")), "{:?}", folder.names());
}

/// Whatever a file holds, a command answers with a status of its own and does not panic.
#[test]
fn random_garbage() {
    let folder = Folder::with_inputs("mesh-garbage");
    folder.run("prepare kinds.txt --out dump");
    folder.run("prepare kinds.txt --kind 4 --out plain");
    let files = |name: &str| -> Vec<(String, Vec<u8>)> {
        let path =
            |file: &String| (format!("{name}/{file}"), std::fs::read(folder.0.join(name).join(file)).expect("a file"));
        folder.names_in(name).iter().map(path).collect()
    };
    let whole: Vec<(String, Vec<u8>)> = [files("dump"), files("plain")].concat();
    let kinds = std::fs::read(folder.0.join("kinds.txt")).expect("a mesh");
    let hills = terrain::obj().into_bytes();
    let hills = [&hills[..2_000], &hills[hills.len() - 2_000..]].concat();
    let mut random = Random(23);
    let commands = [
        "dump dump",
        "dump plain",
        "query dump 6,-4,2 7,-3,2",
        "draw dump --query 6,-4,2 7,-3,2",
        "draw plain",
        "dump dump --json",
    ];
    let mut statuses = [0; 3];
    for round in 0..120 {
        for (name, bytes) in &whole {
            let mut bytes = bytes.clone();
            if random.below(4) == 0 && !bytes.is_empty() {
                let at = random.below(bytes.len());
                bytes[at] = random.pick(&[0, 1, 0x7F, 0x80, 0xFF, random.0 as u8]);
            }
            if random.below(60) == 0 {
                bytes.truncate(random.below(bytes.len() + 1));
            }
            folder.write(name, &bytes);
        }
        let mut noise = if round % 2 == 0 { kinds.clone() } else { hills.clone() };
        for _ in 0..1 + random.below(3) {
            let at = random.below(noise.len());
            noise[at] = random.pick(&[b'0', b'9', b'-', b' ', b'\n', b'#', b'x', 0xFF, random.0 as u8]);
        }
        if random.below(4) == 0 {
            noise.truncate(random.below(noise.len()));
        }
        folder.write("noise.obj", &noise);
        let kind = random.pick(&["4", "8"]);
        for line in [
            commands[round % commands.len()].into(),
            format!("prepare noise.obj --kind {kind}"),
            "check noise.obj".into(),
        ] {
            let output = folder.run(&line);
            let said = String::from_utf8_lossy(&output.stderr).into_owned();
            assert!(!said.contains("panicked"), "{line}: {said}");
            statuses[output.status.code().expect("a status") as usize] += 1;
        }
    }
    println!("exit status 0: {}, 1: {}, 2: {}", statuses[0], statuses[1], statuses[2]);
    assert!(statuses[0] > 50 && statuses[2] > 50, "{statuses:?}");
}
