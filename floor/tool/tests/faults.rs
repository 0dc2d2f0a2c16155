//! Bad input, damaged dumps, closed pipes and full disks: what is said, the exit status, and that nothing is half written.

mod common;

use common::command::Folder;
use common::{damage, Random, TURNING};
use std::fs::File;

#[test]
fn bad_usage_and_bad_files() {
    let folder = Folder::with_inputs("faults");
    folder.write("five.txt", b"0 0 0 1 1 1\n0 0 0 1 1\n");
    folder.write("word.txt", b"# boxes\n0 0 zero 1 1 1\n");
    folder.write("large.txt", b"0 0 0 1 1 1e39\n");
    folder.write("ragged.bin", &[0; 63]);
    folder.write("many.bin", &[0; 32 * 32_768]);
    folder.write("deep.bin", &[0; 32 * 16_385]);
    folder.write("ascii.bin", b"no boxes at all");
    let lines = [
        "",
        "what",
        "build",
        "build a.bin b.bin",
        "build a.bin --thresh 1",
        "build a.bin --threshold",
        "build a.bin --threshold many",
        "build a.bin --threshold 0",
        "build a.bin --threshold 32768",
        "build a.bin --query 0,0,0 1,1,1",
        "build missing.bin",
        "build five.txt",
        "build word.txt",
        "build large.txt",
        "build ascii.bin",
        "build ragged.bin",
        "build many.bin",
        "build deep.bin",
        "check deep.bin",
        "query a.bin",
        "query a.bin 0,0 1,1,1",
        "query a.bin 0,0,0",
        "query a.bin --all five.txt",
        "explain a.bin",
        "explain a.bin node 9",
        "explain a.bin node 99 min.x",
        "explain a.bin node 9 min.w",
        "explain a.bin header colour",
        "explain a.bin node 9 split",
        "explain a.bin node 11 split",
        "explain a.bin query 0,0,0 1,1,1 item 6",
        "diff a.bin",
        "build a.bin --out no/such/folder",
        "build a.bin --out six.txt",
        "draw a.bin -o no/such/folder.svg",
        "draw a.bin --query 0,0,0",
    ];
    folder.expect("faults.log", &lines);
    assert!(folder.names().iter().all(|name| !name.contains("tmp")), "{:?}", folder.names());
}

/// A dump of which a byte, a file, or a length is wrong.
#[test]
fn damaged_dumps() {
    let folder = Folder::with_inputs("damaged");
    folder.run("build a.bin --out whole");
    let copy = |to: &str, file: &str, change: &dyn Fn(&mut Vec<u8>)| folder.copy("whole", to, file, change);
    copy("value", "nodes.bin", &|bytes| bytes[16 * 9] ^= 4);
    copy("count", "nodes.bin", &|bytes| bytes[30] = 0xFF);
    copy("range", "trees.bin", &|bytes| bytes[15] = 0x7F);
    copy("scale", "header.bin", &|bytes| bytes[80] ^= 1);
    copy("address", "header.bin", &|bytes| bytes[0] = 0);
    copy("input", "boxes.bin", &|bytes| bytes[4..8].copy_from_slice(&f32::NAN.to_le_bytes()));
    copy("short", "nodes.bin", &|bytes| bytes.truncate(100));
    copy("header", "header.bin", &|bytes| bytes.truncate(127));
    copy("large", "header.bin", &|bytes| bytes[15] = 0xFF);
    copy("order", "order.bin", &|bytes| bytes.push(0));
    copy("entries", "boxes.bin", &|bytes| bytes.truncate(28));
    copy("kind", "dump.txt", &|bytes| *bytes = b"bounds dump 1\nkind forest\n".to_vec());
    copy("version", "dump.txt", &|bytes| *bytes = b"bounds dump 2\n".to_vec());
    copy("lines", "dump.txt", &|bytes| *bytes = b"bounds dump 1\nkind boxes\nthreshold 1\n".to_vec());
    copy("records", "dump.txt", &|_| ());
    std::fs::remove_file(folder.0.join("records/boxes.bin")).expect("only the records");
    let lines = [
        "explain value node 9 min.x",
        "explain value node 9 max.x",
        "explain value query 0,0,0 1,1,1 item 0",
        "diff whole value",
        "query count 0,0,0 1,1,1",
        "diff whole count",
        "query range 0,0,0 1,1,1",
        "explain range tree 0 last",
        "diff whole scale",
        "explain scale header inverse.x",
        "diff whole address",
        "explain address header node_address",
        "explain input node 0 min.x",
        "diff whole input",
        "dump short",
        "dump header",
        "dump large",
        "dump order",
        "dump entries",
        "dump kind",
        "dump version",
        "dump lines",
        "query records 0,0,0 1,1,1",
        "explain records node 0 id",
        "draw records",
        "diff whole records",
        "diff records value",
        "dump whole --threshold 1",
    ];
    folder.expect("damaged.log", &lines);
}

/// A reader that goes away is no failure, and changes no status; a disk without room is one.
#[test]
fn closed_pipes_and_full_disks() {
    let folder = Folder::with_inputs("pipes");
    for (line, status) in [("dump a.bin", 0), ("--help", 0), ("check b.bin", 1), ("diff a.bin b.bin --json", 0)] {
        folder.closed_pipe(line, status);
    }
    for line in ["dump a.bin", "--help", "check b.bin", "draw a.bin", "explain a.bin node 0 id --json"] {
        folder.full_disk(line);
    }
    assert!(folder.wrong("draw a.bin -o /dev/full").contains("/dev/full: cannot be written"));
    use std::os::unix::fs::FileTypeExt;
    assert!(std::fs::metadata("/dev/full").expect("it").file_type().is_char_device(), "it is still a device");
}

/// `-` is standard input, text and records alike, and a file that never ends is not waited for.
#[test]
fn standard_input_is_a_file() {
    let folder = Folder::with_inputs("stdin");
    let from = |name: &str, line: &str| {
        let input = File::open(name).or_else(|_| File::open(folder.0.join(name))).expect("an input");
        folder.command(line).stdin(input).output().expect("it runs")
    };
    let whole = folder.run("build a.bin").stdout;
    assert_eq!(from("a.bin", "build -").stdout, whole);
    assert_eq!(from("six.txt", "build -").stdout, whole);
    assert_eq!(from("b.bin", "check -").status.code(), Some(1));
    let endless = from("/dev/zero", "build -");
    assert_eq!(endless.status.code(), Some(2));
    assert!(String::from_utf8_lossy(&endless.stderr).contains("expected a list of at most 32,767 boxes"));
}

/// A picture replaces the one that was there, whole, where that is asked for; a folder that is there is left alone.
#[test]
fn files_are_replaced_whole_and_folders_kept() {
    let folder = Folder::with_inputs("whole");
    folder.write("old.svg", b"old");
    assert!(folder.run("draw a.bin -o old.svg --force").status.success());
    let drawn = folder.read_text("old.svg");
    assert!(drawn.starts_with("<svg") && drawn.ends_with("</svg>\n"));
    assert!(folder.run("build a.bin --out twice").status.success());
    assert_eq!(folder.run("build b.bin --out twice").status.code(), Some(2));
    assert!(folder.log("diff a.bin twice").contains("the inputs are the same; no field differs"));
}

/// Whatever a file holds, a command answers with a status of its own and does not panic.
#[test]
fn random_garbage() {
    let folder = Folder::with_inputs("garbage");
    folder.run("build a.bin --threshold 2 --out dump");
    let whole = ["dump.txt", "boxes.bin", "header.bin", "nodes.bin", "trees.bin", "order.bin"]
        .map(|name| (format!("dump/{name}"), folder.read(&format!("dump/{name}"))));
    let mut random = Random::new(17);
    let commands = [
        "dump dump",
        "query dump 0,0,0 7,1,1",
        "explain dump node 3 min.x",
        "explain dump query 0,0,0 7,1,1 item 1",
        "diff dump a.bin",
        "draw dump --query 0,0,0 7,1,1",
    ];
    let mut statuses = [0; 3];
    for round in 0..120 {
        for (name, bytes) in &whole {
            let mut bytes = bytes.clone();
            for _ in 0..random.below(3) {
                damage(&mut random, &mut bytes, &TURNING);
            }
            if random.below(40) == 0 {
                bytes.truncate(random.below(bytes.len()));
            }
            folder.write(name, &bytes);
        }
        let length = random.below(200);
        let noise: Vec<u8> = (0..length).map(|_| random.u32() as u8).collect();
        folder.write("noise", &noise);
        for line in [commands[round % commands.len()], "build noise", "check noise --records", "build noise --text"] {
            statuses[folder.status(line)] += 1;
        }
    }
    println!("exit status 0: {}, 1: {}, 2: {}", statuses[0], statuses[1], statuses[2]);
    assert!(statuses.iter().all(|&n| n > 10), "{statuses:?}");
}
