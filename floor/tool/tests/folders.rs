//! Prepared meshes and trees as folders: what is written is read again and loaded by the library, byte for byte, an input too; and
//! of what is damaged nothing is taken for what its input gives.

mod common;

use bounds::{Prepared, PreparedTree, Tree};
use common::command::Folder;
use common::{dump, length, list, mesh, Random, THRESHOLDS};
use std::path::PathBuf;
use tool::dump::Records;
use tool::failure::Failure;
use tool::mesh::{account, text, MeshFolder, Parts};
use tool::output::Target;

/// A random mesh, prepared; none where preparing refuses it.
fn prepared(random: &mut Random) -> Option<MeshFolder> {
    let kind = random.pick(&[4, 8]);
    let mut geometry = mesh::mesh(random, kind);
    // Links that are given mean nothing, and a file has none.
    for polygon in &mut geometry.polygons {
        if let bounds::Polygon::Triangle { edges, .. } = polygon {
            *edges = [-1; 3];
        }
    }
    mesh::folder("random", geometry)
}

#[test]
fn what_is_written_is_read_again() {
    let folder = Folder::with_inputs("mesh-folders");
    let mut random = Random::new(41);
    let (mut read, mut refused) = ([0; 2], 0);
    for round in 0..300 {
        let Some(made) = prepared(&mut random) else {
            refused += 1;
            continue;
        };
        let path = folder.0.join(round.to_string()).to_string_lossy().into_owned();
        made.write(&Target::at(&path)).expect("written");
        let found = MeshFolder::read(&path).expect("read");
        assert!(found.parts == made.parts, "round {round}");
        let loaded = Prepared::load(&path).expect("whole");
        assert!(Parts::of(made.parts.kind, &loaded).expect("few trees") == made.parts, "round {round}, by the library");
        if let Some(records) = &made.parts.tree {
            let tree = PreparedTree::load(&path).expect("whole");
            assert!(Records::of(&tree).expect("few trees") == *records, "round {round}, its tree");
        }
        let input = |folder: &MeshFolder| text::write(folder.input().expect("the input"));
        assert_eq!(input(&found), input(&made), "round {round}");
        let account = account(&found).expect("prepared again");
        assert_eq!(account.differing, [], "round {round}");
        assert!(found.listing() == made.listing());
        std::fs::remove_dir_all(&path).expect("gone");
        read[usize::from(made.parts.kind == 8)] += 1;
    }
    println!("{read:?} folders of kinds 4 and 8 read again, {refused} meshes refused");
    assert!(read.into_iter().all(|n| n > 100), "{read:?}");
}

#[test]
fn a_tree_of_boxes_is_loaded_by_the_library() {
    let folder = Folder::with_inputs("loaded-boxes");
    let mut random = Random::new(53);
    for round in 0..200 {
        let (n, threshold) = (length(&mut random), random.pick(&THRESHOLDS));
        let dump = dump("random", list(&mut random, n), threshold);
        let path = folder.0.join(round.to_string()).to_string_lossy().into_owned();
        dump.write(&Target::at(&path)).expect("written");
        let tree = Tree::load(&path).expect("whole");
        assert!(Records::of(&tree).expect("few trees") == dump.records, "round {round}");
        assert_eq!((tree.threshold(), tree.items().len()), (threshold, n));
        std::fs::remove_dir_all(&path).expect("gone");
    }
}

/// One bit of one file becomes another: the folder cannot be read, or is told not to be what its input gives. Free are only the
/// addresses, and the bits of a NaN that arithmetic made.
#[test]
fn a_damaged_byte_is_found() {
    let folder = Folder::with_inputs("mesh-bytes");
    let mut random = Random::new(43);
    let (mut unread, mut told, mut free) = (0, 0, 0);
    for round in 0..400 {
        let Some(made) = prepared(&mut random) else { continue };
        let path = folder.0.join(round.to_string()).to_string_lossy().into_owned();
        made.write(&Target::at(&path)).expect("written");
        let names: Vec<String> = folder.names_in(&round.to_string());
        let names: Vec<&String> = names.iter().filter(|name| name.ends_with(".bin")).collect();
        let name = random.pick(&names);
        let file = PathBuf::from(&path).join(name);
        let mut bytes = std::fs::read(&file).expect("a file");
        if bytes.is_empty() {
            continue;
        }
        let at = random.below(bytes.len());
        bytes[at] ^= 1 << random.below(8);
        std::fs::write(&file, bytes).expect("damaged");
        match MeshFolder::read(&path) {
            Err(Failure::File(words)) => {
                assert!(words.contains(&path), "{words}");
                unread += 1;
            }
            Err(other) => panic!("{other}"),
            Ok(found) if !account(&found).expect("prepared again").differing.is_empty() => told += 1,
            Ok(found) => {
                let address = name == "header.bin" && (at < 8 || (112..120).contains(&at));
                let nan = !address && found.parts != made.parts;
                assert!(address || nan, "byte {at} of {name}");
                free += 1;
            }
        }
        std::fs::remove_dir_all(&path).expect("gone");
    }
    println!("{unread} not read, {told} told, {free} free: addresses, and bits of a NaN that arithmetic made");
    assert!(unread > 3 && told > 200 && free < 60, "{unread} {told} {free}");
}
