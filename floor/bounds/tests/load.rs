//! Records back from files: what is written is loaded again, and what is damaged is said, by its file and byte. The table of
//! docs/FILES.md says what.

mod common;

use bounds::composite::CompositeTree;
use bounds::tree::{Addresses, TreeBytes, TreeRecords};
use bounds::{Bvh, BvhItem, Composite, Error, Geometry, Prepared, PreparedTree, Tree, Vec3};
use common::{children, folder, order_bytes, row, strip, write_boxes, write_composite, write_mesh, Random};
use std::fs;
use std::path::Path;

const FAR: Vec3 = Vec3 { x: 1e9, y: 1e9, z: 1e9 };

#[test]
fn a_prepared_mesh_is_loaded_again() {
    for (kind, triangles) in [(8, 1), (8, 6), (8, 900), (8, 0), (4, 12), (4, 0)] {
        let path = folder(&format!("mesh-{kind}-{triangles}"));
        let mut geometry = strip(kind, triangles);
        // No two points of the frame are the same.
        geometry.transform.0[12] = 3.0;
        (geometry.box_center.y, geometry.sphere_center.z) = (7.0, 9.0);
        if kind == 4 && triangles == 0 {
            geometry.vertices.clear();
        }
        let made = geometry.prepare().expect("within the limits");
        write_mesh(&path, kind, &made);
        let loaded = Prepared::load(&path).expect("whole");
        assert_eq!(loaded, made, "kind {kind}, {triangles} triangles");
        match &made.bvh {
            Some(tree) => {
                assert_eq!(PreparedTree::load(&path).expect("whole"), *tree);
                assert_eq!(TreeRecords::load(&path).expect("whole"), **tree);
            }
            None => assert!(PreparedTree::load(&path).is_err()),
        }
        fs::remove_dir_all(&path).expect("gone");
    }
}

#[test]
fn a_tree_of_boxes_is_loaded_again() {
    for (n, threshold) in [(0, 1), (1, 1), (5, 2), (70, 1), (400, 1), (400, 4), (400, 127)] {
        let path = folder(&format!("boxes-{n}-{threshold}"));
        let tree = Tree::build(&row(n), threshold).expect("within the limits");
        write_boxes(&path, &tree);
        assert_eq!(Tree::load(&path).expect("whole"), tree);
        assert_eq!(TreeRecords::load(&path).expect("whole"), *tree);
        fs::remove_file(path.join("boxes.bin")).expect("gone");
        assert!(matches!(Tree::load(&path), Err(Error::Read { .. })), "a tree filters by its boxes");
        assert_eq!(TreeRecords::load(&path).expect("the records alone"), *tree);
        fs::remove_dir_all(&path).expect("gone");
    }
}

#[test]
fn a_composite_is_loaded_again() {
    for n in [0, 5, 6, 100] {
        let path = folder(&format!("composite-{n}"));
        let made = Composite::prepare(&children(n)).expect("within the limits");
        write_composite(&path, &made);
        assert_eq!(Composite::load(&path).expect("whole"), made);
        assert_eq!(CompositeTree::load(&path).ok(), made.tree);
        fs::remove_dir_all(&path).expect("gone");
    }
}

/// Fifteen words that are told apart: each point of a header stands in its place, and no fourth word is looked at.
#[test]
fn a_header_is_read_as_it_is_written() {
    let word = |k: usize| f32::from_bits(0x7F80_0001 + k as u32);
    let point = |k: usize| Vec3::new(word(3 * k), word(3 * k + 1), word(3 * k + 2));
    let bvh = Bvh {
        nodes_address: 0x0102_0304_0506_0708,
        nodes_count: 3,
        nodes_capacity: 5,
        bb_min: point(0),
        bb_max: point(1),
        bb_center: point(2),
        quantum_inverse: point(3),
        quantum: point(4),
        trees_address: u64::MAX - 9,
        trees_count: 0xABCD,
    };
    let mut header = [0; 128];
    bounds::tree_header(&mut header, &bvh).expect("a header");
    header[44] = 7; // of a fourth word
    let read = Bvh::read(&header);
    let mut again = [0; 128];
    bounds::tree_header(&mut again, &read).expect("a header");
    header[44] = 0;
    assert_eq!(again, header, "every word");
    assert_eq!((read.nodes_address, read.trees_address), (bvh.nodes_address, bvh.trees_address));
}

/// What is loaded, by the name of the type.
#[derive(Clone, Copy, PartialEq, Debug)]
enum Of {
    PreparedTree,
    Prepared,
    /// Of kind 4.
    PreparedPlain,
    Tree,
    CompositeTree,
}

impl Of {
    fn name(self) -> &'static str {
        match self {
            Of::PreparedTree => "`PreparedTree`",
            Of::Prepared => "`Prepared`",
            Of::PreparedPlain => "`Prepared`, kind 4",
            Of::Tree => "`Tree`",
            Of::CompositeTree => "`CompositeTree`",
        }
    }

    /// Six triangles: a root and leaves of three; five boxes at threshold 1; seven children.
    fn write(self, path: &Path) {
        match self {
            Of::PreparedTree | Of::Prepared => write_mesh(path, 8, &strip(8, 6).prepare().expect("six triangles")),
            Of::PreparedPlain => write_mesh(path, 4, &strip(4, 6).prepare().expect("six triangles")),
            Of::Tree => write_boxes(path, &Tree::build(&row(5), 1).expect("five boxes")),
            Of::CompositeTree => write_composite(path, &Composite::prepare(&children(7)).expect("seven children")),
        }
    }

    fn error(self, path: &Path) -> Option<Error> {
        match self {
            Of::PreparedTree => PreparedTree::load(path).err(),
            Of::Prepared | Of::PreparedPlain => Prepared::load(path).err(),
            Of::Tree => Tree::load(path).err(),
            Of::CompositeTree => CompositeTree::load(path).err(),
        }
    }
}

/// How a file is damaged.
enum Change {
    Missing,
    /// To so many bytes.
    Cut(usize),
    /// By a byte.
    Longer,
    /// From a byte on.
    Put(usize, &'static [u8]),
    /// All of it.
    Text(&'static str),
    Twice,
    /// Several files.
    Both(&'static [(&'static str, Change)]),
}
use Change::*;

impl Change {
    fn make(&self, path: &Path, file: &str) {
        let at = path.join(file);
        let put = |change: &dyn Fn(&mut Vec<u8>)| {
            let mut bytes = fs::read(&at).expect("a file");
            change(&mut bytes);
            fs::write(&at, bytes).expect("damaged");
        };
        match self {
            Missing => fs::remove_file(&at).expect("gone"),
            Cut(length) => put(&|bytes| bytes.truncate(*length)),
            Longer => put(&|bytes| bytes.push(0)),
            Put(from, new) => put(&|bytes| bytes[*from..from + new.len()].copy_from_slice(new)),
            Text(text) => put(&|bytes| *bytes = text.as_bytes().to_vec()),
            Twice => put(&|bytes| bytes.extend_from_within(..)),
            Both(changes) => changes.iter().for_each(|(file, change)| change.make(path, file)),
        }
    }
}

const MESH: &str = "bounds dump 1\nkind mesh\n";

/// What is loaded, the file, and the damage in words and in bytes. docs/FILES.md has a row of each, with what is then said.
const CASES: &[(Of, &str, &str, Change)] = &[
    (Of::PreparedTree, "dump.txt", "missing", Missing),
    (Of::PreparedTree, "dump.txt", "empty", Text("")),
    (Of::PreparedTree, "dump.txt", "another version", Text("bounds dump 2\n")),
    (Of::PreparedTree, "dump.txt", "an unknown kind", Text("bounds dump 1\nkind ship\n")),
    (Of::PreparedTree, "dump.txt", "another kind", Text("bounds dump 1\nkind boxes\nthreshold 1\nentries 6\n")),
    (Of::PreparedTree, "dump.txt", "ends early", Text("bounds dump 1\nkind mesh\nbound 8\n")),
    (
        Of::PreparedTree,
        "dump.txt",
        "a count over its limit",
        Text("bounds dump 1\nkind mesh\nbound 8\npolygons 32768\n"),
    ),
    (
        Of::PreparedTree,
        "dump.txt",
        "kind 4",
        Text("bounds dump 1\nkind mesh\nbound 4\npolygons 6\nvertices 8\nmaterials 1\n"),
    ),
    (
        Of::PreparedTree,
        "dump.txt",
        "a polygon less",
        Text("bounds dump 1\nkind mesh\nbound 8\npolygons 5\nvertices 8\nmaterials 1\n"),
    ),
    (
        Of::PreparedTree,
        "dump.txt",
        "a polygon more",
        Text("bounds dump 1\nkind mesh\nbound 8\npolygons 7\nvertices 8\nmaterials 1\n"),
    ),
    (Of::PreparedTree, "header.bin", "missing", Missing),
    (Of::PreparedTree, "header.bin", "short", Cut(127)),
    (Of::PreparedTree, "header.bin", "long", Longer),
    (Of::PreparedTree, "header.bin", "more nodes than records", Put(8, &[4])),
    (Of::PreparedTree, "header.bin", "fewer nodes than the range has", Put(8, &[2])),
    (Of::PreparedTree, "header.bin", "more records than a tree can have", Put(12, &[0, 0, 1, 0])),
    (Of::PreparedTree, "header.bin", "another capacity", Put(12, &[5])),
    (Of::PreparedTree, "header.bin", "another count of trees", Put(120, &[2, 0, 2, 0])),
    (Of::PreparedTree, "nodes.bin", "missing", Missing),
    (Of::PreparedTree, "nodes.bin", "short", Cut(32)),
    (Of::PreparedTree, "nodes.bin", "long", Longer),
    (Of::PreparedTree, "nodes.bin", "a leaf of −1 items", Put(16 + 14, &[0xFF, 0xFF])),
    (Of::PreparedTree, "nodes.bin", "a leaf's first item −1", Put(16 + 12, &[0xFF, 0xFF])),
    (Of::PreparedTree, "nodes.bin", "an inner node too large", Put(12, &[4, 0])),
    (Of::PreparedTree, "nodes.bin", "an inner node too small", Put(12, &[2, 0])),
    (Of::PreparedTree, "nodes.bin", "an inner node with one child", Put(16 + 12, &[2, 0, 0, 0])),
    (Of::PreparedTree, "nodes.bin", "an inner node without children", Put(12, &[1, 0])),
    (Of::PreparedTree, "nodes.bin", "a leaf past the items", Put(32 + 12, &[4, 0])),
    (Of::PreparedTree, "nodes.bin", "two leaves with one item", Put(32 + 12, &[2, 0])),
    (Of::PreparedTree, "nodes.bin", "a leaf with an item too few", Put(32 + 14, &[2, 0])),
    (Of::PreparedTree, "trees.bin", "missing", Missing),
    (Of::PreparedTree, "trees.bin", "short", Cut(0)),
    (Of::PreparedTree, "trees.bin", "long", Longer),
    (Of::PreparedTree, "trees.bin", "a first node −1", Put(12, &[0xFF, 0xFF])),
    (Of::PreparedTree, "trees.bin", "a last node before the first", Put(12, &[2, 0, 1, 0])),
    (Of::PreparedTree, "trees.bin", "a last node past the nodes", Put(14, &[4, 0])),
    (Of::PreparedTree, "trees.bin", "a range that leaves out a leaf", Put(14, &[1, 0])),
    (Of::PreparedTree, "trees.bin", "a range without its root", Put(12, &[1, 0])),
    (Of::PreparedTree, "trees.bin", "a range of one leaf of two", Put(12, &[1, 0, 2, 0])),
    (Of::PreparedTree, "trees.bin", "a range behind the nodes", Put(12, &[3, 0])),
    (
        Of::PreparedTree,
        "trees.bin, header.bin",
        "a range twice",
        Both(&[("trees.bin", Twice), ("header.bin", Put(120, &[2, 0, 2, 0]))]),
    ),
    (Of::PreparedTree, "order.bin", "missing", Missing),
    (Of::PreparedTree, "order.bin", "odd", Cut(11)),
    (Of::PreparedTree, "order.bin", "short", Cut(10)),
    (Of::PreparedTree, "order.bin", "long", Twice),
    (Of::PreparedTree, "order.bin", "a place out of range", Put(4, &[6, 0])),
    (Of::PreparedTree, "order.bin", "a place twice", Put(0, &[1, 0, 1, 0])),
    (Of::PreparedTree, "boxes.bin", "missing", Missing),
    (Of::PreparedTree, "boxes.bin", "short", Cut(167)),
    (Of::PreparedTree, "boxes.bin", "long", Longer),
    (Of::PreparedTree, "boxes.bin", "a polygon absent", Put(28, &[0])),
    (
        Of::Prepared,
        "dump.txt",
        "an unknown bound",
        Text("bounds dump 1\nkind mesh\nbound 5\npolygons 6\nvertices 8\nmaterials 1\n"),
    ),
    (Of::Prepared, "frame.bin", "as long as an older one", Cut(64)),
    (Of::Prepared, "polygons.bin", "missing", Missing),
    (Of::Prepared, "polygons.bin", "short", Cut(80)),
    (Of::Prepared, "polygons.bin", "an unknown kind", Put(16, &[7])),
    (Of::Prepared, "materials.bin", "long", Longer),
    (Of::Prepared, "indices.bin", "short", Cut(5)),
    (Of::Prepared, "indices.bin", "a material that is not there", Put(2, &[4])),
    (Of::Prepared, "vertices.bin", "short", Cut(42)),
    (Of::Prepared, "floats.bin", "long", Longer),
    (Of::PreparedPlain, "shrunk.bin", "missing", Missing),
    (Of::PreparedPlain, "shrunk_floats.bin", "short", Cut(84)),
    (Of::PreparedPlain, "octants.bin", "without its counts", Cut(31)),
    (Of::PreparedPlain, "octants.bin", "a vertex that is not there", Put(32, &[8])),
    (Of::Tree, "dump.txt", "another kind", Text(MESH)),
    (Of::Tree, "dump.txt", "no number", Text("bounds dump 1\nkind boxes\nthreshold one\nentries 5\n")),
    (Of::Tree, "nodes.bin", "a leaf of the absent entry", Put(32 + 12, &[4, 0])),
    (Of::Tree, "boxes.bin", "missing", Missing),
    (Of::Tree, "boxes.bin", "short", Cut(28)),
    (Of::Tree, "boxes.bin", "an entry absent that was present", Put(0, &[0])),
    (Of::Tree, "boxes.bin", "an entry present that was absent", Put(112, &[1])),
    (Of::CompositeTree, "dump.txt", "another kind", Text(MESH)),
    (Of::CompositeTree, "child_boxes.bin", "ragged", Cut(223)),
    (Of::CompositeTree, "child_boxes.bin", "a child less", Cut(192)),
    (Of::CompositeTree, "child_boxes.bin", "five children", Cut(160)),
    (Of::CompositeTree, "child_boxes.bin", "a child absent that was present", Put(12, &[0])),
];

/// The rows of docs/FILES.md.
fn rows() -> impl Iterator<Item = &'static str> {
    let page = include_str!("../../../docs/FILES.md");
    let (_, table) = page.split_once("## What a load says of damage").expect("the table");
    table.lines().take_while(|line| !line.starts_with("## ")).filter(|line| line.starts_with('|')).skip(2)
}

#[test]
fn every_damage_is_said_by_file_and_byte() {
    let path = folder("damaged");
    let mut said = Vec::new();
    for (of, file, damage, change) in CASES {
        fs::remove_dir_all(&path).expect("gone");
        fs::create_dir(&path).expect("a folder");
        of.write(&path);
        assert!(of.error(&path).is_none(), "{of:?} is whole");
        change.make(&path, file);
        let error = of.error(&path).unwrap_or_else(|| panic!("{of:?}, {file} {damage}: loaded all the same"));
        let words = error.to_string().replace(&format!("{}/", path.display()), "");
        said.push(format!("| {} | {file} | {damage} | {words} |", of.name()));
        let io = matches!(change, Missing);
        assert!(matches!(error, Error::Read { .. }) == io && matches!(error, Error::Damage(_)) != io, "{error:?}");
    }
    if std::env::var_os("SHOW").is_some() {
        println!("{}", said.join("\n"));
    }
    assert_eq!(rows().collect::<Vec<_>>(), said, "SHOW=1 prints the rows");
}

/// The reference reads five points without their fourth words, and of the trees the first count alone.
#[test]
fn what_the_reference_does_not_read_may_be_anything() {
    let tree = Tree::build(&row(40), 2).expect("within the limits");
    let mut header = tree.header(Addresses { nodes: 5, trees: 6 });
    let unread = (16..32).chain([44, 60, 76, 92, 108].into_iter().flat_map(|at| at..at + 4)).chain(122..128);
    unread.for_each(|at| header[at] ^= 0xA5);
    let order = order_bytes(&tree);
    let bytes =
        TreeBytes { header: &header, node_bytes: &tree.node_bytes, tree_bytes: &tree.tree_bytes, order: &order };
    assert_eq!(Tree::read(&bytes, tree.items().to_vec(), 2).expect("whole"), tree);
}

/// Bytes that nobody wrote: they are refused by a load, or answer every query without being refused.
#[test]
fn whatever_the_bytes_what_is_loaded_answers() {
    let mut random = Random(0x9E37_79B9_7F4A_7C15);
    let (mut loaded, mut refused) = (0, 0);
    let trees = [Tree::build(&row(5), 1), Tree::build(&row(40), 2), Tree::build(&row(300), 1)].map(Result::unwrap);
    for round in 0..30_000 {
        let tree = &trees[round % trees.len()];
        let mut parts = [
            tree.header(Addresses::default()).to_vec(),
            tree.node_bytes.clone(),
            tree.tree_bytes.clone(),
            order_bytes(tree),
        ];
        for _ in 0..1 + random.below(3) {
            let part = &mut parts[random.below(4)];
            let at = random.below(part.len());
            part[at] = [0, 1, 2, 0x7F, 0x80, 0xFF, random.0 as u8][random.below(7)];
        }
        let [header, nodes, records, order] = &parts;
        let bytes = TreeBytes { header, node_bytes: nodes, tree_bytes: records, order };
        match Tree::read(&bytes, tree.items().to_vec(), tree.threshold()) {
            Err(Error::Damage(_)) => refused += 1,
            Err(other) => panic!("{other}"),
            Ok(found) => {
                let at = Vec3::new(random.below(600) as f32, 0.5, 0.5);
                for (min, max) in [(at, at), (-FAR, FAR), (Vec3::ZERO, at)] {
                    let places = found.candidates(min, max).places;
                    assert!(places.iter().all(|&place| tree.items()[place].present != 0));
                    let mut once = places.clone();
                    once.sort();
                    once.dedup();
                    assert_eq!(once.len(), places.len(), "none twice");
                    found.query(min, max);
                }
                loaded += 1;
            }
        }
    }
    println!("{loaded} loaded, {refused} refused");
    assert!(loaded > 3_000 && refused > 3_000, "{loaded} {refused}");
}

/// The records of a tree by the bytes of its files, with these node records and ranges.
fn read_again(tree: &TreeRecords, nodes: &[u8], trees: &[u8], entries: usize, threshold: u32) -> Result<(), Error> {
    let header = tree.header(Addresses::default()).expect("few trees");
    let bytes = TreeBytes { header: &header, node_bytes: nodes, tree_bytes: trees, order: &order_bytes(tree) };
    TreeRecords::read(&bytes, entries, threshold).map(|_| ())
}

/// The last four bytes of a node's or a tree's record lead a walk. Whichever of them is set to whatever else, a load refuses
/// it: an inner node that counts too many or too few nodes would let a query miss what it meets.
#[test]
fn no_other_number_of_nodes_or_items_is_loaded() {
    for (n, threshold, ranges) in [(60, 1, 1), (90, 1, 2), (400, 4, 2)] {
        let tree = Tree::build(&row(n), threshold).expect("within the limits");
        assert_eq!(tree.trees().len(), ranges, "{n} boxes");
        let (nodes, trees) = (&tree.node_bytes[..16 * tree.nodes().len()], &tree.tree_bytes);
        for of_nodes in [true, false] {
            let mut files = [tree.node_bytes.clone(), trees.clone()];
            let length = if of_nodes { nodes.len() } else { trees.len() };
            for at in (0..length).filter(|at| at % 16 >= 12) {
                let was = files[!of_nodes as usize][at];
                for other in 1..=255 {
                    files[!of_nodes as usize][at] = was ^ other;
                    let refused = read_again(&tree, &files[0], &files[1], n, threshold).is_err();
                    assert!(refused, "{n} boxes, of nodes: {of_nodes}, byte {at}: {was} to {}", was ^ other);
                }
                files[!of_nodes as usize][at] = was;
            }
        }
    }
}

/// Boxes of any bits, half of them special, of which a quarter is absent.
fn any_boxes(random: &mut Random, n: usize) -> Vec<BvhItem> {
    const SPECIAL: [f32; 6] = [0.0, -0.0, f32::NAN, f32::INFINITY, f32::NEG_INFINITY, f32::MAX];
    let mut float = || match random.below(2) {
        0 => SPECIAL[random.below(6)],
        _ => f32::from_bits((random.below(1 << 16) << 16 | random.below(1 << 16)) as u32),
    };
    let mut point = || Vec3::new(float(), float(), float());
    let mut boxes: Vec<BvhItem> = (0..n).map(|_| BvhItem::new(point(), point())).collect();
    boxes.iter_mut().for_each(|item| item.present = (random.below(4) != 0) as u32);
    boxes
}

/// The most nodes that lie within one another.
fn depth(tree: &TreeRecords) -> usize {
    let mut ends: Vec<usize> = Vec::new();
    let open = |(at, node): (usize, bounds::BvhNode)| {
        ends.retain(|&end| end > at);
        ends.push(at + if node.item_count == 0 { node.item_id.max(1) as usize } else { 1 });
        ends.len()
    };
    tree.nodes().enumerate().map(open).max().unwrap_or(0)
}

#[test]
fn every_tree_that_is_built_is_loaded() {
    let mut random = Random(29);
    let mut lists: Vec<Vec<BvhItem>> = (0..200).map(|k| any_boxes(&mut random, 3 * k)).collect();
    lists.extend((0..30).map(row));
    lists.extend([0, 1, 2, 500].map(|n| vec![BvhItem::ABSENT; n]));
    lists.push(vec![BvhItem { present: 1, ..row(1)[0] }; 16_384]); // at threshold 1 as many nodes as there may be
    let far = |i: i32| Vec3::new(2f32.powi(i), 0.0, 0.0);
    lists.push((-100..100).map(|i| BvhItem::new(far(i), far(i))).collect());
    let deepest = Tree::build(lists.last().expect("a deep one"), 1).expect("few");
    assert!(depth(&deepest) > 30, "{}", depth(&deepest));
    for (k, list) in lists.iter().enumerate() {
        for threshold in [1, 2, 4, 127] {
            let tree = Tree::build(list, threshold).expect("within the limits");
            let loaded = read_again(&tree, &tree.node_bytes, &tree.tree_bytes, list.len(), threshold);
            loaded.unwrap_or_else(|error| panic!("list {k}, threshold {threshold}: {error}"));
        }
    }
}

#[test]
fn every_tree_of_a_mesh_or_a_composite_is_loaded() {
    for n in (1..40).chain([100, 255, 1_000, 20_000]) {
        let mut geometry = strip(8, n);
        if n % 7 == 3 {
            geometry.vertices[0].x = f32::NAN;
        }
        let tree = geometry.prepare().expect("within the limits").bvh.expect("kind 8 with polygons");
        read_again(&tree, &tree.node_bytes, &tree.tree_bytes, n as usize, 4).expect("a mesh's");
    }
    let absent = [bounds::Child::ABSENT; 9].to_vec();
    for of in (6..80).map(children).chain([absent, children(4_000)]) {
        let tree = Composite::prepare(&of).expect("within the limits").tree.expect("over five");
        read_again(&tree, &tree.node_bytes, &tree.tree_bytes, of.len(), 1).expect("a composite's");
    }
}

#[test]
fn a_kind_by_its_number_alone_has_no_tree() {
    let error = PreparedTree::load(folder("empty")).expect_err("an empty folder");
    assert!(error.to_string().contains("empty/dump.txt: cannot be read"), "{error}");
    assert_eq!(Geometry::new(Geometry::BVH).prepare().expect("empty").bvh, None);
}
