//! Worlds over the limits of a mesh: split, prepared, loaded back and asked; and what the command says of them.

mod common;

use bounds::{BvhItem, Composite, PreparedTree, Vec3};
use common::command::{expect, Folder};
use common::world::{self, POLYGONS};
use std::path::Path;
use std::time::{Duration, Instant};

const WHEELS: u64 = 1_000;

fn at([x, y, z]: [f32; 3]) -> Vec3 {
    Vec3::new(x, y, z)
}

/// The boxes of an .obj's triangles as its own floats have them, read plainly: faces of four corners are two triangles.
fn file_boxes(text: &str) -> Vec<BvhItem> {
    let numbers = |line: &str| line.split(' ').skip(1).map(|word| word.parse::<f32>().expect("a number")).collect();
    let lines = |word: &'static str| text.lines().filter(move |line| line.starts_with(word));
    let vertices: Vec<Vec<f32>> = lines("v ").map(numbers).collect();
    let triangle = |corners: [f32; 3]| {
        let corners = corners.map(|k| &vertices[k as usize - 1]);
        let fold =
            |of: fn(f32, f32) -> f32| [0, 1, 2].map(|axis| corners.iter().map(|v| v[axis]).reduce(of).expect("three"));
        BvhItem { present: 1, min: at(fold(f32::min)), max: at(fold(f32::max)) }
    };
    lines("f ")
        .flat_map(|line| {
            let face: Vec<f32> = numbers(line);
            [[face[0], face[1], face[2]], [face[0], face[2], face[3]]]
        })
        .map(triangle)
        .collect()
}

/// Whether a box meets a query, said plainly.
fn meets(item: &BvhItem, min: Vec3, max: Vec3) -> bool {
    let (a, b) = (item.min, item.max);
    a.x <= max.x && a.y <= max.y && a.z <= max.z && b.x >= min.x && b.y >= min.y && b.z >= min.z
}

/// A split world as a server loads it.
struct Loaded {
    composite: Composite,
    children: Vec<PreparedTree>,
    /// For each child the numbers in the world of the polygons that were given to it.
    given: Vec<Vec<usize>>,
}

impl Loaded {
    /// places.bin has to be a partition: each polygon of the world leads to one of a child, and each of those is led to.
    fn of(path: &Path) -> Loaded {
        let composite = Composite::load(path).expect("a composite");
        let child = |k: usize| PreparedTree::load(path.join(k.to_string())).expect("a child");
        let children: Vec<PreparedTree> = (0..composite.child_boxes.len() / 32).map(child).collect();
        let mut given: Vec<Vec<usize>> = children.iter().map(|child| vec![usize::MAX; child.boxes().len()]).collect();
        let places = std::fs::read(path.join("places.bin")).expect("places");
        for (k, pair) in places.chunks_exact(4).enumerate() {
            let number = |at: usize| u16::from_le_bytes([pair[at], pair[at + 1]]) as usize;
            let place = &mut given[number(0)][number(2)];
            assert_eq!(*place, usize::MAX, "polygon {k} shares its place");
            *place = k;
        }
        assert!(given.iter().flatten().all(|&k| k < POLYGONS), "a polygon of a child that none of the world leads to");
        Loaded { composite, children, given }
    }

    /// The polygons of a child by their places there: their numbers in the world.
    fn number(&self, child: usize, place: usize) -> usize {
        self.given[child][self.children[child].order[place] as usize]
    }

    /// The polygons that a query meets, by their numbers in the world: through the composite's tree, then through each child's.
    fn query(&self, min: Vec3, max: Vec3) -> Vec<usize> {
        let tree = self.composite.tree.as_ref().expect("a world of over five children");
        let of =
            |child: usize| self.children[child].query(min, max).into_iter().map(move |at| self.number(child, at.0));
        tree.query(min, max).into_iter().flat_map(of).collect()
    }

    /// The most that a value of a polygon's box stands from where the file has it: centring rounds.
    fn rounded(&self, boxes: &[BvhItem]) -> f32 {
        let apart = |a: Vec3, b: Vec3| (a.x - b.x).abs().max((a.y - b.y).abs()).max((a.z - b.z).abs());
        let mut most = 0f32;
        for (child, tree) in self.children.iter().enumerate() {
            for (place, item) in tree.boxes().iter().enumerate() {
                let of = &boxes[self.number(child, place)];
                most = most.max(apart(item.min, of.min)).max(apart(item.max, of.max));
            }
        }
        most
    }
}

/// The main promise of a split world: at 1,000 wheel places every polygon is found that a look at all 120,000 boxes finds.
#[test]
fn a_world_of_120_000_polygons_misses_none() {
    let folder = Folder::with_inputs("world");
    let text = world::obj();
    folder.write("world.obj", text.as_bytes());
    let start = Instant::now();
    let said = folder.log("prepare world.obj --split --out world");
    let split = start.elapsed();
    assert!(said.contains("written to world"), "{said}");
    let boxes = file_boxes(&text);
    assert_eq!(boxes.len(), POLYGONS);
    let start = Instant::now();
    let loaded = Loaded::of(&folder.0.join("world"));
    let load = start.elapsed();
    let rounded = loaded.rounded(&boxes);
    assert!(rounded < 1e-3, "centring moves a box by {rounded}");
    let wider = Vec3::new(rounded, rounded, rounded) * 2.0;
    let (mut met, mut asked, mut looked) = (0, Duration::ZERO, Duration::ZERO);
    for number in 0..WHEELS {
        let (min, max) = world::wheel(number);
        let (min, max) = (at(min), at(max));
        let start = Instant::now();
        let found = loaded.query(min - wider, max + wider);
        asked += start.elapsed();
        let start = Instant::now();
        let mut brute = Vec::new();
        for (k, item) in boxes.iter().enumerate() {
            if meets(item, min, max) {
                brute.push(k);
            }
        }
        looked += start.elapsed();
        assert!(!brute.is_empty(), "wheel {number} stands on the ground");
        for k in &brute {
            assert!(found.contains(k), "wheel {number}: polygon {k} is missed");
        }
        let near = |k: &usize| meets(&boxes[*k], min - wider * 2.0, max + wider * 2.0);
        assert!(found.iter().all(near), "wheel {number}: a polygon elsewhere is found");
        met += brute.len();
    }
    println!("{said}split and written in {split:.2?}, loaded in {load:.2?}; {WHEELS} wheels met {met} polygons, none missed:");
    println!("{asked:.2?} through the trees, {looked:.2?} by brute force");
}

/// Times are what they are; all else of an answer is kept.
fn without_times(log: &str) -> String {
    let line = |line: &str| if line.starts_with("time ") { "time      [..]\n".into() } else { format!("{line}\n") };
    log.lines().map(line).collect()
}

/// A row of steps, each two triangles, `materials` of them one after the other.
fn stairs(steps: usize, materials: usize) -> String {
    let mut text = String::new();
    for k in 0..=steps {
        text += &format!("v {k} 0 {}\nv {k} 1 {}\n", k % 3, k % 3);
    }
    for k in 0..steps {
        let a = 2 * k + 1;
        text += &format!("usemtl m{}\nf {a} {} {} {}\n", k * materials / steps, a + 2, a + 3, a + 1);
    }
    text
}

/// Children of kind 4 are shrunk each for itself: a flat one has no margin, and goes by its normals.
#[test]
fn how_children_were_shrunk() {
    let folder = Folder::with_inputs("worlds-shrunk");
    let flat = |line: &str| match line.split(' ').collect::<Vec<_>>()[..] {
        ["v", x, y, _] if x.parse::<usize>().expect("a step") <= 500 => format!("v {x} {y} 0\n"),
        _ => format!("{line}\n"),
    };
    let world: String = stairs(1_000, 300).lines().map(flat).collect();
    folder.write("world.obj", world.as_bytes());
    let margin = "1 child by a margin, the first child 1 by the given margin 0.04 (S7)";
    let normals = "1 child by normals, the first child 0 by normals, since no margin is above 1e-6";
    for (command, begins) in [("prepare", "shrunk    "), ("check", "vertices are shrunk: ")] {
        let said = folder.log(&format!("{command} world.obj --split --kind 4"));
        assert!(said.contains(&format!("\n{begins}{margin}; {normals}: ")), "{said}");
        let json = folder.log(&format!("{command} world.obj --split --kind 4 --json"));
        let of = |by: &str| json.matches(&format!("\"shrunk_by\": {{\"by\": \"{by}\"")).count();
        assert_eq!((of("margin"), of("normals")), (1, 1), "{json}");
    }
}

/// Spheres about the origin in groups that each split of a tree takes apart one by one: 17,760 of them have over 32,767 nodes.
fn lonely() -> String {
    const GROUPS: usize = 444;
    let mut text = String::from("bounds mesh 1\nmaterial 1 0\n");
    for group in 0..GROUPS {
        let mut x = if group % 2 == 0 { 1e-30f32 } else { -1e-30 };
        for k in 0..40 {
            text += &format!("vertex {x:e} {} 0\nsphere 0 {} 0\n", group as f32 - 221.5, 40 * group + k);
            x *= k as f32 + 3.0;
        }
    }
    text
}

#[test]
fn what_is_said_of_worlds() {
    let folder = Folder::with_inputs("worlds");
    folder.write("long.obj", stairs(20_000, 1).as_bytes());
    folder.write("colours.obj", stairs(1_000, 300).as_bytes());
    folder.write("lonely.txt", lonely().as_bytes());
    folder.write("map.txt", b"# a hundred are one\nm1* = one\nm299 = last\nice = snow\n");
    let mut log = String::new();
    for line in [
        // refused without --split, by how much, and what helps
        "prepare long.obj",
        "prepare colours.obj",
        "prepare lonely.txt",
        "check long.obj",
        // split by polygons, by materials, by nodes
        "prepare long.obj --split --out long",
        "prepare colours.obj --split --out colours",
        "prepare lonely.txt --split --out lonely",
        "prepare terrain.obj --split",
        "prepare terrain.obj --split --kind 4 --margin 0.02 --out terrain4",
        "check long.obj --split",
        // fewer materials
        "prepare colours.obj --merge-materials map.txt --out merged",
        "prepare colours.obj --merge-materials map.txt --split",
        "prepare colours.obj --merge-materials names",
        "check colours.obj --merge-materials map.txt",
        "check colours.obj --merge-materials none.txt",
        // what was written
        "check long",
        "check lonely",
        "check terrain4",
        "query long 9999.5,0.5,-9 10000.5,0.5,9",
        "query long 9999.5,0.5,-9 10000.5,0.5,9 --json",
        "query lonely -1,-1,-1 1,1,1",
        "query terrain4 0,0,0 1,1,1",
        "dump long",
        "dump long --json",
        "draw long -o long.svg",
        // one mesh is asked for
        "explain long node 0 min.x",
        "diff long colours",
        "prepare long.obj --split --out long",
    ] {
        log += &without_times(&folder.cut_log(line));
    }
    expect("worlds.log", &log);
    let json = folder.log("prepare long.obj --split --json");
    assert!(json.contains("\"doubled_vertices\": 2, \"left_out_vertices\": 0, \"children\": [{\"polygons\": 20000, \"vertices\": 20002"), "{json}");
    assert!(json.contains("\"milliseconds\": {\"read\": ") && json.contains("\"out\": null}"), "{json}");
}

/// What is wrong with a folder is told, and where.
#[test]
fn a_damaged_world_is_told() {
    let folder = Folder::with_inputs("damaged-world");
    folder.write("colours.obj", stairs(1_600, 1_600).as_bytes());
    folder.said("prepare colours.obj --split --out world");
    let mut log = without_times(&folder.log("check world"));
    let mut damaged = |name: &str, damage: &dyn Fn(&mut Vec<u8>), lines: &[&str]| {
        let kept = folder.read(&format!("world/{name}"));
        let mut bytes = kept.clone();
        damage(&mut bytes);
        folder.write(&format!("world/{name}"), &bytes);
        lines.iter().for_each(|line| log += &folder.cut_log(line));
        folder.write(&format!("world/{name}"), &kept);
    };
    let query = "query world 100,0,-9 101,1,9";
    damaged(
        "dump.txt",
        &|bytes| *bytes = String::from_utf8_lossy(bytes).replace("children 8", "children 9").into_bytes(),
        &["check world"],
    );
    damaged("dump.txt", &|bytes| bytes.truncate(40), &["check world"]);
    damaged("places.bin", &|bytes| bytes[0] = 200, &["check world", query]);
    damaged("places.bin", &|bytes| bytes.copy_within(4..8, 0), &["check world"]);
    damaged("places.bin", &|bytes| bytes.truncate(99), &["check world"]);
    damaged("lines.bin", &|bytes| bytes.push(0), &[query]);
    damaged("child_boxes.bin", &|bytes| bytes[3] ^= 0x80, &["check world"]);
    damaged("nodes.bin", &|bytes| bytes[6] ^= 0x80, &["check world", query]);
    damaged("0/nodes.bin", &|bytes| bytes[6] ^= 0x80, &["check world", query]);
    damaged("1/polygons.bin", &|bytes| bytes.truncate(16), &["check world"]);
    expect("damaged_worlds.log", &log);
}
