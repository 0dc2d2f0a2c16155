//! Queries in a file's own numbers, far from the origin, where centring rounds them: nothing that the file's boxes meet is
//! missed.

mod common;

use bounds::{BvhItem, Vec3};
use common::command::Folder;
use common::Random;
use tool::mesh::rounded::{Query, Rounded};
use tool::mesh::{Given, Mesh, MeshFolder, Up};

/// The numbers of a file's vertices, and the corners of its triangles, from 0.
struct Drawn {
    vertices: Vec<[f32; 3]>,
    triangles: Vec<[usize; 3]>,
}

/// A float of 1e5 to 1e7 in size, of either sign.
fn far(random: &mut Random) -> f32 {
    let size = 1e5 * 10f32.powf(2.0 * random.below(1000) as f32 / 1000.0);
    if random.below(2) == 0 {
        size
    } else {
        -size
    }
}

/// Patches of small cells, each at a place of its own, so that the middle of all is the middle of none.
fn drawn(random: &mut Random) -> Drawn {
    let mut drawn = Drawn { vertices: Vec::new(), triangles: Vec::new() };
    for _ in 0..2 + random.below(6) {
        let from = [far(random), far(random), far(random)];
        let cell = random.pick(&[0.01f32, 0.1, 0.5, 1.0]);
        let (first, side) = (drawn.vertices.len(), 3 + random.below(5));
        for k in 0..side * side {
            let steps = [(k % side) as f32, (k / side) as f32, random.below(9) as f32];
            drawn.vertices.push([0, 1, 2].map(|axis: usize| from[axis] + cell * steps[axis]));
        }
        for k in (0..side * (side - 1)).filter(|k| k % side != side - 1) {
            let at = first + k;
            drawn.triangles.extend([[at, at + 1, at + side], [at + 1, at + side + 1, at + side]]);
        }
    }
    drawn
}

impl Drawn {
    /// The .obj; where y is up, the vertices are turned back before.
    fn obj(&self, up: Up) -> String {
        let file = |&[x, y, z]: &[f32; 3]| if up == Up::Y { [x, z, -y] } else { [x, y, z] };
        let vertex = |v: &[f32; 3]| format!("v {}\n", file(v).map(|x| format!("{x:?}")).join(" "));
        let face = |t: &[usize; 3]| format!("f {}\n", t.map(|k| (k + 1).to_string()).join(" "));
        self.vertices.iter().map(vertex).chain(self.triangles.iter().map(face)).collect()
    }

    /// A triangle's box, by the file's numbers.
    fn item(&self, triangle: &[usize; 3]) -> BvhItem {
        let fold = |of: fn(f32, f32) -> f32| {
            let [x, y, z] =
                [0, 1, 2].map(|axis: usize| triangle.map(|k| self.vertices[k][axis]).into_iter().reduce(of));
            Vec3::new(x.expect("three"), y.expect("three"), z.expect("three"))
        };
        BvhItem { present: 1, min: fold(f32::min), max: fold(f32::max) }
    }
}

/// A query of which a side lies at the very float of a box, or both corners do; or a small one about a vertex.
fn query(random: &mut Random, of: &Drawn, items: &[BvhItem]) -> Query {
    let item = items[random.below(items.len())];
    let endless = |x: f32| Vec3::new(x, x, x);
    let mut query = Query { min: endless(f32::NEG_INFINITY), max: endless(f32::INFINITY) };
    let v = of.vertices[random.below(of.vertices.len())];
    match random.below(4) {
        0 => query = Query { min: Vec3::new(v[0], v[1], v[2]), max: Vec3::new(v[0], v[1], v[2]) },
        1 => query = Query { min: item.max, max: item.max },
        2 => query.min = item.max,
        _ => query.max = item.min,
    }
    query
}

/// How many polygons a walk does not hand out that meet the query as it was asked, by the file's boxes.
fn missed(folder: &MeshFolder, items: &[BvhItem], asked: Query, walked: Query) -> usize {
    let tree = folder.tree().expect("a tree").expect("kind 8");
    let found = tree.walk(walked.min, walked.max).expect("a walk");
    let mut handed = vec![false; items.len()];
    for &position in &found.positions {
        handed[tree.place(position as usize).expect("a place")] = true;
    }
    items.iter().zip(handed).filter(|(item, handed)| item.meets(asked.min, asked.max) && !handed).count()
}

#[test]
fn nothing_is_missed_at_the_floats_of_the_file() {
    const MESHES: usize = 60;
    const QUERIES: usize = 1500;
    let mut random = Random::new(51);
    let (mut rounded, mut without, mut meetings) = (0, 0, 0);
    for round in 0..MESHES {
        let drawn = drawn(&mut random);
        let up = if round % 3 == 0 { Up::Y } else { Up::Z };
        let given = Given { up: Some(up), ..Given::default() };
        let mesh = Mesh::of_bytes("far.obj", drawn.obj(up).as_bytes(), given).expect("an .obj");
        let folder = MeshFolder::prepare("far.obj", mesh).expect("prepared");
        let items: Vec<BvhItem> = drawn.triangles.iter().map(|triangle| drawn.item(triangle)).collect();
        let Some(by) = Rounded::of(folder.input().expect("the mesh")).expect("boxes") else { continue };
        assert!(by.boxes == items, "the boxes of the file's own numbers");
        rounded += 1;
        for _ in 0..QUERIES {
            let asked = query(&mut random, &drawn, &items);
            let wider = by.widened(asked);
            assert_eq!(missed(&folder, &items, asked, wider), 0, "round {round}: {asked:?} widened to {wider:?}");
            without += missed(&folder, &items, asked, asked);
            meetings += items.iter().filter(|item| item.meets(asked.min, asked.max)).count();
        }
    }
    println!(
        "{rounded} meshes rounded, {meetings} boxes met, {without} of them missed by queries that are not widened"
    );
    assert!(rounded > MESHES / 2 && meetings > 100_000);
    assert!(without > 20, "without widening polygons are missed: {without}");
}

/// What the command says: the query as it was asked and as it was walked, and of each polygon whether the file's box meets.
#[test]
fn the_command_widens() {
    let folder = Folder::with_inputs("rounded");
    let mut random = Random::new(52);
    let drawn = drawn(&mut random);
    let items: Vec<BvhItem> = drawn.triangles.iter().map(|triangle| drawn.item(triangle)).collect();
    folder.write("far.obj", drawn.obj(Up::Y).as_bytes());
    assert!(folder.run("prepare far.obj --up y --out far").status.success());
    let asked: Vec<Query> = (0..300).map(|_| query(&mut random, &drawn, &items)).collect();
    let six = |q: &Query| [q.min.x, q.min.y, q.min.z, q.max.x, q.max.y, q.max.z].map(|x| format!("{x:?}")).join(" ");
    let lines: String = asked.iter().map(|query| six(query) + "\n").collect();
    folder.write("asked.txt", lines.as_bytes());
    for of in ["far", "far.obj --up y"] {
        let said = String::from_utf8(folder.run(&format!("query {of} --all asked.txt")).stdout).expect("text");
        let answers: Vec<&str> = said.split("\n\n").collect();
        assert_eq!(answers.len(), asked.len());
        for (answer, query) in answers.iter().zip(&asked) {
            let meeting = items.iter().filter(|item| item.meets(query.min, query.max)).count();
            assert!(answer.contains(&format!(" handed out, {meeting} meet, 0 missed; ")), "{answer}");
            assert!(answer.contains("\n  widened to ") && answer.contains("rounded by up to "), "{answer}");
            assert_eq!(answer.matches(": far.obj line ").count(), answer.matches("  polygon ").count(), "{answer}");
        }
    }
}

/// A picture shows what `query` says: of what the file's boxes meet nothing is red, also where the query as asked would miss some.
#[test]
fn a_picture_widens() {
    let folder = Folder::with_inputs("rounded-picture");
    let mut random = Random::new(53);
    let found = (0..20).find_map(|_| {
        let drawn = drawn(&mut random);
        let mesh = Mesh::of_bytes("far.obj", drawn.obj(Up::Z).as_bytes(), Given::default()).expect("an .obj");
        let prepared = MeshFolder::prepare("far.obj", mesh).expect("prepared");
        let items: Vec<BvhItem> = drawn.triangles.iter().map(|triangle| drawn.item(triangle)).collect();
        let mut asked = (0..500).map(|_| query(&mut random, &drawn, &items));
        let asked = asked.find(|&asked| missed(&prepared, &items, asked, asked) > 0)?;
        Some((drawn, asked))
    });
    let (drawn, Query { min, max }) = found.expect("a query that must be widened");
    folder.write("far.obj", drawn.obj(Up::Z).as_bytes());
    let [min, max] = [min, max].map(|v| [v.x, v.y, v.z].map(|x| format!("{x:?}")).join(","));
    let svg = folder.said(&format!("draw far.obj --query {min} {max}"));
    assert!(svg.contains(">the query is widened: about the centre the file's numbers are rounded by up to "));
    assert!(!svg.to_lowercase().contains("missed"), "{min} {max}");
}
