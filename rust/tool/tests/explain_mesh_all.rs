//! Explanations of every field of 200 random prepares of both kinds reach the library's bytes.

mod common;

use bounds::{Geometry, Polygon};
use common::mesh::{folder, mesh};
use common::Random;
use std::collections::BTreeSet;
use std::io::Write;
use tool::explain::MeshExplainer;
use tool::field::mesh::{Derived, InPolygon, MeshField};
use tool::field::Value;
use tool::mesh::MeshFolder;
use tool::trace::mesh::{MeshTrace, Standing};

const PREPARES: usize = 200;

/// What was met on the way, so that the meshes are seen to be no tame ones.
#[derive(Default, Debug)]
struct Met {
    prepares: usize,
    fields: usize,
    steps: usize,
    refused: usize,
    kinds: BTreeSet<u8>,
    missing_vertices: usize,
    nan_vertices: usize,
    several_materials: usize,
    materials_not_given: usize,
    links: usize,
    later_sides: usize,
    by_first_margin: usize,
    by_later_margin: usize,
    by_normals: usize,
    octant_indices: usize,
    tree_fields: usize,
    several_ranges: usize,
    other_order: usize,
    made_nan: usize,
    empty: usize,
}

#[test]
fn every_field_of_200_random_prepares() {
    let mut random = Random(17);
    let mut met = Met::default();
    while met.prepares < PREPARES {
        let kind = if met.prepares % 2 == 0 { Geometry::PLAIN } else { Geometry::BVH };
        let Some(folder) = folder("random", mesh(&mut random, kind)) else {
            met.refused += 1;
            continue;
        };
        each_field(&folder, &mut met);
        met.prepares += 1;
    }
    // Past the capture of tests, so that the count is seen.
    let _ = writeln!(std::io::stderr(), "explain reaches the library's bytes of meshes: {met:?}");
    assert_eq!(met.kinds.len(), 5, "{met:?}");
    let often = [met.several_materials, met.by_first_margin, met.by_normals, met.materials_not_given, met.other_order];
    let seldom = [met.missing_vertices, met.nan_vertices, met.by_later_margin, met.later_sides];
    assert!(often.iter().all(|&n| n >= 20) && seldom.iter().all(|&n| n >= 5), "{met:?}");
    assert!(met.fields > 50_000 && met.links > 500 && met.octant_indices > 500 && met.tree_fields > 10_000, "{met:?}");
    assert!(met.several_ranges > 0 && met.made_nan > 50 && met.empty > 0, "{met:?}");
}

fn each_field(folder: &MeshFolder, met: &mut Met) {
    let mesh = folder.input().expect("its input");
    let standing = Standing::of(&mesh.geometry);
    let trace = MeshTrace::of(&mesh.geometry, &standing);
    let (derived, tree) = (folder.derived(), folder.tree().expect("boxes"));
    let boxes = tree.as_ref().and_then(|tree| tree.boxes.as_ref());
    let with = MeshExplainer { origin: &mesh.origin, trace: &trace, derived, boxes };
    meet(&mesh.geometry, &trace, met);
    for field in MeshField::all(&derived) {
        let explained = with.field(field);
        let found = field.raw(&derived).expect("the field is there");
        let made = field.is_made(derived.tree.is_some()) && is_nan(field, &found);
        let reached = match &explained.bytes {
            None => field.is_given(),
            Some(bytes) => bytes == &found || made && is_nan(field, bytes),
        };
        assert!(reached, "{field}: {} is not {found:02X?} of {:?}", explained.text(), mesh.geometry);
        assert!(!explained.steps.is_empty() && explained.steps.iter().any(|step| !step.rules.is_empty()), "{field}");
        assert_eq!(explained.of, field.to_string());
        met.fields += 1;
        met.steps += explained.steps.len();
        met.made_nan += made as usize;
        count(field, &derived, met);
        met.later_sides += explained.steps.iter().any(|step| step.text.contains("linked to the first's")) as usize;
        let words: Vec<String> = explained.of.split(' ').map(String::from).collect();
        assert_eq!(MeshField::parse(&words), Some(field), "the name leads back");
    }
}

fn is_nan(field: MeshField, raw: &[u8]) -> bool {
    matches!(field.value_of(raw), Value::Word(word) if f32::from_bits(word).is_nan())
}

fn count(field: MeshField, derived: &Derived, met: &mut Met) {
    match field {
        MeshField::Tree(_) => met.tree_fields += 1,
        MeshField::Octant(..) => met.octant_indices += 1,
        MeshField::Polygon(_, InPolygon::Link(_)) => {
            met.links += (field.value(derived) != Some(Value::Short(-1))) as usize;
        }
        _ => (),
    }
}

fn meet(of: &Geometry, trace: &MeshTrace, met: &mut Met) {
    let kind = |polygon: &Polygon| polygon.to_bytes()[0] & 7;
    met.kinds.extend(of.polygons.iter().map(kind));
    let corner = |polygon: &Polygon| tool::trace::mesh::polygon::vertices(polygon);
    met.missing_vertices += of.polygons.iter().flat_map(corner).any(|v| v >= of.vertices.len()) as usize;
    met.nan_vertices += of.vertices.iter().any(|v| v.x.is_nan() || v.y.is_nan() || v.z.is_nan()) as usize;
    met.several_materials += (trace.materials.list.len() > 1) as usize;
    met.materials_not_given += of.polygons.iter().any(|p| p.material() as usize >= of.materials.len()) as usize;
    met.several_ranges += trace.tree.as_ref().is_some_and(|tree| tree.ranges.len() > 1) as usize;
    met.other_order += trace.order.iter().enumerate().any(|(new, &old)| new != old) as usize;
    met.empty += of.polygons.is_empty() as usize;
    if let Some(shrinking) = &trace.shrinking {
        match (shrinking.passed, shrinking.trials.len()) {
            (Some(_), 1) => met.by_first_margin += 1,
            (Some(_), _) => met.by_later_margin += 1,
            (None, _) => met.by_normals += 1,
        }
    }
}

/// Every polygon of random trees, asked about with random queries: the story ends as the library's walk does.
#[test]
fn every_polygon_of_random_queries() {
    let mut random = Random(18);
    let (mut asked, mut handed, mut missed, mut meshes) = (0, 0, 0, 0);
    while meshes < 100 {
        let Some(folder) = folder("random", mesh(&mut random, Geometry::BVH)) else { continue };
        meshes += 1;
        let Some(dump) = folder.tree().expect("boxes") else { continue };
        let items = &dump.input().expect("its boxes").items;
        let query = items[random.below(items.len())];
        let found = dump.walk(query.min, query.max).expect("a tree's records");
        let (min, max) = (corner(query.min), corner(query.max));
        for k in (0..items.len()).filter(|k| items.len() < 60 || k % 17 == 0) {
            let words = ["query", &min, &max, "item", &k.to_string()].map(String::from);
            let told = tool::explain::mesh::answer(&folder, &words, false).expect("a story").text;
            let out = found.positions.contains(&(k as u16));
            let meets = items[dump.place(k).expect("a place")].meets(query.min, query.max);
            let expected = match (meets, out) {
                (true, true) => "as floats (W2) and is handed out",
                (true, false) => "as floats (W2) and is NOT handed out",
                (false, true) => "and is handed out: its leaf's record meets",
                (false, false) => "and is not handed out",
            };
            assert!(told.starts_with(&format!("polygon {k} (given polygon ")) && told.contains(expected), "{told}");
            asked += 1;
            handed += out as usize;
            missed += (meets && !out) as usize;
        }
    }
    let counts = format!("{asked} polygons asked about, {handed} handed out, {missed} missed outside the premises");
    let _ = writeln!(std::io::stderr(), "explain query of meshes ends as the library's walk: {counts}");
    assert!(asked > 500 && handed > 100, "{counts}");
}

/// A corner as the command line has it.
fn corner(v: bounds::Vec3) -> String {
    [v.x, v.y, v.z].map(|x| format!("{x:?}")).join(",")
}

/// A damaged byte is named, and what stands there is not explained; all else still is.
#[test]
fn what_the_input_does_not_give_is_not_explained() {
    let mut random = Random(19);
    let mut damaged = 0;
    while damaged < 60 {
        let kind = if damaged % 2 == 0 { Geometry::PLAIN } else { Geometry::BVH };
        let Some(mut folder) = folder("random", mesh(&mut random, kind)) else { continue };
        let fields = MeshField::all(&folder.derived());
        let links = |field: &&MeshField| matches!(field, MeshField::Polygon(_, InPolygon::Link(_)));
        let Some(&field) = fields.iter().find(links) else { continue };
        let MeshField::Polygon(k, InPolygon::Link(slot)) = field else { continue };
        folder.prepared.polygons[16 * k + 10 + 2 * slot] ^= 0x41;
        folder.parts.polygons[16 * k + 10 + 2 * slot] ^= 0x41;
        let ask = |field: MeshField| {
            let words: Vec<String> = field.to_string().split(' ').map(String::from).collect();
            tool::explain::mesh::answer(&folder, &words, false)
        };
        let refused = ask(field).err().expect("not explained").to_string();
        assert!(refused.contains("the input gives") && refused.contains("is not explained"), "{refused}");
        let other = ask(MeshField::Radius).expect("explained").text;
        assert!(other.starts_with("NOTE random: 1 field not as its input gives: polygon "), "{other}");
        damaged += 1;
    }
}
