//! Random pairs of prepared meshes compared: each field that differs has one cause, and one compared with itself has none.

mod common;

use bounds::Geometry;
use common::mesh::{changed, folder, mesh};
use common::Random;
use std::collections::BTreeMap;
use std::io::Write;
use tool::diff::mesh::{compare, Grounds, MeshCause, MeshComparison};
use tool::diff::{Cause, Verdict};
use tool::mesh::MeshFolder;

/// Both, with what their inputs tell.
fn compared(a: &MeshFolder, b: &MeshFolder, look: impl FnOnce(&MeshComparison)) {
    let grounds = Grounds::of(a, b).expect("two inputs");
    look(&compare(a, b, grounds.as_ref()).expect("two prepared meshes"));
}

#[test]
fn each_field_has_one_cause() {
    let mut random = Random(21);
    let mut seen: BTreeMap<String, usize> = BTreeMap::new();
    let (mut pairs, mut fields, mut lost, mut elsewhere) = (0, 0, 0, 0);
    while pairs < 400 {
        let kind = if pairs % 2 == 0 { Geometry::PLAIN } else { Geometry::BVH };
        let geometry = mesh(&mut random, kind);
        let mut other = changed(&mut random, &geometry);
        if random.below(30) == 0 {
            other.kind = Geometry::PLAIN + Geometry::BVH - other.kind;
        }
        let (Some(a), Some(b)) = (folder("a", geometry), folder("b", other)) else { continue };
        compared(&a, &b, |comparison| {
            let known = comparison.known.as_ref().expect("both inputs");
            let caused: usize = known.causes.iter().map(|cause| cause.fields.len()).sum();
            assert_eq!(caused, comparison.fields.len());
            assert!(!known.changes.is_empty() || comparison.fields.is_empty(), "the same inputs give the same bytes");
            for (at, cause) in known.causes.iter().enumerate() {
                let unknown = [MeshCause::Unknown, MeshCause::Bytes, MeshCause::Tree(Cause::Unknown)];
                assert!(!unknown.contains(&cause.cause), "{}", comparison.text());
                assert!(!cause.title.is_empty() && !cause.rules.is_empty(), "{:?}", cause.cause);
                assert!(at >= 8 || !cause.lines.is_empty(), "of the first eight all is told: {}", comparison.text());
                let name = format!("{:?}", cause.cause);
                let name = name.trim_end_matches([')', '0', '1', '2', '(']).split('(').take(2).collect::<Vec<_>>();
                *seen.entry(name.join(" ")).or_default() += cause.fields.len();
            }
            assert!(comparison.text().starts_with("verdict  ") && comparison.json().to_string().starts_with('{'));
            lost += known.rows.iter().filter(|row| row.verdict == Verdict::Lost).count();
            elsewhere += known.elsewhere.len();
            fields += comparison.fields.len();
        });
        pairs += 1;
    }
    let counts = format!("{pairs} pairs, {fields} fields that differ, by cause {seen:?}");
    let _ =
        writeln!(std::io::stderr(), "{counts}; {lost} polygons lost, {elsewhere} equal fields for different things");
    let causes =
        ["Kind", "Polygons", "Vertices", "Box", "Frame", "Vertex", "Polygon", "Edges", "Material", "Margin", "Around"];
    for cause in causes.into_iter().chain(["Tree Scale", "Tree Split", "Tree Own", "Tree List"]) {
        assert!(seen.get(cause).is_some_and(|&n| n > 5), "{cause}: {seen:?}");
    }
    assert!(lost > 0 && elsewhere > 100);
}

#[test]
fn a_mesh_and_itself_are_the_same() {
    let mut random = Random(22);
    let mut pairs = 0;
    while pairs < 60 {
        let geometry = mesh(&mut random, if pairs % 2 == 0 { Geometry::PLAIN } else { Geometry::BVH });
        let (Some(a), Some(b)) = (folder("a", geometry.clone()), folder("b", geometry)) else { continue };
        compared(&a, &b, |comparison| {
            assert!(comparison.fields.is_empty(), "{}", comparison.text());
            assert!(comparison.text().contains("the inputs are the same; no field differs"));
        });
        pairs += 1;
    }
}

/// A byte that no input gives is named as such, and counts for no other cause.
#[test]
fn damaged_bytes_are_their_own_cause() {
    let mut random = Random(23);
    let mut pairs = 0;
    while pairs < 40 {
        let geometry = mesh(&mut random, if pairs % 2 == 0 { Geometry::PLAIN } else { Geometry::BVH });
        let (Some(a), Some(mut b)) = (folder("a", geometry.clone()), folder("b", geometry)) else { continue };
        if b.prepared.polygon_material_indices.is_empty() {
            continue;
        }
        b.prepared.polygon_material_indices[0] ^= 1;
        b.parts.indices[0] ^= 1;
        compared(&a, &b, |comparison| {
            let text = comparison.text();
            assert!(
                text.contains("the bytes of b are not its input's") && text.contains("\nbytes    b: 1 field"),
                "{text}"
            );
            let known = comparison.known.as_ref().expect("both inputs");
            assert_eq!(known.causes.iter().map(|cause| cause.cause).collect::<Vec<_>>(), [MeshCause::Bytes]);
        });
        pairs += 1;
    }
}
