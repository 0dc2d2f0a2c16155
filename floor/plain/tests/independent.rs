//! The plain rules call no function of the library: a program that builds, prepares and walks by them holds none. That the
//! same look finds what is called, tests/held.rs says.

mod common;

use bounds::premises::{Axis, Corner};
use bounds::walk::Records;
use bounds::{BoundMaterial, Geometry, Mat4, Octants, Polygon, Vec3};
use plain::mesh::{self, MeshTrace, Standing};
use plain::walk::Walk;
use plain::{links, materials, octants, shrink};

const ORIGIN: Vec3 = Vec3 { x: 0.0, y: 0.0, z: 0.0 };

/// A pyramid and one polygon of each other kind.
fn mesh(kind: u8) -> Geometry {
    let at = |x: f32, y: f32, z: f32| Vec3 { x, y, z };
    let triangle = |v| Polygon::Triangle { material: 0, area: 1.0, v, edges: [-1; 3] };
    let mut polygons = [[0, 2, 1], [0, 1, 3], [1, 2, 3], [2, 0, 3]].map(triangle).to_vec();
    polygons.extend([
        Polygon::Sphere { material: 1, index: 0, radius: 0.5 },
        Polygon::Capsule { material: 2, i1: 1, i2: 2, radius: 0.25 },
        Polygon::Box { material: 0, i: [0, 1, 2, 3] },
        Polygon::Cylinder { material: 9, i1: 3, i2: 8, radius: 0.125 },
    ]);
    let one = |i: usize| if [0, 5, 10, 15].contains(&i) { 1.0 } else { 0.0 };
    Geometry {
        kind,
        box_min: at(-1.0, -1.0, 0.0),
        box_max: at(1.0, 1.0, 1.0),
        box_center: at(0.0, 0.0, 0.5),
        sphere_center: at(0.0, 0.0, 0.5),
        sphere_radius: 1.5,
        margin: 0.04,
        center_geom: ORIGIN,
        transform: Mat4(std::array::from_fn(one)),
        vertices: vec![at(-1.0, -1.0, 0.0), at(1.0, -1.0, 0.0), at(0.0, 1.0, 0.0), at(0.0, 0.0, 1.0)],
        polygons,
        materials: vec![BoundMaterial { data1: 1, data2: 0 }, BoundMaterial { data1: 2, data2: 0 }],
    }
}

/// Builds, prepares and walks, each step also done wrong.
fn all_steps(kind: u8) {
    let mesh = mesh(kind);
    let standing = Standing::of(&mesh);
    let trace = MeshTrace::of(&mesh, &standing);
    assert_eq!((trace.shrinking.is_some(), trace.tree.is_none()), (kind == Geometry::PLAIN, kind == Geometry::PLAIN));
    let (mut records, numbers) = (trace.prepared.polygons.clone(), [0, 0, 0, 0, 1, 2, 0, 9]);
    for wrong in mesh::WRONG {
        assert!(mesh::prepare(&mesh, &records, &numbers, Some(wrong)).is_ok(), "{wrong:?}");
    }
    for wrong in shrink::WRONG {
        assert!(shrink::shrunk(&mesh, &records, 8, Some(wrong)).is_ok(), "{wrong:?}");
    }
    assert_eq!(links::update(&mut records, 8), Ok(()));
    assert_eq!(materials::build(&numbers, &mesh.materials, &mut [0; materials::LIST], &mut [0; 8]), Ok(3));
    assert!(octants::calculate(&mesh.vertices, &mut [0; 32], &mut [0; 40]).is_ok());
    let lists = trace.prepared.octants.unwrap_or(Octants { items: Default::default() });
    assert_eq!(octants::write(&lists, 0, &mut [0; 256]), Ok(()));
    let Some(tree) = &trace.tree else { return };
    assert!(tree.split(0).is_some() && tree.source(0, Corner::Min, Axis::X).is_some());
    let built = tree.records();
    let records = Records {
        node_bytes: &built.node_bytes,
        nodes_count: tree.nodes.len(),
        tree_bytes: &built.tree_bytes,
        trees_count: tree.ranges.len(),
        items_count: 8,
    };
    let (cen, inverse) = (built.built.bb_center, built.built.quantum_inverse);
    let walked = Walk { min: ORIGIN, max: ORIGIN, cen, inverse, records }.run(&mut [0; 8]);
    assert_eq!(walked.refusal, 0);
}

#[test]
fn no_function_of_the_library_is_called() {
    all_steps(Geometry::PLAIN);
    all_steps(Geometry::BVH);
    assert_eq!(common::linked(), Vec::<String>::new());
}

/// What is taken of `bounds`: types, and constants of theirs.
const TAKEN: &[&str] = &[
    "premises::Axis",
    "premises::Corner",
    "prepare::Prepared",
    "prepare::PreparedTree",
    "prepare::Quantised",
    "shrink::Shrunk",
    "shrink::ShrunkBy",
    "tree::TreeRecords",
    "walk::Records",
    "BoundMaterial",
    "BoundVertex",
    "BuiltTree",
    "BvhItem",
    "Geometry",
    "Mat4",
    "Octants",
    "Polygon",
    "Refusal",
    "Vec3",
];

#[test]
fn only_types_are_taken() {
    let mut files = vec![std::path::PathBuf::from(concat!(env!("CARGO_MANIFEST_DIR"), "/src"))];
    let mut seen = 0;
    while let Some(path) = files.pop() {
        if path.is_dir() {
            files.extend(std::fs::read_dir(path).expect("a folder").map(|entry| entry.expect("an entry").path()));
            continue;
        }
        let text = std::fs::read_to_string(&path).expect("a source");
        for line in text.lines().filter(|line| !line.trim_start().starts_with("//")) {
            for taken in line.split("bounds::").skip(1).flat_map(names) {
                assert!(TAKEN.contains(&taken.as_str()), "{}: {taken} of bounds", path.display());
                seen += 1;
            }
        }
    }
    assert!(seen > TAKEN.len(), "the sources were read");
}

/// What `prepare::{Prepared, Quantised};` names.
fn names(path: &str) -> Vec<String> {
    let end = path.find([';', '(', ')', '<', '>']).unwrap_or(path.len());
    let (module, list) = path[..end].split_once('{').unwrap_or(("", &path[..end]));
    list.trim_end_matches('}').split(',').map(|name| format!("{module}{}", name.trim())).collect()
}
