//! What was prepared, asked by places: a grid of triangles and every other kind of polygon, both kinds of geometry.

use bounds::prepare::{GivenPolygon, PolygonPlace};
use bounds::tree::TreeRecords;
use bounds::walk::walk;
use bounds::{BoundMaterial, Geometry, Polygon, Prepared, Vec3};

/// 12 by 12 squares, two triangles each, a sphere, a capsule, a cylinder and a box among them.
fn geometry(kind: u8) -> Geometry {
    let mut geometry = Geometry::new(kind);
    let height = |i: usize| (i * 7 % 5) as f32 * 0.1;
    geometry.vertices = (0..169).map(|i| Vec3::new((i % 13) as f32, (i / 13) as f32, height(i))).collect();
    let triangle = |i: u16, v| Polygon::Triangle { material: (i % 5) as u8, area: 0.5, v, edges: [-1; 3] };
    for i in 0..144 {
        let low = i / 12 * 13 + i % 12;
        geometry.polygons.push(triangle(i, [low, low + 1, low + 13]));
        geometry.polygons.push(triangle(i, [low + 1, low + 14, low + 13]));
    }
    let others = [
        Polygon::Sphere { material: 9, index: 3, radius: 0.5 },
        Polygon::Capsule { material: 0, i1: 3, i2: 40, radius: 0.25 },
        Polygon::Cylinder { material: 1, i1: 50, i2: 999, radius: 0.25 },
        Polygon::Box { material: 2, i: [0, 1, 13, 14] },
    ];
    others.into_iter().for_each(|other| geometry.polygons.insert(7, other));
    geometry.materials = (0..4).map(|k| BoundMaterial { data1: k / 2, data2: 0 }).collect();
    (geometry.box_max, geometry.margin) = (Vec3::new(12.0, 12.0, 0.4), 0.04);
    geometry
}

fn prepared(kind: u8) -> (Geometry, Prepared) {
    let geometry = geometry(kind);
    let prepared = geometry.prepare().expect("within the limits");
    (geometry, prepared)
}

#[test]
fn places_and_given_numbers_lead_to_one_another() {
    for kind in [Geometry::PLAIN, Geometry::BVH] {
        let (geometry, prepared) = prepared(kind);
        assert_eq!(prepared.places().len(), geometry.polygons.len());
        let mut moved = 0;
        for place in prepared.places() {
            let given = prepared.given(place).expect("a given polygon");
            assert_eq!(prepared.place_of(given), Some(place));
            moved += usize::from(given.0 != place.0);
            let was = geometry.polygons[given.0];
            let material = geometry.materials.get(was.material() as usize).copied().unwrap_or_default();
            assert_eq!(prepared.material(place), Some(material));
            let is = prepared.polygon(place).expect("a polygon");
            assert_eq!(prepared.materials.get(is.material() as usize), Some(&material));
            assert_eq!(is.to_bytes()[..10], was.to_bytes()[..10], "all but the links is as it was given");
        }
        assert_eq!(moved > 0, kind == Geometry::BVH, "kind 8 is in the order of the leaves");
        let past = prepared.places().len();
        assert_eq!((prepared.given(PolygonPlace(past)), prepared.place_of(GivenPolygon(past))), (None, None));
        assert_eq!((prepared.polygon(PolygonPlace(past)), prepared.material(PolygonPlace(usize::MAX))), (None, None));
    }
}

#[test]
fn links_lead_back() {
    for kind in [Geometry::PLAIN, Geometry::BVH] {
        let (_, prepared) = prepared(kind);
        let mut links = 0;
        for place in prepared.places() {
            for to in prepared.links(place).into_iter().flatten() {
                assert!(prepared.links(to).contains(&Some(place)), "{place:?} {to:?}");
                links += 1;
            }
        }
        assert_eq!(links, 3 * 288 - 48, "all sides but the rim's");
    }
}

#[test]
fn candidates_are_what_the_lent_walk_hands_out() {
    let (geometry, prepared) = prepared(Geometry::BVH);
    let tree = prepared.bvh.as_ref().expect("a tree");
    for i in 0..40 {
        let min = Vec3::new((i % 13) as f32, (i / 4) as f32, -1.0);
        let max = Vec3::new(min.x + 0.5, min.y + 0.5, 1.0);
        let found = tree.candidates(min, max);
        let mut out = vec![0; prepared.places().len()];
        let (center, inverse) = (tree.built.bb_center, tree.built.quantum_inverse);
        let counts = walk(min, max, center, inverse, &tree.records(), &mut out).expect("not refused");
        assert_eq!(counts.reads, found.reads);
        assert!(found.places.iter().map(|place| place.0).eq(out[..counts.handed].iter().map(|&k| k as usize)));
        for place in prepared.places() {
            let (low, high) = geometry.polygons[prepared.given(place).expect("given").0].bbox(&geometry.vertices);
            let meets = low.x <= max.x && min.x <= high.x && low.y <= max.y && min.y <= high.y;
            assert!(!meets || found.places.contains(&place), "within the premises nothing is missed");
            let met = meets && low.z <= max.z && min.z <= high.z;
            assert_eq!(tree.query(min, max).contains(&place), met, "as floats");
        }
    }
}

#[test]
fn leaves_hold_every_polygon_once() {
    let (_, prepared) = prepared(Geometry::BVH);
    let tree = prepared.bvh.as_ref().expect("a tree");
    let held: Vec<PolygonPlace> = tree.nodes().flat_map(|node| tree.held(&node)).collect();
    assert!(held.into_iter().eq(prepared.places()), "leaf after leaf");
    let ranges: Vec<_> = tree.trees().map(|range| range.node_index2 - range.node_index1).collect();
    assert!(ranges.len() > 1 && ranges.iter().all(|&nodes| nodes <= 127), "{ranges:?}");
    assert_eq!(tree.header(Default::default()).map(|header| header[8]), Ok(tree.built.nodes_count as u8));
}

/// Bytes that nobody prepared are refused, not trusted.
#[test]
fn a_damaged_tree_is_refused() {
    let (_, prepared) = prepared(Geometry::BVH);
    let mut records: TreeRecords = (*prepared.bvh.expect("a tree")).clone();
    records.tree_bytes[13] = 0x80; // a first node below 0
    let everywhere = (Vec3::new(-1e9, -1e9, -1e9), Vec3::new(1e9, 1e9, 1e9));
    let refused = records.walk(everywhere.0, everywhere.1, &mut Vec::new()).expect_err("refused");
    assert_eq!(refused.refusal, bounds::Refusal::TreeRange);
}
