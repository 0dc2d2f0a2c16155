//! The reference where 01 is silent or easily misread, so that a port is held to it.

use bounds::{
    BoundMaterial, BoundVertex, BvhItem, BvhNode, Child, Geometry, Mat4, Octants, Polygon, Refusal, ShrunkBy, Vec3,
};
use oracle::geometry::{calculate_verts_shrunk, prepare};
use oracle::{composite, math, on_large_stack, polygon, tree, Aabb};

/// A point with three equal coordinates.
fn cube(x: f32) -> Vec3 {
    Vec3::new(x, x, x)
}

fn unit(min: f32, max: f32) -> BvhItem {
    BvhItem::new(cube(min), cube(max))
}

fn geometry(kind: u8, vertices: Vec<Vec3>, polygons: Vec<Polygon>) -> Geometry {
    Geometry {
        box_min: cube(-1.0),
        box_max: cube(1.0),
        sphere_radius: 2.0,
        margin: 0.04,
        vertices,
        polygons,
        materials: vec![BoundMaterial { data1: 7, data2: 8 }],
        ..Geometry::new(kind)
    }
}

fn triangle(v: [u16; 3]) -> Polygon {
    Polygon::Triangle { material: 0, area: 1.0, v, edges: [5; 3] }
}

#[test]
#[cfg_attr(not(reference), ignore = "the reference is not here: set REFERENCE")]
fn no_present_entry_is_one_inverted_leaf() {
    let b = tree::build(&[BvhItem::ABSENT; 2], 1).expect("two entries");
    let root = BvhNode { min: [32766; 3], max: [-32766; 3], item_id: 0, item_count: 0 };
    assert_eq!((b.nodes().collect::<Vec<_>>(), b.built.nodes_capacity, b.order.len()), (vec![root], 5, 0));
}

#[test]
#[cfg_attr(not(reference), ignore = "the reference is not here: set REFERENCE")]
fn a_tie_keeps_the_later_zero() {
    let b = tree::build(&[unit(0.0, 1.0), unit(-0.0, 1.0)], 4).expect("two entries");
    let header = tree::header(&b.built.bvh(0x5000_0010, 0x5000_0020)).expect("few trees");
    assert_eq!(header[..16], [0x10, 0, 0, 0x50, 0, 0, 0, 0, 1, 0, 0, 0, 1, 0, 0, 0]);
    assert_eq!(header[32..48], [0, 0, 0, 0x80, 0, 0, 0, 0x80, 0, 0, 0, 0x80, 0, 0, 0xC0, 0xFF]);
    assert_eq!(header[112..], [0x20, 0, 0, 0x50, 0, 0, 0, 0, 1, 0, 1, 0, 0, 0, 0, 0]);
}

#[test]
#[cfg_attr(not(reference), ignore = "the reference is not here: set REFERENCE")]
fn too_many_trees_for_the_header() {
    let b = tree::build(&[], 4).expect("no entry");
    let mut h = b.built.bvh(0, 0);
    h.trees_count = 65_535;
    assert!(tree::header(&h).is_ok());
    h.trees_count = 65_536;
    assert_eq!(tree::header(&h), Err(Refusal::ListTooLong));
}

#[test]
#[cfg_attr(not(reference), ignore = "the reference is not here: set REFERENCE")]
fn a_signalling_nan_is_copied_with_its_bits() {
    let odd = f32::from_bits(0xFF80_0001);
    let b = tree::build(&[BvhItem::new(Vec3::new(odd, 0.0, 0.0), cube(1.0))], 1).expect("one entry");
    assert_eq!(b.built.bb_min.x.to_bits(), 0xFF80_0001);
    let child = Child::new(cube(odd), cube(1.0), odd, Mat4::identity());
    let boxes = composite::child_boxes(&[child, Child::ABSENT]).expect("two children");
    assert_eq!(boxes[..4], [1, 0, 0x80, 0xFF]);
    assert_eq!(boxes[12..16], [1, 0, 0, 0]);
    assert_eq!(boxes[28..32], [1, 0, 0x80, 0xFF]);
    assert_eq!(boxes[32..], [0; 32]);
    // An area loses its low three bits, so this NaN is written as an infinity; a radius keeps all.
    let area = Polygon::Triangle { material: 0, area: f32::from_bits(0x7F80_0001), v: [0; 3], edges: [0; 3] };
    assert_eq!(polygon::to_bytes(area)[..4], [0, 0, 0x80, 0x7F]);
    let sphere = Polygon::Sphere { material: 0, index: 2, radius: odd };
    assert_eq!(polygon::to_bytes(sphere)[..8], [1, 0, 2, 0, 1, 0, 0x80, 0xFF]);
}

/// Groups of 40 boxes that lie so that each split takes the farthest alone: 37 leaves a group at threshold 4.
fn lonely(groups: usize) -> Vec<BvhItem> {
    let mut items = Vec::new();
    for group in 0..groups {
        let mut x = 1e-30;
        for k in 0..40 {
            let at = Vec3::new(x, group as f32, 0.0);
            items.push(BvhItem::new(at, at));
            x *= k as f32 + 3.0;
        }
    }
    items
}

#[test]
#[cfg_attr(not(reference), ignore = "the reference is not here: set REFERENCE")]
fn threshold_four_can_pass_the_node_limit() {
    on_large_stack(|| {
        let b = tree::build(&lonely(442), 4).expect("442 groups");
        assert_eq!(b.built.nodes_count, 2 * 37 * 442 - 1);
        assert_eq!(tree::build(&lonely(443), 4).err(), Some(Refusal::TooManyNodes));
    });
}

#[test]
#[cfg_attr(not(reference), ignore = "the reference is not here: set REFERENCE")]
fn the_identity_still_multiplies() {
    let p = math::transform_point(&Mat4::identity(), Vec3::new(f32::INFINITY, 0.0, 0.0));
    assert!(p.x == f32::INFINITY && p.y.is_nan() && p.z.is_nan() && p.w.is_nan());
}

#[test]
#[cfg_attr(not(reference), ignore = "the reference is not here: set REFERENCE")]
fn transform_box_divides_the_centre_alone_by_w() {
    let mut m = Mat4::identity();
    m.0[15] = 2.0;
    let b = math::transform_box(Aabb { min: cube(1.0), max: cube(3.0) }, &m);
    assert_eq!(b, Aabb { min: cube(0.0), max: cube(2.0) });
}

#[test]
#[cfg_attr(not(reference), ignore = "the reference is not here: set REFERENCE")]
fn prepare_without_polygons_or_vertices() {
    let p = prepare(&geometry(8, vec![cube(0.5)], vec![])).expect("kind 8");
    assert!(p.bvh.is_none() && p.octants.is_none() && p.vertices_shrunk.is_none());
    assert_eq!((p.materials, p.materials_count), (vec![BoundMaterial::default(); 4], 0));
    assert_eq!((p.box_min, p.sphere_radius), (cube(-1.0), 2.0));
    let p = prepare(&geometry(4, vec![], vec![])).expect("kind 4");
    assert!(p.bvh.is_none() && p.vertices_shrunk.is_none());
    assert_eq!(p.octants, Some(Octants::default()));
    assert_eq!(prepare(&geometry(5, vec![], vec![])).err(), Some(Refusal::UnknownKind));
}

#[test]
#[cfg_attr(not(reference), ignore = "the reference is not here: set REFERENCE")]
fn prepare_of_both_kinds() {
    let vertices = [[-1.0, -1.0, 0.0], [1.0, -1.0, 0.0], [0.0, 1.0, 0.0], [0.0, 0.0, 1.0]].map(Vec3::from).to_vec();
    let faces = vec![triangle([0, 2, 1]), triangle([0, 1, 3]), triangle([1, 2, 3]), triangle([2, 0, 3])];
    let p = prepare(&geometry(4, vertices.clone(), faces.clone())).expect("kind 4");
    assert_eq!(p.vertices.stored[0], BoundVertex(-32767, -32767, 0));
    assert_eq!(p.polygons.len(), 64);
    assert_eq!((p.materials.len(), p.materials_count, p.polygon_material_indices), (4, 1, vec![0; 4]));
    let shrunk = p.vertices_shrunk.expect("kind 4 shrinks");
    assert!(shrunk.floats.len() == 4 && shrunk.stored != p.vertices.stored);
    assert!(p.octants.expect("kind 4 has octants").items.iter().all(|l| !l.is_empty()));

    let p = prepare(&geometry(8, vertices, faces)).expect("kind 8");
    let t = p.bvh.expect("kind 8 with polygons");
    assert_eq!((t.built.nodes_count, t.built.trees_count, &t.order[..]), (1, 1, &[0, 1, 2, 3][..]));
    assert_eq!((p.box_min, p.box_max), (Vec3::new(-1.0, -1.0, 0.0), cube(1.0)));
    let areas = p.polygons.chunks_exact(16).map(polygon::read);
    assert!(areas.into_iter().all(|p| matches!(p, Ok(Polygon::Triangle { area: 1.0, .. }))), "areas are left alone");
}

#[test]
#[cfg_attr(not(reference), ignore = "the reference is not here: set REFERENCE")]
fn prepare_refuses_an_infinite_margin_and_256_materials() {
    let mut g = geometry(4, vec![Vec3::ZERO], vec![]);
    (g.box_min, g.box_max, g.margin) = (cube(-f32::MAX), cube(f32::INFINITY), f32::INFINITY);
    assert_eq!(prepare(&g).err(), Some(Refusal::InfiniteMargin));
    g.margin = f32::NAN;
    assert_eq!(prepare(&g).err(), Some(Refusal::InfiniteMargin), "min skips a NaN");
    g.box_max.x = 1.0;
    assert!(prepare(&g).is_ok());
    g.polygons = (0..=255).map(|material| Polygon::Box { material, i: [0; 4] }).collect();
    g.materials = (0..256).map(|i| BoundMaterial { data1: i, data2: 0 }).collect();
    assert_eq!(prepare(&g).err(), Some(Refusal::TooManyMaterials));
    g.polygons.pop();
    assert!(prepare(&g).is_ok());
}

#[test]
#[cfg_attr(not(reference), ignore = "the reference is not here: set REFERENCE")]
fn a_composite_has_a_tree_above_five_children() {
    let child = |i: u8| Child::new(cube(i as f32), cube(i as f32 + 1.0), 0.04, Mat4::identity());
    let mut children: Vec<_> = (0..5).map(child).collect();
    assert!(composite::composite(&children).expect("five").tree.is_none());
    children.push(Child::ABSENT);
    let six = composite::composite(&children).expect("six");
    let tree = six.tree.expect("above five");
    assert_eq!((six.boxes.len(), tree.built.nodes_count, tree.built.nodes_capacity), (192, 9, 13));
    assert_eq!(tree.order, [0, 1, 2, 3, 4]);
}

/// In a box of 2 about 0.
fn shrunk(margin: f32, vertices: &[[f32; 3]], triangles: &[[u16; 3]]) -> (ShrunkBy, Vec<[f32; 3]>) {
    let polygons = triangles.iter().map(|&v| triangle(v)).collect();
    let g = Geometry { margin, ..geometry(4, vertices.iter().copied().map(Vec3::from).collect(), polygons) };
    let shrunk = calculate_verts_shrunk(&g).expect("a finite margin");
    (shrunk.by, shrunk.vertices.into_iter().map(<[f32; 3]>::from).collect())
}

#[test]
#[cfg_attr(not(reference), ignore = "the reference is not here: set REFERENCE")]
fn a_corner_that_is_not_there_fails_every_margin_that_moves_a_vertex() {
    let corners = [[1.0, 0.0, 0.0], [0.0, 1.0, 0.0], [0.0; 3]];
    // Its normal is zero, so that no vertex moves: what is left is the clamp.
    let (by, points) = shrunk(0.5, &corners, &[[0, 1, 9]]);
    assert!(matches!(by, ShrunkBy::Margin(0.5)));
    assert_eq!(points, [[0.5, 0.0, 0.0], [0.0, 0.5, 0.0], [0.0; 3]]);
    let (by, points) = shrunk(0.5, &corners, &[[0, 1, 9], [0, 1, 2]]);
    assert!(matches!(by, ShrunkBy::Normals));
    // By normals a triangle's has the other sign, and nothing is clamped.
    assert_eq!(points, [[1.0, 0.0, 0.5], [0.0, 1.0, 0.5], [0.0, 0.0, 0.5]]);
    let (by, points) = shrunk(0.5, &corners, &[[0, 1, 2]]);
    assert!(matches!(by, ShrunkBy::Margin(0.5)));
    assert_eq!(points, [[0.5, 0.0, -0.5], [0.0, 0.5, -0.5], [0.0, 0.0, -0.5]]);
    // So far away the margin is lost in rounding.
    let far = corners.map(|c| c.map(|x| x + 1e8));
    assert!(matches!(shrunk(0.5, &far, &[[0, 1, 9], [0, 1, 2]]).0, ShrunkBy::Margin(0.5)));
}

#[test]
#[cfg_attr(not(reference), ignore = "the reference is not here: set REFERENCE")]
fn the_least_margin_and_the_given_one() {
    let corners = [[1.0, 0.0, 0.0], [0.0, 1.0, 0.0], [0.0; 3]];
    let by = |margin| shrunk(margin, &corners, &[[0, 1, 2]]).0;
    assert!(matches!(by(1e-6), ShrunkBy::Normals));
    assert!(matches!(by(f32::from_bits(1e-6f32.to_bits() + 1)), ShrunkBy::Margin(_)));
    assert!(matches!(by(f32::NAN), ShrunkBy::Margin(1.0)), "half the box");
    let (by, points) = shrunk(-1.0, &corners, &[[0, 1, 2]]);
    assert!(matches!(by, ShrunkBy::Normals) && points[2] == [0.0, 0.0, -1.0], "by the given margin");
    let (_, points) = shrunk(0.5, &[[f32::NAN, 0.0, 0.0], [5.0, 0.0, 0.0]], &[]);
    assert_eq!(points, [[0.5, 0.0, 0.0]; 2], "a NaN goes to the high side, and so does a vertex of no triangle");
    let mut g = geometry(4, vec![Vec3::ZERO], vec![]);
    (g.margin, g.box_max) = (f32::INFINITY, Vec3::new(f32::INFINITY, f32::NAN, f32::INFINITY));
    assert_eq!(calculate_verts_shrunk(&g).err(), Some(Refusal::InfiniteMargin));
    g.vertices.clear();
    assert!(matches!(calculate_verts_shrunk(&g).expect("nothing to shrink").by, ShrunkBy::NoVertices));
}
