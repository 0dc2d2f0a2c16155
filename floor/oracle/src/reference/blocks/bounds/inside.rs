//! Private functions and blocks of the bounds, as values of the oracle.

use super::super::bvh::inside::read_out;
use super::super::inside::{bytes, bytes_at, count, forget};
use super::*;
use crate::geometry::summed;
use crate::polygon::Materials;
use crate::tree::within;
use ::bounds as ours;
use ours::prepare::{PreparedTree, Quantised};
use ours::tree::TreeRecords;
use ours::{Child, Prepared, Refusal, Shrunk, ShrunkBy};
use std::hint::black_box;

#[inline]
pub fn v(p: ours::Vec3) -> Vec3 {
    Vec3::new(p.x, p.y, p.z)
}
#[inline]
pub fn of(p: Vec3) -> ours::Vec3 {
    ours::Vec3 { x: p.x, y: p.y, z: p.z }
}
fn points(from: &[ours::Vec3]) -> Vec<Vec3> {
    from.iter().map(|&p| v(p)).collect()
}
fn points_of(from: &[Vec3]) -> Vec<ours::Vec3> {
    from.iter().map(|&p| of(p)).collect()
}

// ─── steps ──────────────────────────────────────────────────────────────────

#[inline]
pub fn norm(a: Vec3) -> Vec3 {
    super::norm(a)
}
#[inline]
pub fn vmul(a: Vec3, b: Vec3) -> Vec3 {
    super::vmul(a, b)
}
#[inline]
pub fn vdiv(a: Vec3, b: Vec3) -> Vec3 {
    super::vdiv(a, b)
}
#[inline]
pub fn vadd_f(a: Vec3, f: f32) -> Vec3 {
    super::vadd_f(a, f)
}
#[inline]
pub fn vmin(a: Vec3, b: Vec3) -> Vec3 {
    super::vmin(a, b)
}
#[inline]
pub fn vmax(a: Vec3, b: Vec3) -> Vec3 {
    super::vmax(a, b)
}
#[inline]
pub fn transform_box(b: crate::Aabb, m: &ours::Mat4) -> crate::Aabb {
    let (min, max) = super::transform_box(v(b.min), v(b.max), &Mat4(m.0));
    crate::Aabb { min: of(min), max: of(max) }
}
#[inline]
pub fn vertex(p: Vec3, quantum: Vec3) -> BoundVertex {
    BoundVertex::from_vec(p, quantum)
}
#[inline]
pub fn vertex_read_back(q: ours::BoundVertex, quantum: ours::Vec3) -> ours::Vec3 {
    of(BoundVertex(q.0, q.1, q.2).to_vec(v(quantum)))
}
pub fn stored(b: &BoundVertex) -> ours::BoundVertex {
    ours::BoundVertex(b.0, b.1, b.2)
}

// ─── polygons ───────────────────────────────────────────────────────────────

/// Both have the same kinds with the same fields.
macro_rules! same_polygon {
    ($p:expr, $from:path => $to:path) => {{
        use $from as From;
        use $to as To;
        match $p {
            From::Triangle { material, area, v, edges } => To::Triangle { material, area, v, edges },
            From::Sphere { material, index, radius } => To::Sphere { material, index, radius },
            From::Capsule { material, i1, i2, radius } => To::Capsule { material, i1, i2, radius },
            From::Box { material, i } => To::Box { material, i },
            From::Cylinder { material, i1, i2, radius } => To::Cylinder { material, i1, i2, radius },
        }
    }};
}

pub fn polygon(p: ours::Polygon) -> Polygon {
    same_polygon!(p, ours::Polygon => super::Polygon)
}

fn polygon_of(p: &Polygon) -> ours::Polygon {
    same_polygon!(*p, super::Polygon => ours::Polygon)
}

fn polygons(from: &[ours::Polygon]) -> Vec<Polygon> {
    from.iter().map(|&p| polygon(p)).collect()
}

pub fn read(b: &[u8]) -> Option<ours::Polygon> {
    Polygon::read(b).map(|p| polygon_of(&p))
}

pub fn boxer(list: &[ours::Polygon], vertices: &[ours::Vec3]) -> Box<dyn FnMut() + Send> {
    let (polygons, vertices) = (polygons(list), points(vertices));
    Box::new(move || {
        for p in &polygons {
            black_box(black_box(p).bbox(black_box(&vertices)));
        }
    })
}

/// As `Geometry` does before it builds its tree.
fn items(polygons: &[Polygon], vertices: &[Vec3]) -> Vec<Option<BvhItem>> {
    let item = |(index, p): (usize, &Polygon)| {
        let (min, max) = p.bbox(vertices);
        Some(BvhItem { min, max, index })
    };
    polygons.iter().enumerate().map(item).collect()
}

pub fn itemizer(list: &[ours::Polygon], vertices: &[ours::Vec3]) -> Box<dyn FnMut() + Send> {
    let (polygons, vertices) = (polygons(list), points(vertices));
    Box::new(move || {
        black_box(items(black_box(&polygons), &vertices));
    })
}

pub fn bbox(p: ours::Polygon, vertices: &[ours::Vec3]) -> crate::Aabb {
    let (min, max) = polygon(p).bbox(&points(vertices));
    crate::Aabb { min: of(min), max: of(max) }
}

fn material(m: &ours::BoundMaterial) -> BoundMaterial {
    BoundMaterial { data1: m.data1, data2: m.data2 }
}

fn material_of(m: &BoundMaterial) -> ours::BoundMaterial {
    ours::BoundMaterial { data1: m.data1, data2: m.data2 }
}

fn empty(kind: BoundKind) -> Geometry {
    Geometry::new(BoundCommon::new(kind))
}

fn numbered(numbers: &[u8], list: &[ours::BoundMaterial]) -> Geometry {
    let mut geo = empty(BoundKind::Geometry);
    geo.polygons = numbers.iter().map(|&material| Polygon::Box { material, i: [0; 4] }).collect();
    geo.materials = list.iter().map(material).collect();
    geo
}

pub fn lister(numbers: &[u8], list: &[ours::BoundMaterial]) -> Box<dyn FnMut() -> usize + Send> {
    let mut geo = numbered(numbers, list);
    Box::new(move || {
        black_box(&mut geo).build_materials();
        geo.materials.len()
    })
}

pub fn materials(numbers: &[u8], list: &[ours::BoundMaterial]) -> Materials {
    let mut geo = numbered(numbers, list);
    geo.build_materials();
    let carried: Vec<u8> = geo.polygons.iter().map(Polygon::material).collect();
    assert_eq!(carried, geo.polygon_material_indices);
    Materials { list: geo.materials.iter().map(material_of).collect(), indices: carried }
}

fn of_polygons(list: &[ours::Polygon]) -> Geometry {
    let mut geo = empty(BoundKind::Geometry);
    geo.polygons = polygons(list);
    geo
}

pub fn linker(list: &[ours::Polygon]) -> Box<dyn FnMut() + Send> {
    let mut geo = of_polygons(list);
    Box::new(move || black_box(&mut geo).update_edge_indices())
}

pub fn edges(list: &[ours::Polygon]) -> Vec<ours::Polygon> {
    let mut geo = of_polygons(list);
    geo.update_edge_indices();
    geo.polygons.iter().map(polygon_of).collect()
}

// ─── octants ────────────────────────────────────────────────────────────────

fn shrunk_to(shrunk: &[ours::Vec3]) -> Geometry {
    let mut geo = empty(BoundKind::Geometry);
    geo.vertices_shrunk = Some(points(shrunk));
    geo
}

pub fn octants(shrunk: &[ours::Vec3]) -> ours::Octants {
    ours::Octants { items: shrunk_to(shrunk).calculate_octants().items }
}

pub fn shadower(shrunk: &[ours::Vec3]) -> Box<dyn FnMut() -> usize + Send> {
    let geo = shrunk_to(shrunk);
    Box::new(move || black_box(&geo).calculate_octants().items.iter().map(Vec::len).sum())
}

pub fn octant_bytes(lists: &ours::Octants, address: u64) -> Vec<u8> {
    let octants = Octants { items: lists.items.clone() };
    let bytes = bytes_at(&Graph::new(), &octants, address).expect("octants have no error");
    assert_eq!(bytes.len(), octants.length());
    bytes
}

// ─── prepare ────────────────────────────────────────────────────────────────

fn geometry(from: &ours::Geometry) -> Geometry {
    let mut geo = empty(BoundKind::from_byte(from.kind).expect("4 or 8"));
    let c = &mut geo.common;
    (c.box_min, c.box_max, c.box_center) = (v(from.box_min), v(from.box_max), v(from.box_center));
    (c.sphere_center, c.sphere_radius, c.margin) = (v(from.sphere_center), from.sphere_radius, from.margin);
    c.transform = Mat4(from.transform.0);
    geo.center_geom = v(from.center_geom);
    geo.vertices = points(&from.vertices);
    geo.polygons = polygons(&from.polygons);
    geo.materials = from.materials.iter().map(material).collect();
    geo
}

/// The margin that `calculate_verts_shrunk` enters its loop with. An infinite one would never leave it.
fn starting_margin(c: &BoundCommon) -> f32 {
    let size = (c.box_max - c.box_min).abs() * 0.5;
    c.margin.min(size.x).min(size.y).min(size.z)
}

/// The order in which `rebuild_bvh` takes the polygons, which it keeps nowhere.
fn leaf_order(entries: &[Option<BvhItem>]) -> Vec<usize> {
    build_bvh(&mut Graph::new(), entries, 4).item_order
}

/// The boxes of the polygons where the vertices stand, as the tree over them takes them.
fn entries(geo: &Geometry) -> Vec<Option<BvhItem>> {
    let verts: Vec<Vec3> = (0..geo.vertices.len()).map(|i| geo.vertex_pos(i)).collect();
    items(&geo.polygons, &verts)
}

/// A tree with the boxes of its polygons in the order of its leaves.
fn with_boxes(tree: TreeRecords, entries: &[Option<BvhItem>]) -> PreparedTree {
    let boxed = |&place: &u16| entries[place as usize].map(|item| [of(item.min), of(item.max)]).into();
    let boxes = tree.order.iter().map(boxed).collect();
    PreparedTree::new(tree, boxes).expect("each polygon in a leaf")
}

// ─── shrinking ──────────────────────────────────────────────────────────────

/// A geometry that shrinks: of kind 4.
fn shrinking(from: &ours::Geometry) -> Geometry {
    let mut geo = geometry(from);
    geo.common.kind = BoundKind::Geometry;
    geo
}

/// The margin that passes the check, by the steps of `calculate_verts_shrunk`, which keeps it nowhere.
fn passing_margin(geo: &Geometry) -> Option<f32> {
    let mut margin = starting_margin(&geo.common);
    while margin > 1e-6 {
        if geo.check_shrunk_polys(&geo.shrink_polys_by_margin(margin)) {
            return Some(margin);
        }
        margin *= 0.5;
    }
    None
}

pub fn shrunk(from: &ours::Geometry) -> Result<Shrunk, Refusal> {
    let mut geo = shrinking(from);
    if geo.vertices.is_empty() {
        return Ok(Shrunk { vertices: Vec::new(), by: ShrunkBy::NoVertices });
    }
    if starting_margin(&geo.common) == f32::INFINITY {
        return Err(Refusal::InfiniteMargin);
    }
    geo.update_edge_indices();
    geo.calculate_verts_shrunk();
    let vertices = geo.vertices_shrunk.as_deref().map_or(Vec::new(), points_of);
    Ok(Shrunk { vertices, by: passing_margin(&geo).map_or(ShrunkBy::Normals, ShrunkBy::Margin) })
}

pub fn shrinker(from: &ours::Geometry) -> Box<dyn FnMut() -> usize + Send> {
    let mut geo = shrinking(from);
    Box::new(move || {
        black_box(&mut geo).update_edge_indices();
        geo.calculate_verts_shrunk();
        summed(geo.vertices_shrunk.iter().flatten().map(|&p| of(p)))
    })
}

pub fn mesh_preparer(from: &ours::Geometry) -> Box<dyn FnMut() -> usize> {
    let given = geometry(from);
    Box::new(move || {
        let (mut g, mut geo) = (Graph::new(), black_box(&given).clone());
        geo.prepare(&mut g);
        let indices = geo.octants.map_or(0, |id| g.get::<Octants>(id).items.iter().map(Vec::len).sum());
        geo.materials.len() + indices + geo.bvh.map_or(0, |id| g.get::<Bvh>(id).nodes_count as usize)
    })
}

pub fn prepare(from: &ours::Geometry) -> Result<Prepared, Refusal> {
    let mut geo = geometry(from);
    let mut listed = geo.clone();
    listed.build_materials();
    if listed.materials.len() >= 256 {
        return Err(Refusal::TooManyMaterials);
    }
    let shrinks = geo.common.kind == BoundKind::Geometry && !geo.vertices.is_empty();
    if shrinks && starting_margin(&geo.common) == f32::INFINITY {
        return Err(Refusal::InfiniteMargin);
    }
    let entries = if geo.common.kind == BoundKind::GeometryBvh { entries(&geo) } else { Vec::new() };
    let order = leaf_order(&entries);
    let mut g = Graph::new();
    geo.prepare(&mut g);
    let tree = geo.bvh.map(|id| within(read_out(&g, g.get::<Bvh>(id), order))).transpose()?;
    Ok(prepared(&g, &geo, tree.map(|tree| with_boxes(tree, &entries))))
}

fn prepared(g: &Graph, geo: &Geometry, tree: Option<PreparedTree>) -> Prepared {
    let quantised = |block: Option<BlockId>, floats: &[Vec3]| Quantised {
        stored: block.map_or(Vec::new(), |id| g.get::<StructArray<BoundVertex>>(id).items.iter().map(stored).collect()),
        floats: points_of(floats),
    };
    let filled = &g.get::<StructArray<BoundMaterial>>(geo.materials_block.expect("always made")).items;
    let c = &geo.common;
    Prepared {
        quantum: of(geo.quantum),
        box_min: of(c.box_min),
        box_max: of(c.box_max),
        box_center: of(c.box_center),
        sphere_center: of(c.sphere_center),
        sphere_radius: c.sphere_radius,
        center_geom: of(geo.center_geom),
        polygons: geo.polygons_block.map_or(Vec::new(), |id| g.get::<RawBytes>(id).data.clone()),
        materials: filled.iter().map(material_of).collect(),
        materials_count: geo.materials.len(),
        polygon_material_indices: geo.polygon_material_indices.clone(),
        vertices: quantised(geo.vertices_block, &geo.vertices),
        vertices_shrunk: geo.vertices_shrunk.as_ref().map(|floats| quantised(geo.shrunk_block, floats)),
        octants: geo.octants.map(|id| ours::Octants { items: g.get::<Octants>(id).items.clone() }),
        bvh: tree,
    }
}

// ─── composites ─────────────────────────────────────────────────────────────

fn of_children(children: &[Child]) -> (Graph, Composite) {
    let mut g = Graph::new();
    let mut made = Composite::new(BoundCommon::new(BoundKind::Composite));
    for child in children {
        let block = (child.present != 0).then(|| {
            let mut c = BoundCommon::new(BoundKind::Box);
            (c.box_min, c.box_max) = (v(child.box_min), v(child.box_max));
            (c.margin, c.transform) = (child.margin, Mat4(child.transform.0));
            g.add(BoundBlock::Box(c))
        });
        made.children.push(block);
    }
    (g, made)
}

pub fn preparer(children: &[Child]) -> Box<dyn FnMut() -> usize> {
    let (mut g, mut made) = of_children(children);
    let before = count(&g);
    Box::new(move || {
        forget(&mut g, before);
        black_box(&mut made).prepare(black_box(&mut g));
        made.bvh.map_or(0, |id| g.get::<Bvh>(id).nodes_count as usize)
    })
}

pub fn composite(children: &[Child]) -> crate::composite::Composite {
    let (mut g, mut made) = of_children(children);
    made.prepare(&mut g);
    // At threshold 1 the order list holds the present places.
    let order = || (0..children.len()).filter(|&i| children[i].present != 0).collect();
    crate::composite::Composite {
        boxes: made.bboxes_block.map_or(Vec::new(), |id| bytes(&g, id)),
        tree: made.bvh.map(|id| read_out(&g, g.get::<Bvh>(id), order())),
    }
}
