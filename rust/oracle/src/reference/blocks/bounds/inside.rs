//! Private functions and blocks of the bounds, as values of the oracle.

use super::super::bvh::inside::read_out;
use super::super::inside::{bytes, bytes_at, count, forget};
use super::*;
use crate::composite::Child;
use crate::geometry::{summed, By, Prepared, Quantised, Shrunk};
use crate::polygon::{Material, Materials, Polygon as Plain};
use crate::{tree, Refused};
use std::hint::black_box;

#[inline]
pub fn v(p: crate::Vec3) -> Vec3 {
    Vec3::new(p[0], p[1], p[2])
}
#[inline]
pub fn of(p: Vec3) -> crate::Vec3 {
    [p.x, p.y, p.z]
}

// ─── steps ──────────────────────────────────────────────────────────────────

#[inline]
pub fn norm(a: Vec3) -> Vec3 {
    super::norm(a)
}
#[inline]
pub fn vmul(a: Vec3, b: Vec3) -> Vec3 {
    super::vmul(a, b)
}
#[inline]
pub fn vdiv(a: Vec3, b: Vec3) -> Vec3 {
    super::vdiv(a, b)
}
#[inline]
pub fn vadd_f(a: Vec3, f: f32) -> Vec3 {
    super::vadd_f(a, f)
}
#[inline]
pub fn vmin(a: Vec3, b: Vec3) -> Vec3 {
    super::vmin(a, b)
}
#[inline]
pub fn vmax(a: Vec3, b: Vec3) -> Vec3 {
    super::vmax(a, b)
}
#[inline]
pub fn transform_box(b: crate::Aabb, m: &crate::Mat4) -> crate::Aabb {
    let (min, max) = super::transform_box(v(b.min), v(b.max), &Mat4(*m));
    crate::Aabb { min: of(min), max: of(max) }
}
#[inline]
pub fn vertex(p: crate::Vec3, quantum: crate::Vec3) -> [i16; 3] {
    stored(&BoundVertex::from_vec(v(p), v(quantum)))
}
#[inline]
pub fn vertex_read_back(q: [i16; 3], quantum: crate::Vec3) -> crate::Vec3 {
    of(BoundVertex(q[0], q[1], q[2]).to_vec(v(quantum)))
}

fn stored(b: &BoundVertex) -> [i16; 3] {
    [b.0, b.1, b.2]
}

// ─── polygons ───────────────────────────────────────────────────────────────

pub fn polygon(p: Plain) -> Polygon {
    match p {
        Plain::Triangle { material, area, v, links } => Polygon::Triangle { material, area, v, edges: links },
        Plain::Sphere { material, index, radius } => Polygon::Sphere { material, index, radius },
        Plain::Capsule { material, i1, i2, radius } => Polygon::Capsule { material, i1, i2, radius },
        Plain::Box { material, i } => Polygon::Box { material, i },
        Plain::Cylinder { material, i1, i2, radius } => Polygon::Cylinder { material, i1, i2, radius },
    }
}

fn plain(p: &Polygon) -> Plain {
    match *p {
        Polygon::Triangle { material, area, v, edges } => Plain::Triangle { material, area, v, links: edges },
        Polygon::Sphere { material, index, radius } => Plain::Sphere { material, index, radius },
        Polygon::Capsule { material, i1, i2, radius } => Plain::Capsule { material, i1, i2, radius },
        Polygon::Box { material, i } => Plain::Box { material, i },
        Polygon::Cylinder { material, i1, i2, radius } => Plain::Cylinder { material, i1, i2, radius },
    }
}

pub fn read(b: &[u8]) -> Option<Plain> {
    Polygon::read(b).map(|p| plain(&p))
}

pub fn boxer(polygons: &[Plain], vertices: &[crate::Vec3]) -> Box<dyn FnMut() + Send> {
    let polygons: Vec<Polygon> = polygons.iter().map(|&p| polygon(p)).collect();
    let vertices: Vec<Vec3> = vertices.iter().map(|&p| v(p)).collect();
    Box::new(move || {
        for p in &polygons {
            black_box(black_box(p).bbox(black_box(&vertices)));
        }
    })
}

/// As `Geometry` does before it builds its tree.
pub fn itemizer(polygons: &[Plain], vertices: &[crate::Vec3]) -> Box<dyn FnMut() + Send> {
    let polygons: Vec<Polygon> = polygons.iter().map(|&p| polygon(p)).collect();
    let vertices: Vec<Vec3> = vertices.iter().map(|&p| v(p)).collect();
    Box::new(move || {
        let item = |(index, p): (usize, &Polygon)| {
            let (min, max) = p.bbox(&vertices);
            Some(BvhItem { min, max, index })
        };
        let items: Vec<Option<BvhItem>> = black_box(&polygons).iter().enumerate().map(item).collect();
        black_box(items);
    })
}

pub fn bbox(p: Plain, vertices: &[crate::Vec3]) -> crate::Aabb {
    let vertices: Vec<Vec3> = vertices.iter().map(|&p| v(p)).collect();
    let (min, max) = polygon(p).bbox(&vertices);
    crate::Aabb { min: of(min), max: of(max) }
}

fn material(m: &Material) -> BoundMaterial {
    BoundMaterial { data1: m.0, data2: m.1 }
}

fn empty(kind: BoundKind) -> Geometry {
    Geometry::new(BoundCommon::new(kind))
}

fn numbered(numbers: &[u8], list: &[Material]) -> Geometry {
    let mut geo = empty(BoundKind::Geometry);
    geo.polygons = numbers.iter().map(|&material| Polygon::Box { material, i: [0; 4] }).collect();
    geo.materials = list.iter().map(material).collect();
    geo
}

pub fn lister(numbers: &[u8], list: &[Material]) -> Box<dyn FnMut() -> usize + Send> {
    let mut geo = numbered(numbers, list);
    Box::new(move || {
        black_box(&mut geo).build_materials();
        geo.materials.len()
    })
}

pub fn materials(numbers: &[u8], list: &[Material]) -> Materials {
    let mut geo = numbered(numbers, list);
    geo.build_materials();
    let carried: Vec<u8> = geo.polygons.iter().map(Polygon::material).collect();
    assert_eq!(carried, geo.polygon_material_indices);
    Materials { list: geo.materials.iter().map(|m| (m.data1, m.data2)).collect(), indices: carried }
}

fn of_polygons(polygons: &[Plain]) -> Geometry {
    let mut geo = empty(BoundKind::Geometry);
    geo.polygons = polygons.iter().map(|&p| polygon(p)).collect();
    geo
}

pub fn linker(polygons: &[Plain]) -> Box<dyn FnMut() + Send> {
    let mut geo = of_polygons(polygons);
    Box::new(move || black_box(&mut geo).update_edge_indices())
}

pub fn edges(polygons: &[Plain]) -> Vec<Plain> {
    let mut geo = of_polygons(polygons);
    geo.update_edge_indices();
    geo.polygons.iter().map(plain).collect()
}

// ─── octants ────────────────────────────────────────────────────────────────

fn shrunk_to(shrunk: &[crate::Vec3]) -> Geometry {
    let mut geo = empty(BoundKind::Geometry);
    geo.vertices_shrunk = Some(shrunk.iter().map(|&p| v(p)).collect());
    geo
}

pub fn octants(shrunk: &[crate::Vec3]) -> [Vec<u32>; 8] {
    shrunk_to(shrunk).calculate_octants().items
}

pub fn shadower(shrunk: &[crate::Vec3]) -> Box<dyn FnMut() -> usize + Send> {
    let geo = shrunk_to(shrunk);
    Box::new(move || black_box(&geo).calculate_octants().items.iter().map(Vec::len).sum())
}

pub fn octant_bytes(lists: &[Vec<u32>; 8], address: u64) -> Vec<u8> {
    let octants = Octants { items: lists.clone() };
    let bytes = bytes_at(&Graph::new(), &octants, address).expect("octants have no error");
    assert_eq!(bytes.len(), octants.length());
    bytes
}

// ─── prepare ────────────────────────────────────────────────────────────────

fn geometry(from: &crate::geometry::Geometry) -> Geometry {
    let mut geo = empty(BoundKind::from_byte(from.kind).expect("4 or 8"));
    let c = &mut geo.common;
    (c.box_min, c.box_max, c.box_center) = (v(from.box_min), v(from.box_max), v(from.box_center));
    (c.sphere_center, c.sphere_radius, c.margin) = (v(from.sphere_center), from.sphere_radius, from.margin);
    c.transform = Mat4(from.transform);
    geo.center_geom = v(from.center_geom);
    geo.vertices = from.vertices.iter().map(|&p| v(p)).collect();
    geo.polygons = from.polygons.iter().map(|&p| polygon(p)).collect();
    geo.materials = from.materials.iter().map(material).collect();
    geo
}

/// The margin that `calculate_verts_shrunk` enters its loop with. An infinite one would never leave it.
fn starting_margin(c: &BoundCommon) -> f32 {
    let size = (c.box_max - c.box_min).abs() * 0.5;
    c.margin.min(size.x).min(size.y).min(size.z)
}

/// The order in which `rebuild_bvh` takes the polygons, which it keeps nowhere.
fn leaf_order(geo: &Geometry) -> Vec<usize> {
    let verts: Vec<Vec3> = (0..geo.vertices.len()).map(|i| geo.vertex_pos(i)).collect();
    let item = |(index, p): (usize, &Polygon)| {
        let (min, max) = p.bbox(&verts);
        Some(BvhItem { min, max, index })
    };
    let items: Vec<_> = geo.polygons.iter().enumerate().map(item).collect();
    build_bvh(&mut Graph::new(), &items, 4).item_order
}

// ─── shrinking ──────────────────────────────────────────────────────────────

/// A geometry that shrinks: of kind 4.
fn shrinking(from: &crate::geometry::Geometry) -> Geometry {
    let mut geo = geometry(from);
    geo.common.kind = BoundKind::Geometry;
    geo
}

/// The margin that passes the check, by the steps of `calculate_verts_shrunk`, which keeps it nowhere.
fn passing_margin(geo: &Geometry) -> Option<f32> {
    let mut margin = starting_margin(&geo.common);
    while margin > 1e-6 {
        if geo.check_shrunk_polys(&geo.shrink_polys_by_margin(margin)) {
            return Some(margin);
        }
        margin *= 0.5;
    }
    None
}

pub fn shrunk(from: &crate::geometry::Geometry) -> Result<Shrunk, Refused> {
    let mut geo = shrinking(from);
    if geo.vertices.is_empty() {
        return Ok(Shrunk { points: Vec::new(), by: By::NoVertices });
    }
    if starting_margin(&geo.common) == f32::INFINITY {
        return Err(Refused(7));
    }
    geo.update_edge_indices();
    geo.calculate_verts_shrunk();
    let points = geo.vertices_shrunk.iter().flatten().map(|&p| of(p)).collect();
    Ok(Shrunk { points, by: passing_margin(&geo).map_or(By::Normals, By::Margin) })
}

pub fn shrinker(from: &crate::geometry::Geometry) -> Box<dyn FnMut() -> usize + Send> {
    let mut geo = shrinking(from);
    Box::new(move || {
        black_box(&mut geo).update_edge_indices();
        geo.calculate_verts_shrunk();
        summed(geo.vertices_shrunk.iter().flatten().map(|&p| of(p)))
    })
}

pub fn mesh_preparer(from: &crate::geometry::Geometry) -> Box<dyn FnMut() -> usize> {
    let given = geometry(from);
    Box::new(move || {
        let (mut g, mut geo) = (Graph::new(), black_box(&given).clone());
        geo.prepare(&mut g);
        let indices = geo.octants.map_or(0, |id| g.get::<Octants>(id).items.iter().map(Vec::len).sum());
        geo.materials.len() + indices + geo.bvh.map_or(0, |id| g.get::<Bvh>(id).nodes_count as usize)
    })
}

pub fn prepare(from: &crate::geometry::Geometry) -> Result<Prepared, Refused> {
    let mut geo = geometry(from);
    let mut listed = geo.clone();
    listed.build_materials();
    if listed.materials.len() >= 256 {
        return Err(Refused(8));
    }
    let shrinks = geo.common.kind == BoundKind::Geometry && !geo.vertices.is_empty();
    if shrinks && starting_margin(&geo.common) == f32::INFINITY {
        return Err(Refused(7));
    }
    let order = if geo.common.kind == BoundKind::GeometryBvh { leaf_order(&geo) } else { Vec::new() };
    let mut g = Graph::new();
    geo.prepare(&mut g);
    let tree = geo.bvh.map(|id| read_out(&g, g.get::<Bvh>(id), order));
    match tree {
        Some(t) if t.nodes_count > tree::LIMIT => Err(Refused(4)),
        tree => Ok(prepared(&g, &geo, tree)),
    }
}

fn prepared(g: &Graph, geo: &Geometry, tree: Option<tree::Built>) -> Prepared {
    let quantised = |block: Option<BlockId>, floats: &[Vec3]| Quantised {
        stored: block.map_or(Vec::new(), |id| g.get::<StructArray<BoundVertex>>(id).items.iter().map(stored).collect()),
        floats: floats.iter().map(|&p| of(p)).collect(),
    };
    let filled = &g.get::<StructArray<BoundMaterial>>(geo.materials_block.expect("always made")).items;
    let c = &geo.common;
    Prepared {
        quantum: of(geo.quantum),
        box_min: of(c.box_min),
        box_max: of(c.box_max),
        box_center: of(c.box_center),
        sphere_center: of(c.sphere_center),
        sphere_radius: c.sphere_radius,
        polygons: geo.polygons.iter().map(plain).collect(),
        polygon_bytes: geo.polygons_block.map_or(Vec::new(), |id| g.get::<RawBytes>(id).data.clone()),
        materials: filled.iter().map(|m| (m.data1, m.data2)).collect(),
        materials_count: geo.materials.len(),
        material_indices: geo.polygon_material_indices.clone(),
        vertices: quantised(geo.vertices_block, &geo.vertices),
        shrunk: geo.vertices_shrunk.as_ref().map(|floats| quantised(geo.shrunk_block, floats)),
        octants: geo.octants.map(|id| g.get::<Octants>(id).items.clone()),
        tree,
    }
}

// ─── composites ─────────────────────────────────────────────────────────────

fn of_children(children: &[Option<Child>]) -> (Graph, Composite) {
    let mut g = Graph::new();
    let mut made = Composite::new(BoundCommon::new(BoundKind::Composite));
    for child in children {
        let block = child.map(|child| {
            let mut c = BoundCommon::new(BoundKind::Box);
            (c.box_min, c.box_max) = (v(child.aabb.min), v(child.aabb.max));
            (c.margin, c.transform) = (child.margin, Mat4(child.transform));
            g.add(BoundBlock::Box(c))
        });
        made.children.push(block);
    }
    (g, made)
}

pub fn preparer(children: &[Option<Child>]) -> Box<dyn FnMut() -> usize> {
    let (mut g, mut made) = of_children(children);
    let before = count(&g);
    Box::new(move || {
        forget(&mut g, before);
        black_box(&mut made).prepare(black_box(&mut g));
        made.bvh.map_or(0, |id| g.get::<Bvh>(id).nodes_count as usize)
    })
}

pub fn composite(children: &[Option<Child>]) -> crate::composite::Composite {
    let (mut g, mut made) = of_children(children);
    made.prepare(&mut g);
    // At threshold 1 the order list holds the present places.
    let order = || (0..children.len()).filter(|&i| children[i].is_some()).collect();
    crate::composite::Composite {
        boxes: made.bboxes_block.map_or(Vec::new(), |id| bytes(&g, id)),
        tree: made.bvh.map(|id| read_out(&g, g.get::<Bvh>(id), order())),
    }
}
