//! Prepare: grids of kind 8, which have a tree, spheres of kind 4, which shrink, and meshes made to be slow.

use crate::shrink::{ball, shell, SPHERES};
use crate::subjects::{agreeing, vec3, Kind, Subject, Work};
use bounds::prepare::{prepare, Bound, Buffers, Lengths, Mesh};
use bounds::{BoundMaterial, Mat4, Vec3};
use compare::shapes::{rings, sheet};
use oracle::geometry::{self as reference, Geometry};
use oracle::polygon::{to_bytes, Polygon};
use std::hint::black_box;

const GRIDS: &[usize] = &[1_000, 10_000, 32_000];

const HOSTILE: &[usize] = &[1_000, 8_000];

pub fn all() -> Vec<Subject> {
    let row = |name, sizes, counted, work| Subject { kind: Kind::Prepare, name, sizes, counted, work };
    vec![
        row("prepare, kind 8, grid", GRIDS, &GRIDS[..2], |n, _| prepares(grid(n), n)),
        row("prepare, kind 8, one edge", HOSTILE, &[], |n, _| prepares(fan(n), n)),
        row("prepare, kind 8, equal triangles", HOSTILE, &[], |n, _| prepares(equal(n), n)),
        row("prepare, kind 8, one vertex no number", HOSTILE, &[], |n, _| prepares(one_nan(n), n)),
        row("prepare, kind 8, chain", HOSTILE, &[], |n, _| prepares(chain(n), n)),
        row("prepare, kind 4, sphere", SPHERES, &SPHERES[..1], |n, _| prepares(ball(n).geometry(4, 0.04), n)),
        row("prepare, kind 4, thin shell", &[200, 2_048], &[], |n, _| prepares(shell(n), n)),
        row("prepare, kind 4, one bad triangle", &[200], &[], |n, _| {
            let mut mesh = rings(n);
            mesh.triangles.push([0, 1, n]);
            prepares(mesh.geometry(4, 0.5), n)
        }),
    ]
}

/// So many triangles of a square that is not flat, with eight materials.
fn grid(triangles: usize) -> Geometry {
    let cells = (1..).find(|c| 2 * c * c >= triangles).expect("a square is large enough");
    let mut mesh = sheet(cells);
    mesh.triangles.truncate(triangles);
    mesh.vertices.iter_mut().for_each(|v| v[2] = (v[0] * 0.1).sin() + (v[1] * 0.3).cos());
    let mut geometry = mesh.geometry(8, 0.04);
    geometry.materials = (0..8).map(|i| (i, 1)).collect();
    for (i, p) in geometry.polygons.iter_mut().enumerate() {
        if let Polygon::Triangle { material, .. } = p {
            *material = (i / 50 % 8) as u8;
        }
    }
    geometry
}

/// All around one edge.
fn fan(triangles: usize) -> Geometry {
    let mut geometry = grid(triangles);
    for (i, p) in geometry.polygons.iter_mut().enumerate() {
        if let Polygon::Triangle { v, .. } = p {
            *v = [0, 1, (i % 400 + 2) as u16];
        }
    }
    geometry
}

/// All the same triangle: no split of their boxes parts them.
fn equal(triangles: usize) -> Geometry {
    let mut geometry = grid(triangles);
    for p in &mut geometry.polygons {
        if let Polygon::Triangle { v, .. } = p {
            *v = [0, 1, 2];
        }
    }
    geometry
}

/// A grid in which a vertex has no x.
fn one_nan(triangles: usize) -> Geometry {
    let mut geometry = grid(triangles);
    let middle = geometry.vertices.len() / 2;
    geometry.vertices[middle][0] = f32::NAN;
    geometry
}

/// Spheres each three times as far out as the one before, 160 times over: a split parts few of them, and the tree is deep.
fn chain(spheres: usize) -> Geometry {
    let mut geometry = grid(spheres);
    let far = |i: usize| 3f32.powi((i % 160) as i32 - 80);
    geometry.vertices.iter_mut().enumerate().for_each(|(i, v)| *v = [far(i), 0.0, 0.0]);
    let vertices = geometry.vertices.len();
    for (i, p) in geometry.polygons.iter_mut().enumerate() {
        *p = Polygon::Sphere { material: (i % 8) as u8, index: (i % vertices) as u16, radius: 0.0 };
    }
    geometry
}

/// Ours in buffers that are lent again and again, from records to bytes; theirs of a copy of the geometry, since it prepares
/// in place, into lists that it makes anew and that are not yet bytes.
fn prepares(g: Geometry, units: usize) -> Work {
    let bound = Bound {
        kind: g.kind as u32,
        box_min: vec3(g.box_min),
        box_max: vec3(g.box_max),
        box_center: vec3(g.box_center),
        sphere_center: vec3(g.sphere_center),
        sphere_radius: g.sphere_radius,
        margin: g.margin,
        center_geom: vec3(g.center_geom),
        transform: Mat4(g.transform),
    };
    let vertices: Vec<Vec3> = g.vertices.iter().copied().map(vec3).collect();
    let materials: Vec<_> = g.materials.iter().map(|&(data1, data2)| BoundMaterial { data1, data2 }).collect();
    let polygons: Vec<u8> = g.polygons.iter().flat_map(|&p| to_bytes(p)).collect();
    let number = |p: &Polygon| match p {
        Polygon::Triangle { material, .. } | Polygon::Sphere { material, .. } => *material,
        _ => 0,
    };
    let numbers: Vec<u8> = g.polygons.iter().map(number).collect();
    let of = Lengths::of(numbers.len(), vertices.len());
    let (mut list, mut indices, mut records) = (vec![0; of.materials], vec![0; of.indices], vec![0; of.polygons]);
    let (mut stored, mut floats) = (vec![0; of.vertices], vec![Vec3::ZERO; of.floats]);
    let (mut shrunk, mut shrunk_floats) = (vec![0; of.shrunk], vec![Vec3::ZERO; of.shrunk_floats]);
    let (mut octants, mut nodes, mut trees) = (vec![0; of.octants], vec![0; of.node_bytes], vec![0; of.tree_bytes]);
    let (mut order, mut work) = (vec![0; of.order], vec![0; of.work]);
    let ours = move || {
        let mesh = Mesh {
            bound,
            polygon_count: numbers.len(),
            polygons: &polygons,
            numbers: &numbers,
            materials: &materials,
            vertices: black_box(&vertices),
        };
        let to = Buffers {
            materials: &mut list,
            indices: &mut indices,
            polygons: black_box(&mut records),
            vertices: &mut stored,
            floats: &mut floats,
            shrunk: &mut shrunk,
            shrunk_floats: &mut shrunk_floats,
            octants: &mut octants,
            node_bytes: &mut nodes,
            tree_bytes: &mut trees,
            order: &mut order,
            work: &mut work,
        };
        let values = prepare(&mesh, to).expect("within the limits");
        let nodes = values.built.map_or(0, |built| built.nodes_count as usize);
        values.materials_count + values.octants.iter().sum::<usize>() + nodes
    };
    agreeing(ours, reference::preparer(&g), units)
}
