//! Prepare: grids of kind 8, which have a tree, spheres of kind 4, which shrink, and meshes made to be slow.

use crate::lists::square;
use crate::shrink::{ball, shell, SPHERES};
use crate::subjects::{agreeing, Kind, Subject, Work};
use bounds::prepare::{prepare, Bound, Buffers, Lengths, Mesh};
use bounds::{BoundMaterial, Geometry, Polygon, Vec3};
use compare::shapes::rings;
use oracle::geometry as reference;
use std::hint::black_box;

const GRIDS: &[usize] = &[1_000, 10_000, 32_000];

const HOSTILE: &[usize] = &[1_000, 8_000];

pub fn all() -> Vec<Subject> {
    let row = |name, sizes, counted, work| Subject { kind: Kind::Prepare, name, sizes, counted, work };
    vec![
        row("prepare, kind 8, grid", GRIDS, &GRIDS[..2], |n, _| prepares(grid(n), n)),
        row("prepare, kind 8, one edge", HOSTILE, &[], |n, _| prepares(fan(n), n)),
        row("prepare, kind 8, equal triangles", HOSTILE, &[], |n, _| prepares(equal(n), n)),
        row("prepare, kind 8, one vertex no number", HOSTILE, &[], |n, _| prepares(one_nan(n), n)),
        row("prepare, kind 8, chain", HOSTILE, &[], |n, _| prepares(chain(n), n)),
        row("prepare, kind 4, sphere", SPHERES, &SPHERES[..1], |n, _| prepares(ball(n).geometry(4, 0.04), n)),
        row("prepare, kind 4, thin shell", &[200, 2_048], &[], |n, _| prepares(shell(n), n)),
        row("prepare, kind 4, one bad triangle", &[200], &[], |n, _| {
            let mut mesh = rings(n);
            mesh.triangles.push([0, 1, n]);
            prepares(mesh.geometry(4, 0.5), n)
        }),
    ]
}

/// So many triangles of a square that is not flat, with eight materials.
pub fn grid(triangles: usize) -> Geometry {
    let mut mesh = square(triangles);
    mesh.vertices.iter_mut().for_each(|v| v[2] = (v[0] * 0.1).sin() + (v[1] * 0.3).cos());
    let mut geometry = mesh.geometry(8, 0.04);
    geometry.materials = (0..8).map(|i| BoundMaterial { data1: i, data2: 1 }).collect();
    for (i, p) in geometry.polygons.iter_mut().enumerate() {
        *p = p.with_material((i / 50 % 8) as u8);
    }
    geometry
}

/// The grid's triangles with other corners, by their numbers.
fn with_corners(triangles: usize, corners: impl Fn(usize) -> [u16; 3]) -> Geometry {
    let mut geometry = grid(triangles);
    for (i, p) in geometry.polygons.iter_mut().enumerate() {
        if let Polygon::Triangle { v, .. } = p {
            *v = corners(i);
        }
    }
    geometry
}

/// All around one edge.
fn fan(triangles: usize) -> Geometry {
    with_corners(triangles, |i| [0, 1, (i % 400 + 2) as u16])
}

/// All the same triangle: no split of their boxes parts them.
fn equal(triangles: usize) -> Geometry {
    with_corners(triangles, |_| [0, 1, 2])
}

/// A grid in which a vertex has no x.
fn one_nan(triangles: usize) -> Geometry {
    let mut geometry = grid(triangles);
    let middle = geometry.vertices.len() / 2;
    geometry.vertices[middle].x = f32::NAN;
    geometry
}

/// Spheres each three times as far out as the one before, 160 times over: a split parts few of them, and the tree is deep.
fn chain(spheres: usize) -> Geometry {
    let mut geometry = grid(spheres);
    let far = |i: usize| 3f32.powi((i % 160) as i32 - 80);
    geometry.vertices.iter_mut().enumerate().for_each(|(i, v)| *v = Vec3::new(far(i), 0.0, 0.0));
    let vertices = geometry.vertices.len();
    for (i, p) in geometry.polygons.iter_mut().enumerate() {
        *p = Polygon::Sphere { material: (i % 8) as u8, index: (i % vertices) as u16, radius: 0.0 };
    }
    geometry
}

/// Ours in buffers that are lent again and again, from records to bytes; theirs of a copy of the geometry, since it prepares
/// in place, into lists that it makes anew and that are not yet bytes.
fn prepares(g: Geometry, units: usize) -> Work {
    let theirs = reference::preparer(&g);
    let polygons: Vec<u8> = g.polygons.iter().flat_map(Polygon::to_bytes).collect();
    let numbers: Vec<u8> = g.polygons.iter().map(Polygon::material).collect();
    let of = Lengths::of(numbers.len(), g.vertices.len());
    let (mut list, mut indices, mut records) = (vec![0; of.materials], vec![0; of.indices], vec![0; of.polygons]);
    let (mut stored, mut floats) = (vec![0; of.vertices], vec![Vec3::ZERO; of.floats]);
    let (mut shrunk, mut shrunk_floats) = (vec![0; of.shrunk], vec![Vec3::ZERO; of.shrunk_floats]);
    let (mut octants, mut nodes, mut trees) = (vec![0; of.octants], vec![0; of.node_bytes], vec![0; of.tree_bytes]);
    let (mut order, mut work) = (vec![0; of.order], vec![0; of.work]);
    let ours = move || {
        let mesh = Mesh {
            bound: Bound::of(&g),
            polygon_count: numbers.len(),
            polygons: &polygons,
            numbers: &numbers,
            materials: &g.materials,
            vertices: black_box(&g.vertices),
        };
        let to = Buffers {
            materials: &mut list,
            indices: &mut indices,
            polygons: black_box(&mut records),
            vertices: &mut stored,
            floats: &mut floats,
            shrunk: &mut shrunk,
            shrunk_floats: &mut shrunk_floats,
            octants: &mut octants,
            node_bytes: &mut nodes,
            tree_bytes: &mut trees,
            order: &mut order,
            work: &mut work,
        };
        let values = prepare(&mesh, to).expect("within the limits");
        let nodes = values.built.map_or(0, |built| built.nodes_count as usize);
        values.materials_count + values.octants.iter().sum::<usize>() + nodes
    };
    agreeing(ours, theirs, units)
}
