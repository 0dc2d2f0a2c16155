//! Shrunk vertices: spheres, which pass with the first margin, and meshes that no or only a small margin passes for.

use crate::subjects::{agreeing, vec3, Kind, Subject, Work};
use bounds::shrink::{calculate_verts_shrunk_in, work_len, ShrinkBound};
use bounds::{Mat4, Vec3};
use compare::shapes::{rings, sheets, sphere, Mesh};
use oracle::geometry::{self as reference, summed, Geometry};
use oracle::polygon::to_bytes;
use std::hint::black_box;

/// Of 2 + k (k + 1) vertices.
pub const SPHERES: &[usize] = &[508, 1_982, 4_972];

pub fn all() -> Vec<Subject> {
    let row = |name, sizes, counted, work| Subject { kind: Kind::Shrink, name, sizes, counted, work };
    vec![
        row("shrink, sphere", SPHERES, &SPHERES[..1], |n, _| shrinks(ball(n).geometry(4, 0.04))),
        row("shrink, thin shell", &[200, 2_048], &[200], |n, _| shrinks(shell(n))),
        row("shrink, last vertices fail", &SPHERES[..2], &[], |n, _| shrinks(late(n).geometry(4, 0.04))),
        row("shrink, long rings", &[200], &[], |n, _| shrinks(rings(n).geometry(4, 0.5))),
        row("shrink, one bad triangle", &[200], &[], |n, _| {
            let mut mesh = rings(n);
            mesh.triangles.push([0, 1, n]);
            shrinks(mesh.geometry(4, 0.5))
        }),
    ]
}

/// A sphere of so many vertices, of radius 10.
pub fn ball(vertices: usize) -> Mesh {
    let k = (3..).find(|k| 2 + k * (k + 1) >= vertices).expect("a sphere is large enough");
    let mut mesh = sphere(k);
    mesh.vertices.iter_mut().flatten().for_each(|x| *x *= 10.0);
    mesh
}

/// A sphere, and last two squares that only a margin below 0.00001 keeps apart.
fn late(vertices: usize) -> Mesh {
    ball(vertices).and(sheets(1, 0.00001).moved([20.0, 0.0, 0.0]))
}

/// Two sheets 0.01 apart, of so many vertices, in a box that is not as thin.
pub fn shell(vertices: usize) -> Geometry {
    let cells = (1..).find(|c| 2 * (c + 1) * (c + 1) >= vertices).expect("a sheet is large enough");
    let mut geometry = sheets(cells, 0.01).geometry(4, 1.0);
    (geometry.box_min[2], geometry.box_max[2]) = (-2.0, 2.0);
    geometry
}

/// Ours in buffers that are lent again and again; theirs in lists that it makes anew. Both make the links.
fn shrinks(geometry: Geometry) -> Work {
    let g = &geometry;
    let bound = ShrinkBound {
        box_min: vec3(g.box_min),
        box_max: vec3(g.box_max),
        center_geom: vec3(g.center_geom),
        margin: g.margin,
        transform: Mat4(g.transform),
    };
    let vertices: Vec<Vec3> = g.vertices.iter().copied().map(vec3).collect();
    let records: Vec<u8> = g.polygons.iter().flat_map(|&p| to_bytes(p)).collect();
    let (p, v) = (g.polygons.len(), vertices.len());
    let (mut points, mut work) = (vec![Vec3::ZERO; v], vec![0; work_len(p, v)]);
    let ours = move || {
        let (points, vertices) = (black_box(&mut points), black_box(&vertices));
        calculate_verts_shrunk_in(&bound, &records, p, vertices, points, &mut work).expect("within the limits");
        summed(points.iter().map(|p| [p.x, p.y, p.z]))
    };
    agreeing(ours, reference::shrinker(&geometry), v)
}
