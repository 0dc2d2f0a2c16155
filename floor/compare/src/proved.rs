//! The library's side of a geometry's and a composite's steps: where it has two ways to an answer, both, which have to give
//! the same.

use crate::composites;
use crate::lent::Lent;
use crate::operation::{made3, made6};
use crate::polygons::Sides;
use crate::{prepare, shrink};
use bounds::composite::{child_boxes, composite_tree};
use bounds::geometry::{edges_work_len, update_edge_indices, RECORD};
use bounds::octants::{calculate_octants, calculate_octants_in};
use bounds::prepare::{Bound, Buffers, Mesh, Values};
use bounds::shrink::{calculate_verts_shrunk, calculate_verts_shrunk_in};
use bounds::{Child, Octants, Polygon, Refusal, ShrinkBound, ShrunkBy, Vec3};
use oracle::polygon::LIMIT;
use oracle::Aabb;

pub const POLYGON: Sides = Sides { read: Polygon::read, write, bbox };

/// Into lent bytes, and as bytes of its own.
fn write(out: &mut [u8], polygon: Polygon) -> Result<(), Refusal> {
    polygon.write_to(out)?;
    assert_eq!(out[..RECORD], polygon.to_bytes());
    Ok(())
}

/// By its kind, and by the struct of C; bit by bit but for a NaN.
fn bbox(polygon: Polygon, vertices: &[Vec3]) -> Aabb {
    let (min, max) = polygon.bbox(vertices);
    let by_struct = polygon.bbox_by_struct(vertices);
    assert_eq!(made6(min, max), made6(by_struct.0, by_struct.1));
    Aabb { min, max }
}

/// In a work buffer of just the length that is asked for, of any contents.
pub fn links(records: &mut [u8], n: usize) -> Result<(), Refusal> {
    let mut work = Lent::<u32>::new(edges_work_len(n.min(LIMIT)), n as u64);
    let answer = update_edge_indices(records, n, work.buffer());
    work.check_guards().expect("nothing past the work buffer is touched");
    answer
}

/// In lent buffers, and of a few points in buffers of its own.
pub fn octants(points: &[Vec3], lists: &mut [u32], work: &mut [u32]) -> Result<[usize; 8], Refusal> {
    let counts = calculate_octants_in(points, lists, work)?;
    let n = points.len();
    if n < 6 {
        let items = std::array::from_fn(|k| lists[k * n..k * n + counts[k]].to_vec());
        assert_eq!(calculate_octants(points), Ok(Octants { items }));
    }
    Ok(counts)
}

/// Into lent bytes, and as bytes of its own.
pub fn octant_bytes(octants: &Octants, address: u64, out: &mut [u8]) -> Result<(), Refusal> {
    octants.write_to(address, out)?;
    assert_eq!(octants.write(address).as_deref(), Ok(&out[..octants.length()]));
    Ok(())
}

/// In lent buffers, and of a few polygons in buffers of its own.
pub fn shrink(case: &shrink::Case, points: &mut [Vec3], work: &mut [u32]) -> Result<ShrunkBy, Refusal> {
    let (bound, vertices) = (ShrinkBound::of(&case.geometry), &case.geometry.vertices);
    let by = calculate_verts_shrunk_in(&bound, &case.records, case.count, vertices, points, work)?;
    if case.count < 6 {
        let owned = calculate_verts_shrunk(&bound, &case.records, case.count, vertices).expect("not refused before");
        let bits = |points: &[Vec3]| points.iter().copied().map(made3).collect::<Vec<_>>();
        assert_eq!((owned.by, bits(&owned.vertices)), (by, bits(&points[..vertices.len()])));
    }
    Ok(by)
}

pub fn prepare(case: &prepare::Case, to: Buffers) -> Result<Values, Refusal> {
    let g = &case.geometry;
    let mesh = Mesh {
        bound: Bound::of(g),
        polygon_count: g.polygons.len(),
        polygons: &case.records,
        numbers: &case.numbers,
        materials: &g.materials,
        vertices: &g.vertices,
    };
    bounds::prepare::prepare(&mesh, to)
}

pub const COMPOSITE: composites::Sides =
    composites::Sides { boxes: child_boxes, computed: Child::computed_box, tree: composite_tree };
