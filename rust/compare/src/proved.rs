//! The library's side of a geometry's and a composite's steps, in the comparison's own types.

use crate::composites;
use crate::lent::Lent;
use crate::operation::made;
use crate::polygons::Sides;
use crate::{prepare, shrink};
use bounds::composite::{child_boxes, composite_tree, Child};
use bounds::geometry::{self as library, BoundMaterial, BoundVertex};
use bounds::octants::{calculate_octants, calculate_octants_in, Octants};
use bounds::prepare::{Bound, Buffers, Mesh, Values};
use bounds::shrink::{calculate_verts_shrunk, calculate_verts_shrunk_in, ShrinkBound, ShrunkBy};
use bounds::{Mat4, Refusal};
use oracle::geometry::{By, Geometry};
use oracle::polygon::{Material, Polygon, LIMIT};
use oracle::{Aabb, Vec3};

pub const POLYGON: Sides = Sides { read, write, bbox };

fn ours(p: Polygon) -> library::Polygon {
    use library::Polygon as Ours;
    match p {
        Polygon::Triangle { material, area, v, links } => Ours::Triangle { material, area, v, edges: links },
        Polygon::Sphere { material, index, radius } => Ours::Sphere { material, index, radius },
        Polygon::Capsule { material, i1, i2, radius } => Ours::Capsule { material, i1, i2, radius },
        Polygon::Box { material, i } => Ours::Box { material, i },
        Polygon::Cylinder { material, i1, i2, radius } => Ours::Cylinder { material, i1, i2, radius },
    }
}

fn theirs(p: library::Polygon) -> Polygon {
    use library::Polygon as Ours;
    match p {
        Ours::Triangle { material, area, v, edges } => Polygon::Triangle { material, area, v, links: edges },
        Ours::Sphere { material, index, radius } => Polygon::Sphere { material, index, radius },
        Ours::Capsule { material, i1, i2, radius } => Polygon::Capsule { material, i1, i2, radius },
        Ours::Box { material, i } => Polygon::Box { material, i },
        Ours::Cylinder { material, i1, i2, radius } => Polygon::Cylinder { material, i1, i2, radius },
    }
}

pub(crate) fn point([x, y, z]: Vec3) -> bounds::Vec3 {
    bounds::Vec3::new(x, y, z)
}

fn coordinates(p: bounds::Vec3) -> Vec3 {
    [p.x, p.y, p.z]
}

pub fn read(bytes: &[u8]) -> Result<Polygon, u32> {
    library::Polygon::read(bytes).map(theirs).map_err(Refusal::number)
}

/// Where there is room, both ways of writing have to give the same.
pub fn write(out: &mut [u8], polygon: Polygon) -> Result<(), u32> {
    ours(polygon).write_to(out).map_err(Refusal::number)?;
    assert_eq!(out[..library::RECORD], ours(polygon).to_bytes());
    Ok(())
}

/// Both ways to a box have to give the same, bit by bit but for a NaN.
pub fn bbox(polygon: Polygon, vertices: &[Vec3]) -> Aabb {
    let vertices: Vec<bounds::Vec3> = vertices.iter().copied().map(point).collect();
    let whole = |(min, max)| Aabb { min: coordinates(min), max: coordinates(max) };
    let words = |b: &Aabb| {
        [b.min, b.max]
            .concat()
            .into_iter()
            .map(|f| if f.is_nan() { f32::NAN } else { f }.to_bits())
            .collect::<Vec<u32>>()
    };
    let found = whole(ours(polygon).bbox(&vertices));
    assert_eq!(words(&found), words(&whole(ours(polygon).bbox_by_struct(&vertices))));
    found
}

/// Items as words, seven each.
pub fn items(records: &[u8], n: usize, vertices: &[Vec3], words: &mut [u32]) -> Result<(), u32> {
    let vertices: Vec<bounds::Vec3> = vertices.iter().copied().map(point).collect();
    let vector = |w: &[u32]| point([w[0], w[1], w[2]].map(f32::from_bits));
    let item = |w: &[u32]| bounds::BvhItem { present: w[0], min: vector(&w[1..]), max: vector(&w[4..]) };
    let mut items: Vec<bounds::BvhItem> = words.chunks_exact(7).map(item).collect();
    let answer = library::polygon_items(records, n, &vertices, &mut items).map_err(Refusal::number);
    for (out, item) in words.chunks_exact_mut(7).zip(items) {
        let ([a, b, c], [d, e, f]) = (coordinates(item.min).map(f32::to_bits), coordinates(item.max).map(f32::to_bits));
        out.copy_from_slice(&[item.present, a, b, c, d, e, f]);
    }
    answer
}

pub fn materials(numbers: &[u8], given: &[Material], list: &mut [u8], indices: &mut [u8]) -> Result<usize, u32> {
    library::build_materials(numbers, &self::given(given), list, indices).map_err(Refusal::number)
}

/// In a work buffer of just the length that is asked for, of any contents.
pub fn links(records: &mut [u8], n: usize) -> Result<(), u32> {
    let mut work = Lent::<u32>::new(library::edges_work_len(n.min(LIMIT)), n as u64);
    let answer = library::update_edge_indices(records, n, work.buffer()).map_err(Refusal::number);
    work.check_guards().expect("nothing past the work buffer is touched");
    answer
}

pub fn quantum(b: Aabb) -> Vec3 {
    coordinates(library::calculate_quantum(point(b.min), point(b.max)))
}

pub fn stored(v: Vec3, quantum: Vec3) -> [i16; 3] {
    let BoundVertex(x, y, z) = BoundVertex::from_vec(point(v), point(quantum));
    [x, y, z]
}

pub fn read_back([x, y, z]: [i16; 3], quantum: Vec3) -> Vec3 {
    coordinates(BoundVertex(x, y, z).to_vec(point(quantum)))
}

/// Of a few points the lists in buffers of their own have to be the same.
pub fn octants(points: &[Vec3], lists: &mut [u32], work: &mut [u32]) -> Result<[usize; 8], u32> {
    let points: Vec<bounds::Vec3> = points.iter().copied().map(point).collect();
    let counts = calculate_octants_in(&points, lists, work).map_err(Refusal::number)?;
    let n = points.len();
    if n < 6 {
        let items = std::array::from_fn(|k| lists[k * n..k * n + counts[k]].to_vec());
        assert_eq!(calculate_octants(&points), Ok(Octants { items }));
    }
    Ok(counts)
}

/// Where there is room, both ways of writing have to give the same.
pub fn octant_bytes(lists: &[Vec<u32>; 8], address: u64, out: &mut [u8]) -> Result<(), u32> {
    let octants = Octants { items: lists.clone() };
    octants.write_to(address, out).map_err(Refusal::number)?;
    assert_eq!(octants.write(address).as_deref(), Ok(&out[..octants.length()]));
    Ok(())
}

/// Of a few polygons the vertices in buffers of their own have to be the same.
pub fn shrink(case: &shrink::Case, points: &mut [bounds::Vec3], work: &mut [u32]) -> Result<By, u32> {
    let g = &case.geometry;
    let bound = ShrinkBound {
        box_min: point(g.box_min),
        box_max: point(g.box_max),
        center_geom: point(g.center_geom),
        margin: g.margin,
        transform: Mat4(g.transform),
    };
    let vertices: Vec<bounds::Vec3> = g.vertices.iter().copied().map(point).collect();
    let by = calculate_verts_shrunk_in(&bound, &case.records, case.count, &vertices, points, work);
    let by = by.map_err(Refusal::number)?;
    if case.count < 6 {
        let owned = calculate_verts_shrunk(&bound, &case.records, case.count, &vertices).expect("not refused before");
        let bits = |points: &[bounds::Vec3]| points.iter().map(|&p| coordinates(p).map(made)).collect::<Vec<_>>();
        assert_eq!((owned.by, bits(&owned.vertices)), (by, bits(&points[..vertices.len()])));
    }
    Ok(match by {
        ShrunkBy::Margin(margin) => By::Margin(margin),
        ShrunkBy::Normals => By::Normals,
        ShrunkBy::NoVertices => By::NoVertices,
    })
}

fn given(materials: &[Material]) -> Vec<BoundMaterial> {
    materials.iter().map(|&(data1, data2)| BoundMaterial { data1, data2 }).collect()
}

pub fn prepare(case: &prepare::Case, to: Buffers) -> Result<Values, u32> {
    let g = &case.geometry;
    let bound = Bound {
        kind: g.kind as u32,
        box_min: point(g.box_min),
        box_max: point(g.box_max),
        box_center: point(g.box_center),
        sphere_center: point(g.sphere_center),
        sphere_radius: g.sphere_radius,
        margin: g.margin,
        center_geom: point(g.center_geom),
        transform: Mat4(g.transform),
    };
    let vertices: Vec<bounds::Vec3> = g.vertices.iter().copied().map(point).collect();
    let mesh = Mesh {
        bound,
        polygon_count: g.polygons.len(),
        polygons: &case.records,
        numbers: &case.numbers,
        materials: &given(&g.materials),
        vertices: &vertices,
    };
    bounds::prepare::prepare(&mesh, to).map_err(Refusal::number)
}

pub fn prepare_whole(g: &Geometry) -> Result<bounds::Prepared, u32> {
    let geometry = bounds::Geometry {
        kind: g.kind,
        box_min: point(g.box_min),
        box_max: point(g.box_max),
        box_center: point(g.box_center),
        sphere_center: point(g.sphere_center),
        sphere_radius: g.sphere_radius,
        margin: g.margin,
        center_geom: point(g.center_geom),
        transform: Mat4(g.transform),
        vertices: g.vertices.iter().copied().map(point).collect(),
        polygons: g.polygons.iter().copied().map(ours).collect(),
        materials: given(&g.materials),
    };
    geometry.prepare().map_err(Refusal::number)
}

pub const COMPOSITE: composites::Sides = composites::Sides {
    boxes: |children, out| child_boxes(children, out).map_err(Refusal::number),
    computed: Child::computed_box,
    tree: |children, nodes, trees, order, work| {
        composite_tree(children, nodes, trees, order, work).map_err(Refusal::number)
    },
};
