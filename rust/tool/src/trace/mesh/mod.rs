//! A mesh prepared again, in plain Rust and step by step, so that each step can be shown. What is derived comes from the
//! proved library; this must reach the same bytes, and what does not is not explained.

pub mod links;
pub mod materials;
pub mod octants;
pub mod points;
pub mod polygon;
pub mod shrink;

use super::scale::corner;
use super::Trace;
use crate::boxes::entry;
use crate::field::mesh::{Derived, MeshField};
use crate::field::Value;
use bounds::prepare::{Prepared, Quantised};
use bounds::{BoundMaterial, BoundVertex, BvhItem, Geometry, Octants, Polygon};
use links::Links;
use materials::Materials;
use points::{length, placed, point, sub, vec3, Point};
use shrink::Shrinking;

/// K2: the most polygons of a leaf.
pub const THRESHOLD: usize = 4;

/// K1 and G11: where the vertices of a mesh stand, and the boxes of its polygons. Of kind 4 there are none.
#[derive(Clone, Debug, Default)]
pub struct Standing {
    pub points: Vec<Point>,
    pub items: Vec<BvhItem>,
}

impl Standing {
    pub fn of(of: &Geometry) -> Standing {
        if of.kind != Geometry::BVH || of.polygons.is_empty() {
            return Standing::default();
        }
        let center = point(of.center_geom);
        let points: Vec<Point> = of.vertices.iter().map(|&v| placed(point(v), center, &of.transform)).collect();
        let item = |polygon: &Polygon| entry(1, polygon::bbox(polygon, &points).map(f32::to_bits));
        let items = of.polygons.iter().map(item).collect();
        Standing { points, items }
    }
}

/// The preparing of a mesh that the library prepared.
pub struct MeshTrace<'a> {
    pub of: &'a Geometry,
    pub standing: &'a Standing,
    /// K2: of kind 8 with polygons.
    pub tree: Option<Trace<'a>>,
    /// Of each polygon of the prepared list its place among those that were given.
    pub order: Vec<usize>,
    /// K3: of each that was given its place in the prepared list.
    pub places: Vec<usize>,
    /// Of the prepared list.
    pub links: Links,
    /// Of the prepared list.
    pub materials: Materials,
    /// Of kind 4 with vertices.
    pub shrinking: Option<Shrinking>,
    /// What it all comes to, but for the tree.
    pub prepared: Prepared,
}

impl<'a> MeshTrace<'a> {
    /// Follows the preparing of a mesh, its vertices and polygons standing so.
    pub fn of(of: &'a Geometry, standing: &'a Standing) -> MeshTrace<'a> {
        let tree = (!standing.items.is_empty()).then(|| Trace::of(&standing.items, THRESHOLD));
        let order = tree.as_ref().map_or_else(|| (0..of.polygons.len()).collect(), |tree| tree.order.clone());
        let mut places = vec![0; order.len()];
        order.iter().enumerate().for_each(|(new, &old)| places[old] = new);
        let polygons = || order.iter().map(|&old: &usize| &of.polygons[old]);
        let links = Links::of(polygons());
        let materials = Materials::of(&of.materials, polygons());
        let shrinks = of.kind == Geometry::PLAIN && !of.vertices.is_empty();
        let shrinking = shrinks.then(|| Shrinking::of(of, &links));
        let records = polygons().zip(&links.links).flat_map(|(polygon, &links)| polygon::record(polygon, links));
        let mut prepared = framed(of, tree.as_ref());
        prepared.polygons = records.collect();
        prepared.materials = materials.list.clone();
        prepared.materials.resize(materials.list.len().max(4), BoundMaterial::default());
        prepared.materials_count = materials.list.len();
        prepared.polygon_material_indices = materials.indices.clone();
        let quantum = point(prepared.quantum);
        prepared.vertices = stored(of.vertices.iter().map(|&v| point(v)), quantum);
        prepared.vertices_shrunk =
            shrinking.as_ref().map(|shrinking| stored(shrinking.points.iter().copied(), quantum));
        let points: &[Point] = shrinking.as_ref().map_or(&[], |shrinking| &shrinking.points);
        let lists = || std::array::from_fn(|direction| octants::list(direction, points));
        prepared.octants = (of.kind == Geometry::PLAIN).then(|| Octants { items: lists() });
        MeshTrace { of, standing, tree, order, places, links, materials, shrinking, prepared }
    }

    /// A polygon of the prepared list as it was given.
    pub fn polygon(&self, k: usize) -> &'a Polygon {
        &self.of.polygons[self.order[k]]
    }

    /// The bytes of a field as the trace makes them; none for an address, which no mesh gives, or a field that is not there.
    pub fn bytes(&self, field: MeshField) -> Option<Vec<u8>> {
        match field {
            MeshField::Tree(field) => self.tree.as_ref()?.bytes(field),
            _ => field.raw(&Derived { prepared: &self.prepared, tree: None }),
        }
    }

    /// Whether the trace reaches a field's bytes; an address is given, and of a made NaN any bits will do.
    pub fn reaches(&self, field: MeshField, derived: &Derived) -> bool {
        let Some(found) = field.raw(derived) else { return false };
        let Some(made) = self.bytes(field) else { return field.is_given() };
        let nan = |raw: &[u8]| matches!(field.value_of(raw), Value::Word(w) if f32::from_bits(w).is_nan());
        made == found || field.is_made(self.tree.is_some()) && nan(&made) && nan(&found)
    }
}

/// K5: box, centres and radius as given, or the tree's, and Q1: the quantum of that box.
fn framed(of: &Geometry, tree: Option<&Trace>) -> Prepared {
    let mut frame = Prepared {
        quantum: of.box_min,
        box_min: of.box_min,
        box_max: of.box_max,
        box_center: of.box_center,
        sphere_center: of.sphere_center,
        sphere_radius: of.sphere_radius,
        polygons: Vec::new(),
        materials: Vec::new(),
        materials_count: 0,
        polygon_material_indices: Vec::new(),
        vertices: Quantised::default(),
        vertices_shrunk: None,
        octants: None,
        bvh: None,
    };
    if let Some(tree) = tree {
        let corner = |from: usize| vec3(std::array::from_fn(|axis| f32::from_bits(tree.all[from + axis])));
        (frame.box_min, frame.box_max) = (corner(0), corner(3));
        frame.box_center = vec3(tree.scales.map(|scale| scale.cen));
        frame.sphere_center = frame.box_center;
        frame.sphere_radius = length(sub(point(frame.box_max), point(frame.box_center)));
    }
    let (min, max) = (point(frame.box_min), point(frame.box_max));
    frame.quantum = vec3(std::array::from_fn(|axis| quantum(min[axis], max[axis])));
    frame
}

/// Q1: half the box in 32,767 parts.
pub fn quantum(min: f32, max: f32) -> f32 {
    (max - min) * 0.5 / 32_767.0
}

/// Q2 and Q3: as they are stored, and the points that these stand for.
fn stored(points: impl Iterator<Item = Point>, quantum: Point) -> Quantised {
    let one = |point: Point| -> [i16; 3] { std::array::from_fn(|axis| corner(point[axis] / quantum[axis])) };
    let all: Vec<[i16; 3]> = points.map(one).collect();
    Quantised {
        stored: all.iter().map(|&[x, y, z]| BoundVertex(x, y, z)).collect(),
        floats: all.iter().map(|v| vec3(std::array::from_fn(|axis| v[axis] as f32 * quantum[axis]))).collect(),
    }
}
