//! The first cause of each field that differs.

use super::input::Changes;
use super::{words, MeshSide, NOUN};
use crate::diff::causes::{by_cause, Cause, Caused, Finder};
use crate::field::mesh::{on, Centre, InPolygon, MeshField};
use crate::field::{Field, InRecord, AXES};
use crate::mesh::Mesh;
use crate::rules::Rule::{self, *};
use bounds::premises::{Axis, Corner};
use plain::links::edge;
use plain::materials::material_of;
use plain::polygon::corners;
use std::collections::BTreeSet;

/// Why a field differs, first things first.
#[derive(Clone, Copy, Debug, PartialEq, Eq, PartialOrd, Ord)]
pub enum MeshCause {
    /// The bytes of one are not what its input gives.
    Bytes,
    /// Kind 4 and kind 8.
    Kind,
    /// How many polygons there are.
    Polygons,
    /// How many vertices there are.
    Vertices,
    /// The box as it was given, on an axis.
    Box(usize),
    /// Centres and radius as they were given.
    Frame,
    /// Of the tree over the polygons, which gives the box, the centres, the radius and the order.
    Tree(Cause),
    /// Which axis of the .obj is up.
    Up,
    /// Vertices as they were given.
    Vertex,
    /// Vertices that both .objs have alike, about another centre.
    Centre,
    /// Polygons as they were given.
    Polygon,
    /// Which sides lie on an edge.
    Edges,
    /// The materials that polygons name.
    Material,
    /// The margin by which vertices are moved, or that none passes.
    Margin,
    /// What lies around a vertex that is moved.
    Around,
    /// None of these: said as such, and never met on random pairs.
    Unknown,
}

/// A cause with the fields that it explains, and what there is to say of it.
pub type MeshCaused = Caused<MeshCause, MeshField>;

/// The causes of the fields that differ, in their order.
pub fn causes(sides: &[MeshSide; 2], tree: Option<Finder>, fields: &[MeshField], changes: &Changes) -> Vec<MeshCaused> {
    let finder = MeshFinder::of(sides, tree);
    let named = |cause: MeshCause| (cause.title(), cause.rules());
    by_cause(fields, |field| finder.cause(field), named, |cause, fields| words::lines(&finder, changes, cause, fields))
}

/// Finds the cause of a field.
pub struct MeshFinder<'a> {
    pub sides: &'a [MeshSide<'a>; 2],
    pub tree: Option<Finder<'a>>,
    /// Whether each polygon that both have names the same material.
    same_materials: bool,
    /// The first place of the prepared lists that has another given polygon.
    other_order: Option<usize>,
}

/// Whether two floats are the same, or each some NaN.
fn same(a: f32, b: f32) -> bool {
    a.to_bits() == b.to_bits() || a.is_nan() && b.is_nan()
}

/// Whether both are of .objs that have the same number for a vertex' axis.
pub fn same_written(sides: &[MeshSide; 2], k: usize, axis: Axis) -> bool {
    let [Some(a), Some(b)] = [0, 1].map(|side: usize| sides[side].folder.mesh.as_ref()) else { return false };
    let written = |mesh: &Mesh| {
        let &v = mesh.origin.given.get(k)?;
        Some(on(mesh.origin.up.turned(v), axis).to_bits())
    };
    a.is_obj() && b.is_obj() && written(a).is_some() && written(a) == written(b)
}

impl<'a> MeshFinder<'a> {
    fn of(sides: &'a [MeshSide<'a>; 2], tree: Option<Finder<'a>>) -> MeshFinder<'a> {
        let [a, b] = [&sides[0].trace, &sides[1].trace];
        let mut pairs = a.of.polygons.iter().zip(&b.of.polygons);
        let same_materials =
            pairs.all(|(one, two)| material_of(&a.of.materials, one) == material_of(&b.of.materials, two));
        let other_order = a.order.iter().zip(&b.order).position(|(one, two)| one != two);
        MeshFinder { sides, tree, same_materials, other_order }
    }

    pub fn cause(&self, field: MeshField) -> MeshCause {
        if self.sides.iter().any(|side| side.account.differs(field)) {
            return MeshCause::Bytes;
        }
        match field {
            MeshField::Quantum(axis) | MeshField::Box(_, axis) => self.scale(axis),
            MeshField::Centre(Centre::Geom, _) => MeshCause::Frame,
            MeshField::Centre(_, axis) => self.frame(axis as usize, MeshCause::Frame),
            MeshField::Radius => self.frame(self.scaled_axis(), MeshCause::Frame),
            MeshField::Polygon(k, at) => self.polygon(k, at),
            MeshField::PolygonBox(k, corner, axis) => self.polygon_box(k, 3 * corner as usize + axis as usize),
            MeshField::MaterialCount | MeshField::Material(_) => self.materials(),
            MeshField::MaterialIndex(k) => self.material_index(k),
            MeshField::Vertex(k, axis) | MeshField::VertexFloat(k, axis) => self.vertex(k, axis),
            MeshField::Shrunk(k, axis) | MeshField::ShrunkFloat(k, axis) => self.shrunk(k, axis),
            MeshField::OctantCount(_) | MeshField::Octant(..) => self.octants(),
            MeshField::Tree(field) => self.of_tree(field),
        }
    }

    fn kinds_differ(&self) -> bool {
        self.sides[0].trace.of.kind != self.sides[1].trace.of.kind
    }

    /// Where a list has another length, or only one has it.
    fn lists(&self, otherwise: MeshCause) -> MeshCause {
        if self.kinds_differ() {
            MeshCause::Kind
        } else {
            otherwise
        }
    }

    fn of_tree(&self, field: Field) -> MeshCause {
        match &self.tree {
            Some(tree) => match tree.cause(field) {
                Cause::Own(_) if self.centred_elsewhere(field) => MeshCause::Centre,
                cause => MeshCause::Tree(cause),
            },
            None => self.lists(MeshCause::Polygons),
        }
    }

    /// Whether a value of a node's box is of a triangle that both .objs have alike: about another centre it was rounded otherwise.
    fn centred_elsewhere(&self, field: Field) -> bool {
        let written = |side: &MeshSide| {
            let tree = side.trace.tree.as_ref()?;
            let (node, at) = match field {
                Field::Node(k, at) => (k, at),
                Field::Tree(k, at) => (tree.ranges.get(k)?.0, at),
                _ => return None,
            };
            let InRecord::Box(corner, axis) = at else { return None };
            let corners = corners(&side.trace.of.polygons[tree.source(node, corner, axis)?])?;
            let origin = &side.folder.mesh.as_ref()?.origin;
            let value = |k: usize| Some(on(origin.up.turned(*origin.given.get(k)?), axis));
            let values = corners.iter().map(|&k| value(k)).collect::<Option<Vec<f32>>>()?;
            let least = |least: f32, x: &f32| if corner == Corner::Min { least.min(*x) } else { least.max(*x) };
            Some(values[1..].iter().fold(values[0], least))
        };
        let [a, b] = [0, 1].map(|side: usize| written(&self.sides[side]));
        let files = self.sides.iter().all(|side| side.folder.mesh.as_ref().is_some_and(Mesh::is_obj));
        files && a.is_some() && a.map(f32::to_bits) == b.map(f32::to_bits)
    }

    /// A word of the frame: the tree's, or as it was given.
    fn frame(&self, axis: usize, given: MeshCause) -> MeshCause {
        match self.sides.iter().filter(|side| side.trace.tree.is_some()).count() {
            0 => given,
            1 => self.lists(MeshCause::Polygons),
            _ => MeshCause::Tree(Cause::Scale(axis)),
        }
    }

    fn scale(&self, axis: Axis) -> MeshCause {
        self.frame(axis as usize, MeshCause::Box(axis as usize))
    }

    /// The first axis on which the trees' boxes differ.
    fn scaled_axis(&self) -> usize {
        let [a, b] = [&self.sides[0].trace.prepared, &self.sides[1].trace.prepared];
        let differs = |axis: &Axis| {
            !same(on(a.box_min, *axis), on(b.box_min, *axis)) || !same(on(a.box_max, *axis), on(b.box_max, *axis))
        };
        AXES.into_iter().find(differs).map_or(0, |axis| axis as usize)
    }

    /// Why a place has another polygon.
    fn order(&self, k: usize) -> MeshCause {
        match &self.tree {
            Some(tree) => MeshCause::Tree(tree.cause(Field::Order(k))),
            None => self.lists(MeshCause::Polygons),
        }
    }

    fn polygon(&self, k: usize, at: InPolygon) -> MeshCause {
        let [a, b] = [0, 1].map(|side: usize| self.sides[side].trace.order.get(k).copied());
        match (a, b) {
            (None, _) | (_, None) => MeshCause::Polygons,
            (Some(one), Some(two)) if one != two => self.order(k),
            _ => match at {
                InPolygon::Link(slot) => self.link(k, slot),
                _ => MeshCause::Polygon,
            },
        }
    }

    /// A value of a box: of another polygon, or the polygon's own.
    fn polygon_box(&self, k: usize, value: usize) -> MeshCause {
        match [0, 1].map(|side: usize| self.sides[side].trace.order.get(k).copied()) {
            _ if self.tree.is_none() => self.lists(MeshCause::Polygons),
            [Some(one), Some(two)] if one == two => MeshCause::Tree(Cause::Own(value)),
            [Some(_), Some(_)] => self.order(k),
            _ => MeshCause::Polygons,
        }
    }

    /// A link of one polygon at one place: it has other corners, its edge other sides, or these are at other places.
    fn link(&self, k: usize, slot: usize) -> MeshCause {
        let of = |side: &MeshSide| corners(side.trace.polygon(k));
        let (Some(one), Some(two)) = (of(&self.sides[0]), of(&self.sides[1])) else { return MeshCause::Polygon };
        if one != two {
            return MeshCause::Polygon;
        }
        let edge = edge(one, slot);
        let given = |side: &MeshSide| {
            let sides = side.trace.links.on(edge).iter();
            sides.map(|at| (side.trace.order[at.polygon], at.slot)).collect::<BTreeSet<_>>()
        };
        if given(&self.sides[0]) != given(&self.sides[1]) {
            return MeshCause::Edges;
        }
        let [a, b] = [&self.sides[0].trace.order, &self.sides[1].trace.order];
        let moved = self.sides[0].trace.links.on(edge).iter().find(|at| b.get(at.polygon) != a.get(at.polygon));
        moved.map_or(MeshCause::Unknown, |at| self.order(at.polygon))
    }

    fn materials(&self) -> MeshCause {
        let [a, b] = [0, 1].map(|side: usize| self.sides[side].trace.of.polygons.len());
        match (self.same_materials, self.other_order) {
            (false, _) => MeshCause::Material,
            _ if a != b => MeshCause::Polygons,
            (_, Some(k)) => self.order(k),
            _ => MeshCause::Unknown,
        }
    }

    fn material_index(&self, k: usize) -> MeshCause {
        let [a, b] = [0, 1].map(|side: usize| self.sides[side].trace.order.get(k).copied());
        match (a, b) {
            (None, _) | (_, None) => MeshCause::Polygons,
            (Some(one), Some(two)) if one != two => self.order(k),
            _ => self.materials(),
        }
    }

    fn vertex(&self, k: usize, axis: Axis) -> MeshCause {
        let given = |side: &MeshSide| side.trace.of.vertices.get(k).map(|&v| on(v, axis).to_bits());
        match (given(&self.sides[0]), given(&self.sides[1])) {
            (None, _) | (_, None) => MeshCause::Vertices,
            (one, two) if one != two => self.given_vertex(k, &[axis]),
            _ => self.scale(axis),
        }
    }

    /// Why a vertex is another on one of these axes: where its file has it so, or because it is put about another centre.
    fn given_vertex(&self, k: usize, axes: &[Axis]) -> MeshCause {
        let up = |side: &MeshSide| side.folder.mesh.as_ref().map(|mesh| mesh.origin.up);
        if axes.iter().all(|&axis| same_written(self.sides, k, axis)) {
            MeshCause::Centre
        } else if up(&self.sides[0]) != up(&self.sides[1]) {
            MeshCause::Up
        } else {
            MeshCause::Vertex
        }
    }

    fn shrunk(&self, k: usize, axis: Axis) -> MeshCause {
        let of = |side: &MeshSide| side.trace.shrinking.as_ref().and_then(|all| all.points.get(k).copied());
        match (of(&self.sides[0]), of(&self.sides[1])) {
            (Some(one), Some(two)) if same(one[axis as usize], two[axis as usize]) => self.scale(axis),
            (Some(_), Some(_)) => self.moved(k, axis as usize),
            _ => self.lists(MeshCause::Vertices),
        }
    }

    /// Why a shrunk vertex stands elsewhere.
    fn moved(&self, k: usize, axis: usize) -> MeshCause {
        let [Some(a), Some(b)] = [0, 1].map(|side: usize| self.sides[side].trace.shrinking.as_ref()) else {
            return self.lists(MeshCause::Vertices);
        };
        let margin = |of: Option<f32>| of.map(f32::to_bits);
        let by_normals = a.passed.is_none() && !same(a.given, b.given);
        if margin(a.passed) != margin(b.passed) || by_normals {
            MeshCause::Margin
        } else if (0..3).any(|axis| !same(a.vertices[k][axis], b.vertices[k][axis])) {
            self.given_vertex(k, &AXES)
        } else if same(a.moved[k][axis], b.moved[k][axis]) {
            MeshCause::Box(axis)
        } else {
            MeshCause::Around
        }
    }

    /// The first shrunk vertex that stands elsewhere: octants follow from where all of them stand.
    fn octants(&self) -> MeshCause {
        let points = |side: &MeshSide<'a>| {
            side.trace.shrinking.as_ref().map_or(Vec::new(), |shrinking| shrinking.points.clone())
        };
        let (a, b) = (points(&self.sides[0]), points(&self.sides[1]));
        if self.kinds_differ() || a.len() != b.len() {
            return self.lists(MeshCause::Vertices);
        }
        let differ = |k: usize| (0..3).find(|&axis| !same(a[k][axis], b[k][axis])).map(|axis| (k, axis));
        (0..a.len()).find_map(differ).map_or(MeshCause::Unknown, |(k, axis)| self.moved(k, axis))
    }
}

impl MeshCause {
    /// Its rules.
    pub fn rules(self) -> Vec<Rule> {
        match self {
            MeshCause::Bytes | MeshCause::Unknown => vec![],
            MeshCause::Kind => vec![K4, K6, K7],
            MeshCause::Polygons | MeshCause::Vertices => vec![K5],
            MeshCause::Box(_) => vec![K5, Q1, S8],
            MeshCause::Frame => vec![K5, F4],
            MeshCause::Tree(cause) => [vec![K2], cause.rules()].concat(),
            MeshCause::Up | MeshCause::Vertex => vec![Q4, Q2],
            MeshCause::Centre => vec![K1, V1, Q4, Q2],
            MeshCause::Polygon => vec![G3, G12],
            MeshCause::Edges => vec![E1, E2],
            MeshCause::Material => vec![M1, M2],
            MeshCause::Margin => vec![S1, S6, S7],
            MeshCause::Around => vec![S4, S5, S9],
        }
    }

    /// What it is, in words.
    pub fn title(self) -> String {
        match self {
            MeshCause::Bytes => "bytes that are not what their input gives".into(),
            MeshCause::Kind => "the kind".into(),
            MeshCause::Polygons => "which polygons there are".into(),
            MeshCause::Vertices => "which vertices there are".into(),
            MeshCause::Box(axis) => format!("the given box, axis {}", AXES[axis]),
            MeshCause::Frame => "the given centres and radius".into(),
            MeshCause::Tree(cause) => cause.title(NOUN),
            MeshCause::Up => "the axis that is up".into(),
            MeshCause::Vertex => "vertices as they were given".into(),
            MeshCause::Centre => "another centre, for vertices that the files have alike".into(),
            MeshCause::Polygon => "polygons as they were given".into(),
            MeshCause::Edges => "which sides lie on an edge".into(),
            MeshCause::Material => "the materials that polygons name".into(),
            MeshCause::Margin => "the margin by which vertices are moved".into(),
            MeshCause::Around => "what lies around a vertex".into(),
            MeshCause::Unknown => "no cause is known".into(),
        }
    }
}
