//! What differs between two meshes as they were given.

use crate::field::mesh::{on, Centre, InPolygon};
use crate::field::{Value, AXES, CORNERS};
use crate::mesh::{Mesh, Up};
use crate::number::float;
use bounds::premises::{Axis, Corner};
use bounds::Polygon;
use plain::polygon::{kind, radius};
use std::collections::{BTreeMap, BTreeSet};
use std::fmt;

/// A value of a mesh as it was given. Links are not: preparing makes them.
#[derive(Clone, Copy, Debug, PartialEq, Eq, PartialOrd, Ord)]
pub enum Given {
    Kind,
    Polygons,
    Vertices,
    Materials,
    /// Which axis of its .obj is up.
    Up,
    /// A vertex' number as its .obj has it, by its place among the three.
    Written(usize, usize),
    /// Corner and axis, by their numbers.
    Box(usize, usize),
    /// 0 the box', 1 the sphere's, 2 the geometry's own.
    Centre(usize, usize),
    Radius,
    Margin,
    /// Of the transform, row by row.
    Transform(usize),
    Vertex(usize, usize),
    Polygon(usize, InPolygon),
    /// The number of a polygon's material.
    Number(usize),
    Material(usize),
}

/// A difference of two meshes.
#[derive(Clone, Debug, PartialEq, Eq)]
pub struct Change {
    pub of: Given,
    pub a: Value,
    pub b: Value,
    /// Where .objs have it: `terrain.obj line 20, v 18`; nothing of our own text.
    pub at: String,
}

/// Every difference of two meshes.
#[derive(Debug, Default)]
pub struct Changes {
    /// Of what was given; of two .objs of what the files have.
    pub given: Vec<Change>,
    /// Of two .objs box, centres and radius, which are made of their vertices.
    pub made: Vec<Change>,
}

impl Changes {
    pub fn all(&self) -> impl Iterator<Item = &Change> {
        self.given.iter().chain(&self.made)
    }

    pub fn is_empty(&self) -> bool {
        self.all().next().is_none()
    }
}

/// Every value of a mesh; where its .obj is compared the vertices as that has them, which are moved about the centre.
fn values(mesh: &Mesh, files: bool) -> BTreeMap<Given, Value> {
    let (of, origin) = (&mesh.geometry, &mesh.origin);
    let word = |x: f32| Value::Word(x.to_bits());
    let count = |n: usize| Value::Number(n as u32);
    let mut all = BTreeMap::from([
        (Given::Kind, Value::Number(of.kind as u32)),
        (Given::Polygons, count(of.polygons.len())),
        (Given::Vertices, count(of.vertices.len())),
        (Given::Materials, count(of.materials.len())),
        (Given::Radius, word(of.sphere_radius)),
        (Given::Margin, word(of.margin)),
    ]);
    for axis in AXES {
        let k = axis as usize;
        all.insert(Given::Box(0, k), word(on(of.box_min, axis)));
        all.insert(Given::Box(1, k), word(on(of.box_max, axis)));
        for (at, centre) in [of.box_center, of.sphere_center, of.center_geom].into_iter().enumerate() {
            all.insert(Given::Centre(at, k), word(on(centre, axis)));
        }
        let vertices = if files { &origin.given } else { &of.vertices };
        let vertex = |v: usize| if files { Given::Written(v, k) } else { Given::Vertex(v, k) };
        all.extend(vertices.iter().enumerate().map(|(v, &at)| (vertex(v), word(on(at, axis)))));
    }
    if files {
        all.insert(Given::Up, Value::Letter(if origin.up == Up::Y { 'y' } else { 'z' }));
    }
    all.extend(of.transform.0.iter().enumerate().map(|(k, &x)| (Given::Transform(k), word(x))));
    for (k, polygon) in of.polygons.iter().enumerate() {
        all.insert(Given::Number(k), Value::Number(polygon.material() as u32));
        let fields = InPolygon::all(kind(polygon)).into_iter();
        all.extend(fields.filter_map(|at| Some((Given::Polygon(k, at), polygon_value(polygon, at)?))));
    }
    let material = |(k, of): (usize, &bounds::BoundMaterial)| (Given::Material(k), Value::Material(of.data1, of.data2));
    all.extend(of.materials.iter().enumerate().map(material));
    all
}

fn polygon_value(polygon: &Polygon, at: InPolygon) -> Option<Value> {
    Some(match (at, polygon) {
        (InPolygon::Kind, _) => Value::Kind(kind(polygon)),
        (InPolygon::Area, Polygon::Triangle { area, .. }) => Value::Word(area.to_bits()),
        (InPolygon::Radius, _) => Value::Word(radius(polygon)?.to_bits()),
        (InPolygon::Vertex(i), Polygon::Triangle { v, .. }) => Value::Corner(v[i]),
        (InPolygon::Vertex(_), Polygon::Sphere { index, .. }) => Value::Corner(*index),
        (InPolygon::Vertex(i), Polygon::Capsule { i1, i2, .. } | Polygon::Cylinder { i1, i2, .. }) => {
            Value::Corner([*i1, *i2][i])
        }
        (InPolygon::Vertex(i), Polygon::Box { i: all, .. }) => Value::Corner(all[i] as u16),
        _ => return None,
    })
}

/// Every difference, value by value of those that both have; of two .objs by the numbers that the files have. Of a polygon of
/// another kind that alone.
pub fn changes(a: &Mesh, b: &Mesh) -> Changes {
    let files = a.is_obj() && b.is_obj();
    let (one, two) = (values(a, files), values(b, files));
    let differ = one.into_iter().filter_map(|(of, x)| {
        let y = *two.get(&of)?;
        let at = if x != y && files { place(of, a, b) } else { String::new() };
        (x != y).then_some(Change { of, a: x, b: y, at })
    });
    let all: Vec<Change> = differ.collect();
    let turned: BTreeSet<usize> = all.iter().filter_map(|change| change.of.turned()).collect();
    let told = |change: &Change| match change.of {
        Given::Polygon(k, at) => at == InPolygon::Kind || !turned.contains(&k),
        _ => true,
    };
    let made = |change: &Change| files && matches!(change.of, Given::Box(..) | Given::Centre(..) | Given::Radius);
    let (made, given) = all.into_iter().filter(told).partition(made);
    Changes { given, made }
}

/// Where the .objs have a value, said once where both have it in one place.
fn place(of: Given, a: &Mesh, b: &Mesh) -> String {
    let place = |mesh: &Mesh| match of {
        Given::Written(k, _) => format!("{}, v {}", mesh.origin.vertex(k), mesh.origin.number(k)),
        Given::Polygon(k, _) | Given::Number(k) => mesh.origin.polygon(k),
        Given::Material(k) => mesh.origin.material(k),
        _ => String::new(),
    };
    match (place(a), place(b)) {
        (a, b) if a == b => a,
        (a, b) => format!("a: {a}; b: {b}"),
    }
}

/// Many changes by what they are of: `1597 of vertices, 2 of the box`.
pub fn grouped(changes: &[Change]) -> String {
    let mut groups: Vec<(&str, usize)> = Vec::new();
    for change in changes {
        let name = change.of.group();
        match groups.iter_mut().find(|(group, _)| *group == name) {
            Some((_, count)) => *count += 1,
            None => groups.push((name, 1)),
        }
    }
    groups.iter().map(|(name, count)| format!("{count} of {name}")).collect::<Vec<_>>().join(", ")
}

impl Given {
    /// The polygon of which it is the kind.
    fn turned(self) -> Option<usize> {
        match self {
            Given::Polygon(k, InPolygon::Kind) => Some(k),
            _ => None,
        }
    }

    /// What it is a value of.
    fn group(self) -> &'static str {
        match self {
            Given::Kind => "the kind",
            Given::Polygons | Given::Vertices | Given::Materials => "the lists' lengths",
            Given::Box(..) => "the box",
            Given::Centre(..) => "centres",
            Given::Radius => "the radius",
            Given::Margin => "the margin",
            Given::Transform(_) => "the transform",
            Given::Vertex(..) | Given::Written(..) => "vertices",
            Given::Up => "what is up",
            Given::Polygon(..) | Given::Number(_) => "polygons",
            Given::Material(_) => "materials",
        }
    }
}

impl Change {
    /// The change, short enough to be read aloud: `vertex 7 y 4.0 -> NaN`.
    pub fn short(&self) -> String {
        match (self.a, self.b) {
            (Value::Word(a), Value::Word(b)) => {
                format!("{} {} -> {}{}", self.of, float(f32::from_bits(a)), float(f32::from_bits(b)), self.at())
            }
            (a, b) => format!("{} {a} -> {b}{}", self.of, self.at()),
        }
    }

    fn at(&self) -> String {
        if self.at.is_empty() {
            String::new()
        } else {
            format!(" ({})", self.at)
        }
    }
}

impl fmt::Display for Change {
    fn fmt(&self, f: &mut fmt::Formatter) -> fmt::Result {
        write!(f, "{}  {} -> {}{}", self.of, self.a, self.b, self.at())
    }
}

impl fmt::Display for Given {
    fn fmt(&self, f: &mut fmt::Formatter) -> fmt::Result {
        let corner = |k: usize| -> Corner { CORNERS[k] };
        let axis = |k: usize| -> Axis { AXES[k] };
        match *self {
            Given::Kind => f.write_str("kind"),
            Given::Polygons => f.write_str("the number of polygons"),
            Given::Vertices => f.write_str("the number of vertices"),
            Given::Materials => f.write_str("the number of materials"),
            Given::Up => f.write_str("the axis that is up"),
            Given::Written(k, a) => write!(f, "vertex {k} {} in the file", axis(a)),
            Given::Box(c, a) => write!(f, "box {}.{}", corner(c), axis(a)),
            Given::Centre(2, a) => write!(f, "center_geom {}", axis(a)),
            Given::Centre(c, a) => write!(f, "center {}.{}", [Centre::Box, Centre::Sphere][c], axis(a)),
            Given::Radius => f.write_str("radius"),
            Given::Margin => f.write_str("margin"),
            Given::Transform(k) => write!(f, "transform {k}"),
            Given::Vertex(k, a) => write!(f, "vertex {k} {}", axis(a)),
            Given::Polygon(k, at) => write!(f, "given polygon {k} {at}"),
            Given::Number(k) => write!(f, "given polygon {k} material"),
            Given::Material(k) => write!(f, "given material {k}"),
        }
    }
}
