//! Fields of equal bytes that stand for different places, polygons or materials.

use super::MeshSide;
use crate::field::mesh::{InPolygon, MeshField};
use crate::field::{Field, InRecord, Value};
use crate::number::{place, some};

/// What a field stands for beside its value.
#[derive(Clone, Copy, Debug, PartialEq, Eq)]
pub enum Meaning {
    Polygon,
    Material,
    Place,
}

impl Meaning {
    pub const ALL: [Meaning; 3] = [Meaning::Polygon, Meaning::Material, Meaning::Place];

    pub fn name(self) -> &'static str {
        match self {
            Meaning::Polygon => "polygons",
            Meaning::Material => "materials",
            Meaning::Place => "places",
        }
    }

    /// Of the fields that have one.
    fn of(field: MeshField) -> Meaning {
        match field {
            MeshField::Polygon(..) | MeshField::Tree(Field::Node(_, InRecord::First)) => Meaning::Polygon,
            MeshField::MaterialIndex(_) => Meaning::Material,
            _ => Meaning::Place,
        }
    }
}

/// A field of equal bytes, and what it stands for in each.
#[derive(Clone, Debug)]
pub struct Elsewhere {
    pub field: MeshField,
    pub meaning: Meaning,
    pub a: String,
    pub b: String,
}

/// Every field that both have alike and that means something else.
pub fn elsewhere(sides: &[MeshSide; 2]) -> Vec<Elsewhere> {
    let [a, b] = [0, 1].map(|side: usize| sides[side].folder.derived());
    let both = |field: MeshField| {
        if !field.same(&a, &b) || sides.iter().any(|side| side.account.differs(field)) {
            return None;
        }
        let (in_a, in_b) = (meaning(&sides[0], field)?, meaning(&sides[1], field)?);
        (in_a != in_b).then_some(Elsewhere { field, meaning: Meaning::of(field), a: in_a, b: in_b })
    };
    let mut all: Vec<Elsewhere> = MeshField::all(&a).into_iter().filter_map(both).collect();
    // Links first: that a record is another polygon's is seen by its other fields too.
    all.sort_by_key(|at| matches!(at.field, MeshField::Polygon(_, InPolygon::Kind)));
    all
}

/// What a field stands for, where that is more than its value.
fn meaning(side: &MeshSide, field: MeshField) -> Option<String> {
    let (trace, derived) = (&side.trace, side.folder.derived());
    match (field, field.value(&derived)?) {
        (MeshField::Polygon(_, InPolygon::Link(_)), Value::Short(to)) => {
            let to = trace.order.get(usize::try_from(to).ok()?)?;
            Some(format!("given polygon {to}"))
        }
        (MeshField::Polygon(k, InPolygon::Kind), _) => Some(format!("given polygon {}", trace.order.get(k)?)),
        (MeshField::MaterialIndex(_), Value::Number(at)) => {
            let of = derived.prepared.materials.get(at as usize)?;
            Some(Value::Material(of.data1, of.data2).to_string())
        }
        (MeshField::Vertex(k, axis), Value::Short(_)) => {
            Some(place(crate::field::mesh::on(*derived.prepared.vertices.floats.get(k)?, axis) as f64))
        }
        (MeshField::Tree(field), value) => of_tree(side, field, value),
        _ => None,
    }
}

/// A value of a record's box stands for a place, a leaf's id for the polygons that it holds.
fn of_tree(side: &MeshSide, field: Field, value: Value) -> Option<String> {
    let (tree, records) = (side.trace.tree.as_ref()?, side.folder.derived().tree?);
    match (field, value) {
        (Field::Node(k, _), _) if k >= tree.nodes.len() => None,
        (Field::Node(_, InRecord::Box(_, axis)) | Field::Tree(_, InRecord::Box(_, axis)), Value::Short(value)) => {
            Some(place(records.stands_for(axis as usize, value)))
        }
        (Field::Node(k, InRecord::First), _) if tree.nodes[k].children.is_none() => {
            Some(format!("given polygons {}", some(&tree.got(k))))
        }
        _ => None,
    }
}
