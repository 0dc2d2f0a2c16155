//! How a field of a prepared mesh came to be, down to the mesh's own values.

mod frame;
mod lists;
mod octant;
mod polygon;
mod shrink;
mod standing;
mod vertex;

pub use shrink::why;

use super::query::{Asked, Exact};
use super::{Explainer, Explanation, Step};
use crate::boxes::Boxes;
use crate::cli::{corner, Answer};
use crate::dump::Dump;
use crate::failure::Failure;
use crate::field::mesh::{Derived, MeshField};
use crate::field::{Field, Recorded, Value};
use crate::mesh::rounded::{Query, Rounded};
use crate::mesh::{account, place_of, MeshAccount, MeshFolder, Origin};
use crate::number;
use crate::rules::Rule;
use crate::trace::Fields;
use plain::mesh::{MeshTrace, Standing};
use plain::points::Point;

/// What explanations of a prepared mesh are made from: where its values stand, its trace, and what the library derived.
pub struct MeshExplainer<'a> {
    pub origin: &'a Origin,
    pub trace: &'a MeshTrace<'a>,
    pub derived: Derived<'a>,
    /// The polygons' boxes, where there is a tree over them.
    pub boxes: Option<&'a Boxes>,
}

/// The explanation of a field, or of a query and a polygon, by the words behind the folder's name.
pub fn answer(folder: &MeshFolder, words: &[String], json: bool) -> Result<Answer, Failure> {
    let account = account(folder)?;
    let mesh = folder.input()?;
    let standing = Standing::of(&mesh.geometry);
    let trace = traced(folder, &account, &standing)?;
    let tree = folder.tree()?;
    let boxes = tree.as_ref().and_then(|tree| tree.boxes.as_ref());
    let with = MeshExplainer { origin: &mesh.origin, trace: &trace, derived: account.rebuilt.derived(), boxes };
    let plain: Vec<&str> = words.iter().map(String::as_str).collect();
    let explanation = match plain[..] {
        ["query", min, max, "item", item] => with.asked(folder, &account, tree.as_ref(), [min, max, item])?,
        ["node", node, "split"] => with.split(folder, node)?,
        _ => explained(folder, &account, &with, MeshField::parse(words).ok_or_else(|| unknown(words))?)?,
    };
    Ok(explanation.answer(account.warning(), json))
}

/// The preparing of a folder's mesh, step by step, which must come to the library's bytes in every field.
pub fn traced<'a>(
    folder: &'a MeshFolder,
    account: &MeshAccount,
    standing: &'a Standing,
) -> Result<MeshTrace<'a>, Failure> {
    MeshTrace::of(&folder.input()?.geometry, standing).reaching(&folder.name, &account.rebuilt.derived())
}

fn unknown(words: &[String]) -> Failure {
    let given = words.join(" ");
    Failure::Usage(format!(
        "'{given}' is no field: expected one as `polygon 3 link 1`, `vertex 7 y`, `material 2`, `octant 3 index 0`, `node 9 min.x`"
    ))
}

/// A field, explained only where its bytes are what the input gives.
fn explained(
    folder: &MeshFolder,
    account: &MeshAccount,
    with: &MeshExplainer,
    field: MeshField,
) -> Result<Explanation, Failure> {
    if field.raw(&folder.derived()).or(field.raw(&account.rebuilt.derived())).is_none() {
        return Err(Failure::Usage(format!("{field}: {} has no such field; `bounds dump` shows all", folder.name)));
    }
    account.given(field)?;
    Ok(with.field(field))
}

impl<'a> MeshExplainer<'a> {
    /// The explanation of a field that was derived.
    pub fn field(&self, field: MeshField) -> Explanation {
        if let (MeshField::Tree(field), Some(tree)) = (field, self.tree()) {
            return tree.field(field);
        }
        let steps = match field {
            MeshField::Quantum(axis) => self.quantum(axis),
            MeshField::Box(corner, axis) => self.frame_box(corner, axis),
            MeshField::Centre(centre, axis) => self.centre(centre, axis),
            MeshField::Radius => self.radius(),
            MeshField::Polygon(k, at) => self.polygon(k, at),
            MeshField::PolygonBox(k, corner, axis) => self.polygon_box(k, corner, axis),
            MeshField::MaterialCount => self.material_count(),
            MeshField::Material(k) => self.material(k),
            MeshField::MaterialIndex(k) => self.material_index(k),
            MeshField::Vertex(k, axis) => self.vertex(k, axis),
            MeshField::VertexFloat(k, axis) => self.vertex_float(k, axis),
            MeshField::Shrunk(k, axis) => self.shrunk(k, axis),
            MeshField::ShrunkFloat(k, axis) => self.shrunk_float(k, axis),
            MeshField::OctantCount(k) => self.octant_count(k),
            MeshField::Octant(k, i) => self.octant(k, i),
            MeshField::Tree(_) => Vec::new(),
        };
        let bytes = self.trace.bytes(field);
        let steps = steps.into_iter().chain(self.bytes_step(field)).collect();
        Explanation { of: field.to_string(), heading: self.heading(field), steps, bytes }
    }

    /// What explains the tree.
    pub fn tree(&self) -> Option<Explainer<'_>> {
        let (trace, records, boxes) = (self.trace.tree.as_ref()?, self.derived.tree?, self.boxes?);
        Some(Explainer { boxes, trace, records, mesh: Some(self) })
    }

    /// `-12 = bytes 2-3 of vertex 7`.
    fn heading(&self, field: MeshField) -> String {
        let value = self.value_words(field).unwrap_or("nothing".into());
        let place = place_of(field, &self.derived).unwrap_or(0..1);
        let at = |from: usize| format!("bytes {}-{}", from + place.start, from + place.end - 1);
        let of = match field {
            MeshField::Quantum(_) | MeshField::Box(..) | MeshField::Centre(..) | MeshField::Radius => {
                format!("{} of the frame", at(0))
            }
            MeshField::Polygon(k, at) => self.polygon_heading(k, at),
            MeshField::PolygonBox(k, ..) => {
                format!("{} of the box of {}", at(0), self.prepared_name(self.trace.order[k]))
            }
            MeshField::MaterialCount => "how many materials there are before they are filled up to four".into(),
            MeshField::Material(k) => format!("{} of the materials, material {k}", at(8 * k)),
            MeshField::MaterialIndex(k) => format!("the material of {}", self.prepared_name(self.trace.order[k])),
            MeshField::Vertex(k, _) => format!("{} of vertex {k}", at(0)),
            MeshField::VertexFloat(k, _) => format!("{} of the float of vertex {k}", at(0)),
            MeshField::Shrunk(k, _) => format!("{} of shrunk vertex {k}", at(0)),
            MeshField::ShrunkFloat(k, _) => format!("{} of the float of shrunk vertex {k}", at(0)),
            MeshField::OctantCount(k) => format!("how many vertices octant {k} has"),
            MeshField::Octant(k, i) => format!("bytes {}-{} of octant {k}", 4 * i, 4 * i + 3),
            MeshField::Tree(_) => String::new(),
        };
        format!("{value} = {of}")
    }

    /// The bytes that a field comes to. Of a NaN that arithmetic made they are free.
    fn bytes_step(&self, field: MeshField) -> Option<Step> {
        let bytes = self.trace.bytes(field)?;
        let text = match field.is_made(&self.derived) && field.is_nan(&bytes) {
            true => "a NaN that arithmetic made: any NaN's bytes".into(),
            false => format!("bytes {}", number::bytes(&bytes)),
        };
        let short = matches!(field.value_of(&bytes), Value::Short(_));
        Some(Step::new(&[if short { Rule::R2 } else { Rule::R1 }], text))
    }

    /// A field's value in words.
    fn value_words(&self, field: MeshField) -> Option<String> {
        Some(field.value_of(&self.trace.bytes(field)?).to_string())
    }

    /// A given polygon by its place in the prepared list.
    pub fn prepared_name(&self, given: usize) -> String {
        let k = self.trace.places[given];
        match &self.trace.tree {
            Some(_) => format!("polygon {k} (given polygon {given})"),
            None => format!("polygon {k}"),
        }
    }

    fn split(&self, folder: &MeshFolder, node: &str) -> Result<Explanation, Failure> {
        let tree = self.tree().ok_or_else(|| without_tree(folder))?;
        tree.split_at(node)
    }

    /// Why a query hands out a polygon of the prepared list, or not.
    fn asked(
        &self,
        folder: &MeshFolder,
        account: &MeshAccount,
        dump: Option<&Dump>,
        words: [&str; 3],
    ) -> Result<Explanation, Failure> {
        let (Some(dump), Some(tree)) = (dump, self.tree()) else { return Err(without_tree(folder)) };
        let (min, max) = (corner(words[0])?, corner(words[1])?);
        let n = self.trace.order.len();
        let wrong = || Failure::Usage(format!("item '{}': expected a polygon's number below {n}", words[2]));
        let k = words[2].parse().ok().filter(|&k: &usize| k < n).ok_or_else(wrong)?;
        let order = |field: &&MeshField| matches!(field, MeshField::Tree(Field::Order(_)));
        if let Some(&field) = account.differing.iter().find(order) {
            return Err(account.unexplained(field, "which polygon is which is not known"));
        }
        let item = self.trace.order[k];
        let (asked, rounded) = (Query { min, max }, Rounded::of(folder.input()?)?);
        let Query { min, max } = rounded.as_ref().map_or(asked, |rounded| rounded.widened(asked));
        let rounded = rounded.map(|Rounded { by, boxes }| Exact { asked, item: boxes[item], by });
        let asked = Asked { dump, min, max, item, rounded };
        tree.asked(&asked, &|field| !account.differs(MeshField::Tree(field)))
    }
}

fn without_tree(folder: &MeshFolder) -> Failure {
    Failure::Usage(format!("{}: only kind 8 with polygons has a tree; this is none", folder.name))
}

/// `(1.0, 2.0, 3.0)`.
fn point_words(point: Point) -> String {
    format!("({})", point.map(number::float).join(", "))
}
