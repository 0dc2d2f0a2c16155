//! How a field of a prepared mesh came to be, down to the mesh's own values.

mod frame;
mod lists;
mod octant;
mod polygon;
mod shrink;
mod standing;
mod vertex;

pub use shrink::why;

use super::query::Asked;
use super::{Explainer, Explanation, Step};
use crate::boxes::Boxes;
use crate::cli::{corner, Answer};
use crate::dump::Dump;
use crate::failure::Failure;
use crate::field::mesh::{Derived, MeshField};
use crate::field::Field;
use crate::json::Json;
use crate::mesh::{account, MeshAccount, MeshFolder, Origin};
use crate::number;
use crate::rules::Rule;
use crate::trace::mesh::points::Point;
use crate::trace::mesh::{MeshTrace, Standing};

/// What explanations of a prepared mesh are made from: where its values stand, its trace, and what the library derived.
pub struct MeshExplainer<'a> {
    pub origin: &'a Origin,
    pub trace: &'a MeshTrace<'a>,
    pub derived: Derived<'a>,
    /// The polygons' boxes, where there is a tree over them.
    pub boxes: Option<&'a Boxes>,
}

/// The explanation of a field, or of a query and a polygon, by the words behind the folder's name.
pub fn answer(folder: &MeshFolder, words: &[String], json: bool) -> Result<Answer, Failure> {
    let account = account(folder)?;
    let mesh = folder.input()?;
    let standing = Standing::of(&mesh.geometry);
    let trace = traced(folder, &account, &standing)?;
    let tree = folder.tree()?;
    let boxes = tree.as_ref().and_then(|tree| tree.boxes.as_ref());
    let with = MeshExplainer { origin: &mesh.origin, trace: &trace, derived: account.rebuilt.derived(), boxes };
    let plain: Vec<&str> = words.iter().map(String::as_str).collect();
    let explanation = match plain[..] {
        ["query", min, max, "item", item] => with.asked(folder, &account, tree.as_ref(), [min, max, item])?,
        ["node", node, "split"] => with.split(folder, node)?,
        _ => explained(folder, &account, &with, MeshField::parse(words).ok_or_else(|| unknown(words))?)?,
    };
    let warning = account.warning(folder);
    if json {
        let json = Json::Object(vec![("explanation", explanation.json()), ("warning", warning.into())]);
        return Ok(Answer::of(format!("{json}\n")));
    }
    let warning = warning.map_or(String::new(), |warning| format!("NOTE {warning}\n"));
    Ok(Answer::of(warning + &explanation.text()))
}

/// The preparing of a folder's mesh, step by step, which must come to the library's bytes in every field.
pub fn traced<'a>(
    folder: &'a MeshFolder,
    account: &MeshAccount,
    standing: &'a Standing,
) -> Result<MeshTrace<'a>, Failure> {
    let trace = MeshTrace::of(&folder.input()?.geometry, standing);
    let derived = account.rebuilt.derived();
    match MeshField::all(&derived).into_iter().find(|&field| !trace.reaches(field, &derived)) {
        None => Ok(trace),
        Some(field) => {
            let at = format!("the trace does not reach the library's bytes at {field}");
            Err(Failure::Refused(format!("{}: {at}; nothing is explained", folder.name)))
        }
    }
}

fn unknown(words: &[String]) -> Failure {
    let given = words.join(" ");
    Failure::Usage(format!(
        "'{given}' is no field: expected one as `polygon 3 link 1`, `vertex 7 y`, `material 2`, `octant 3 index 0`, `node 9 min.x`"
    ))
}

/// A field, explained only where its bytes are what the input gives.
fn explained(
    folder: &MeshFolder,
    account: &MeshAccount,
    with: &MeshExplainer,
    field: MeshField,
) -> Result<Explanation, Failure> {
    let there = |of: &MeshFolder| field.raw(&of.derived()).is_some();
    if !there(folder) && !there(&account.rebuilt) {
        return Err(Failure::Usage(format!("{field}: {} has no such field; `bounds dump` shows all", folder.name)));
    }
    if account.differs(field) {
        let words = account.difference(folder, field);
        return Err(Failure::Refused(format!("{}: {words}; what stands there is not explained", folder.name)));
    }
    Ok(with.field(field))
}

impl<'a> MeshExplainer<'a> {
    /// The explanation of a field that was derived.
    pub fn field(&self, field: MeshField) -> Explanation {
        if let (MeshField::Tree(field), Some(tree)) = (field, self.tree()) {
            return tree.field(field);
        }
        let steps = match field {
            MeshField::Quantum(axis) => self.quantum(axis),
            MeshField::Box(corner, axis) => self.frame_box(corner, axis),
            MeshField::Centre(centre, axis) => self.centre(centre, axis),
            MeshField::Radius => self.radius(),
            MeshField::Polygon(k, at) => self.polygon(k, at),
            MeshField::MaterialCount => self.material_count(),
            MeshField::Material(k) => self.material(k),
            MeshField::MaterialIndex(k) => self.material_index(k),
            MeshField::Vertex(k, axis) => self.vertex(k, axis),
            MeshField::VertexFloat(k, axis) => self.vertex_float(k, axis),
            MeshField::Shrunk(k, axis) => self.shrunk(k, axis),
            MeshField::ShrunkFloat(k, axis) => self.shrunk_float(k, axis),
            MeshField::OctantCount(k) => self.octant_count(k),
            MeshField::Octant(k, i) => self.octant(k, i),
            MeshField::Tree(_) => Vec::new(),
        };
        let bytes = self.trace.bytes(field);
        let steps = steps.into_iter().chain(self.bytes_step(field)).collect();
        Explanation { of: field.to_string(), heading: self.heading(field), steps, bytes }
    }

    /// What explains the tree.
    pub fn tree(&self) -> Option<Explainer<'_>> {
        let (trace, records, boxes) = (self.trace.tree.as_ref()?, self.derived.tree?, self.boxes?);
        Some(Explainer { boxes, trace, records, mesh: Some(self) })
    }

    /// `-12 = bytes 2-3 of vertex 7`.
    fn heading(&self, field: MeshField) -> String {
        let value = self.trace.bytes(field).map_or("nothing".into(), |raw| field.value_of(&raw).to_string());
        let at = |size: usize, from: usize| format!("bytes {from}-{}", from + size - 1);
        let of = match field {
            MeshField::Quantum(axis) => format!("{} of the frame", at(4, 4 * axis as usize)),
            MeshField::Box(corner, axis) => {
                format!("{} of the frame", at(4, 12 + 12 * corner as usize + 4 * axis as usize))
            }
            MeshField::Centre(centre, axis) => {
                format!("{} of the frame", at(4, 36 + 12 * centre as usize + 4 * axis as usize))
            }
            MeshField::Radius => format!("{} of the frame", at(4, 60)),
            MeshField::Polygon(k, at) => self.polygon_heading(k, at),
            MeshField::MaterialCount => "how many materials there are before they are filled up to four".into(),
            MeshField::Material(k) => format!("{} of the materials, material {k}", at(8, 8 * k)),
            MeshField::MaterialIndex(k) => format!("the material of {}", self.prepared_name(self.trace.order[k])),
            MeshField::Vertex(k, axis) => format!("{} of vertex {k}", at(2, 2 * axis as usize)),
            MeshField::VertexFloat(k, axis) => format!("{} of the float of vertex {k}", at(4, 4 * axis as usize)),
            MeshField::Shrunk(k, axis) => format!("{} of shrunk vertex {k}", at(2, 2 * axis as usize)),
            MeshField::ShrunkFloat(k, axis) => {
                format!("{} of the float of shrunk vertex {k}", at(4, 4 * axis as usize))
            }
            MeshField::OctantCount(k) => format!("how many vertices octant {k} has"),
            MeshField::Octant(k, i) => format!("{} of octant {k}", at(4, 4 * i)),
            MeshField::Tree(_) => String::new(),
        };
        format!("{value} = {of}")
    }

    /// The bytes that a field comes to. Of a NaN that arithmetic made they are free.
    fn bytes_step(&self, field: MeshField) -> Option<Step> {
        let bytes = self.trace.bytes(field)?;
        let nan = bytes.len() == 4 && f32::from_le_bytes([bytes[0], bytes[1], bytes[2], bytes[3]]).is_nan();
        let text = match field.is_made(self.trace.tree.is_some()) && nan {
            true => "a NaN that arithmetic made: any NaN's bytes".into(),
            false => format!("bytes {}", number::bytes(&bytes)),
        };
        let short = matches!(self.derived_value(field), Some(crate::field::Value::Short(_)));
        Some(Step::new(&[if short { Rule::R2 } else { Rule::R1 }], text))
    }

    fn derived_value(&self, field: MeshField) -> Option<crate::field::Value> {
        Some(field.value_of(&self.trace.bytes(field)?))
    }

    /// A given polygon by its place in the prepared list.
    pub fn prepared_name(&self, given: usize) -> String {
        let k = self.trace.places[given];
        match &self.trace.tree {
            Some(_) => format!("polygon {k} (given polygon {given})"),
            None => format!("polygon {k}"),
        }
    }

    fn split(&self, folder: &MeshFolder, node: &str) -> Result<Explanation, Failure> {
        let tree = self.tree().ok_or_else(|| without_tree(folder))?;
        let nodes = tree.trace.nodes.len();
        let node = node.parse().ok().filter(|&k: &usize| k < nodes);
        let node = node.ok_or_else(|| Failure::Usage(format!("expected a node's number below {nodes}")))?;
        tree.split(node).ok_or_else(|| Failure::Usage(format!("node {node} is a leaf: it is not split")))
    }

    /// Why a query hands out a polygon of the prepared list, or not.
    fn asked(
        &self,
        folder: &MeshFolder,
        account: &MeshAccount,
        dump: Option<&Dump>,
        words: [&str; 3],
    ) -> Result<Explanation, Failure> {
        let (Some(dump), Some(tree)) = (dump, self.tree()) else { return Err(without_tree(folder)) };
        let (min, max) = (corner(words[0])?, corner(words[1])?);
        let n = self.trace.order.len();
        let wrong = || Failure::Usage(format!("item '{}': expected a polygon's number below {n}", words[2]));
        let k = words[2].parse().ok().filter(|&k: &usize| k < n).ok_or_else(wrong)?;
        let order = |field: &&MeshField| matches!(field, MeshField::Tree(Field::Order(_)));
        if let Some(&field) = account.differing.iter().find(order) {
            let words = account.difference(folder, field);
            return Err(Failure::Refused(format!("{}: {words}; which polygon is which is not known", folder.name)));
        }
        let found = dump.walk(min, max)?;
        let asked = Asked { dump, min, max, item: self.trace.order[k] };
        let (explanation, reads) = tree.query(&asked, &|field| !account.differs(MeshField::Tree(field)));
        if reads != found.reads {
            return Err(Failure::Refused("the trace reads other records than the library; it is not explained".into()));
        }
        Ok(explanation)
    }
}

fn without_tree(folder: &MeshFolder) -> Failure {
    Failure::Usage(format!("{}: only kind 8 with polygons has a tree; this is none", folder.name))
}

/// `(1.0, 2.0, 3.0)`.
fn point_words(point: Point) -> String {
    format!("({})", point.map(number::float).join(", "))
}
