//! `bounds check` of a mesh: whether it can be prepared, and whether its polygons' boxes are within the premises.

use super::{breaking, cut_values};
use crate::boxes::words;
use crate::cli::Answer;
use crate::failure::Failure;
use crate::field::AXES;
use crate::json::Json;
use crate::mesh::state::{broken_words, corners, cut_vertices, missing, premises};
use crate::mesh::{positions, vertices, Mesh, MeshFolder};
use crate::number::{both, counted, verb};
use crate::progress::during;
use crate::rules::Rule::*;
use bounds::premises::{Axis, Broken};
use bounds::Vec3;

/// What was found of a mesh.
struct Checked {
    kind: u8,
    polygons: usize,
    vertices: usize,
    /// Whether there is a tree, and so premises.
    tree: bool,
    first: Option<Broken>,
    where_it_stands: Option<String>,
    /// Values of the polygons' boxes that break the premises by themselves, and boxes inside out.
    breaking: usize,
    /// Node values cut to 16 bits, of how many.
    cut: (usize, usize),
    cut_vertices: usize,
    /// Vertices with a value that is no number or infinite, and where the first stands. A box may pass over such a value.
    endless: usize,
    first_endless: Option<String>,
    open: usize,
    plain: usize,
}

/// Prepares the mesh: what is refused there is refused here.
pub fn answer(path: &str, mesh: Mesh, json: bool) -> Result<Answer, Failure> {
    let doing = format!("checking {}", counted(mesh.geometry.polygons.len(), "polygon"));
    let checked = during(&doing, || checked(path, mesh))?;
    let status = u8::from(checked.first.is_some());
    let text = if json { format!("{}\n", checked.json()) } else { checked.text() };
    Ok(Answer { text, status })
}

fn checked(path: &str, mesh: Mesh) -> Result<Checked, Failure> {
    let folder = MeshFolder::prepare(path, mesh)?;
    let mesh = folder.input()?;
    let made = &folder.prepared;
    let premises = premises(&folder)?;
    let items = premises.as_ref().map_or(&[][..], |premises| &premises.items);
    let first = premises.as_ref().and_then(|premises| premises.broken);
    let (open, plain) = missing(&mesh.geometry);
    let given = &mesh.geometry.vertices;
    let odd = |v: &Vec3| [v.x, v.y, v.z].into_iter().position(|x| !x.is_finite());
    Ok(Checked {
        kind: folder.parts.kind,
        polygons: folder.parts.polygons_count,
        vertices: folder.parts.vertices_count,
        tree: premises.is_some(),
        where_it_stands: first.and_then(|broken| stands(mesh, broken)),
        first,
        breaking: items.iter().map(|item| breaking(&words(item).map(f32::from_bits))).sum(),
        cut: if items.is_empty() { (0, 0) } else { cut_values(items, 4) },
        cut_vertices: cut_vertices(&mesh.geometry, &made.vertices.floats, made.quantum),
        endless: given.iter().filter(|v| odd(v).is_some()).count(),
        first_endless: given.iter().enumerate().find_map(|(k, v)| {
            let axis = odd(v)?;
            Some(format!("vertex {k} ({}), {} {}", mesh.origin.vertex(k), AXES[axis], [v.x, v.y, v.z][axis]))
        }),
        open,
        plain,
    })
}

/// The line of the polygon that breaks the premises first, and of the vertex that makes it.
fn stands(mesh: &Mesh, broken: Broken) -> Option<String> {
    let (place, axis) = match broken {
        Broken::Size { place, axis, .. } => (place, Some(axis)),
        Broken::Order { place, .. } => (place, None),
        _ => return None,
    };
    let at = mesh.origin.polygon(place);
    let vertex = axis.and_then(|axis| {
        let at = positions(&mesh.geometry);
        let value = |k: usize, axis: Axis| at.get(k).map(|v| [v.x, v.y, v.z][axis as usize]);
        let large = |x: f32| !x.is_finite() || x.abs() > 100f32.exp2();
        let odd =
            corners(mesh.geometry.polygons.get(place)?).into_iter().find(|&k| value(k, axis).is_some_and(large))?;
        let word = value(odd, axis)?.to_bits();
        Some(format!(", by vertex {odd} ({}), which stands at {axis} {}", mesh.origin.vertex(odd), both(word)))
    });
    Some(format!("{at}{}", vertex.unwrap_or_default()))
}

impl Checked {
    fn text(&self) -> String {
        let mesh = format!("{}, {}", counted(self.polygons, "polygon"), vertices(self.vertices));
        let mut text = match (self.tree, self.first) {
            (false, _) => format!("can be prepared as kind {} ({K4}): {mesh}; without a tree no premises\n", self.kind),
            (true, None) => format!("within the premises ({P4}): {mesh}\n"),
            (true, Some(broken)) => {
                let at = self.where_it_stands.as_ref().map_or(String::new(), |at| format!(" ({at})"));
                let more = match self.breaking {
                    0 => "none breaks them by itself; a query may miss polygons".to_string(),
                    n => format!("{} {} them; a query may miss polygons", counted(n, "value"), verb(n, "break")),
                };
                format!("OUTSIDE the premises ({P4}): {}{at}\n{mesh}; {more}\n", broken_words(broken))
            }
        };
        if self.tree {
            text += &format!("node values cut to 16 bits: {} of {} ({F7}, {F8})\n", self.cut.0, self.cut.1);
        }
        let cut = "vertices further from center_geom than half the box, and cut to that";
        text += &format!("{cut}: {} of {} ({Q2}, {F9})\n", self.cut_vertices, self.vertices);
        let first = self.first_endless.as_ref().map_or(String::new(), |at| format!("; the first is {at}"));
        text +=
            &format!("vertices with a value that is not finite: {} of {} ({F3}){first}\n", self.endless, self.vertices);
        text += &format!("polygons with a vertex that is not there: {} ({G8})\n", self.open);
        text + &format!("polygons with a material that is not there: {} ({M1})\n", self.plain)
    }

    fn json(&self) -> Json {
        Json::Object(vec![
            ("kind", (self.kind as usize).into()),
            ("within", if self.tree { self.first.is_none().into() } else { Json::Null }),
            ("polygons", self.polygons.into()),
            ("vertices", self.vertices.into()),
            ("first", self.first.map(broken_words).into()),
            ("at", self.where_it_stands.clone().into()),
            ("breaking", self.breaking.into()),
            ("cut", self.cut.0.into()),
            ("values", self.cut.1.into()),
            ("cut_vertices", self.cut_vertices.into()),
            ("endless_vertices", self.endless.into()),
            ("first_endless", self.first_endless.clone().into()),
            ("missing_vertices", self.open.into()),
            ("missing_materials", self.plain.into()),
        ])
    }
}
