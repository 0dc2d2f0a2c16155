//! `bounds check` of a mesh: whether it can be prepared, whether every vertex is finite, whether its polygons' boxes are within
//! the premises, and what else there is to tell of it.

use super::{breaking, cut_values, One, NOT_FINITE, OUTSIDE};
use crate::boxes::words;
use crate::failure::Failure;
use crate::json::Json;
use crate::mesh::state::{broken_words, corners, premises};
use crate::mesh::{vertices, Mesh, MeshFolder, NotFinite, Report, Shrunk};
use crate::number::{both, counted, verb};
use crate::progress::{during, preparing, showing};
use crate::rules::Rule::*;
use bounds::premises::{Axis, Broken};

/// What was found of a mesh.
struct Checked {
    kind: u8,
    polygons: usize,
    vertices: usize,
    /// Of the vertices that are not finite: in words, and for programs.
    not_finite: Option<(String, Json)>,
    /// Whether there is a tree, and so premises.
    tree: bool,
    first: Option<Broken>,
    where_it_stands: Option<String>,
    /// Values of the polygons' boxes that break the premises by themselves, and boxes inside out.
    breaking: usize,
    /// Node values cut to 16 bits, of how many.
    cut: (usize, usize),
    shrunk: Option<Shrunk>,
    report: Report,
    /// How the file was read, where that is to be known.
    note: Option<String>,
}

/// Prepares the mesh: what is refused there is refused here.
pub fn one(path: &str, mesh: Mesh) -> Result<One, Failure> {
    let folder = showing(preparing(&mesh.geometry), || MeshFolder::prepare(path, mesh))?;
    during(&format!("checking {path}"), || of(&folder))
}

/// Checks what was prepared.
pub fn of(folder: &MeshFolder) -> Result<One, Failure> {
    let checked = checked(folder)?;
    Ok(One { failed: checked.failed(), text: checked.text(), json: checked.json() })
}

fn checked(folder: &MeshFolder) -> Result<Checked, Failure> {
    let mesh = folder.input()?;
    let premises = premises(folder)?;
    let items = premises.as_ref().map_or(&[][..], |premises| &premises.items);
    let first = premises.as_ref().and_then(|premises| premises.broken);
    let not_finite = NotFinite::of(mesh);
    Ok(Checked {
        kind: folder.parts.kind,
        polygons: folder.parts.polygons_count,
        vertices: folder.parts.vertices_count,
        not_finite: not_finite.map(|found| (found.words(&mesh.origin), found.json(&mesh.origin))),
        tree: premises.is_some(),
        where_it_stands: first.and_then(|broken| stands(mesh, broken)),
        first,
        breaking: items.iter().map(|item| breaking(&words(item).map(f32::from_bits))).sum(),
        cut: if items.is_empty() { (0, 0) } else { cut_values(items, 4) },
        shrunk: Shrunk::of(&mesh.geometry, folder.shrunk_by),
        report: Report::of(mesh, &folder.prepared)?,
        note: mesh.origin.note(),
    })
}

/// The line of the polygon that breaks the premises first, and of the vertex that makes it.
fn stands(mesh: &Mesh, broken: Broken) -> Option<String> {
    let (place, axis) = match broken {
        Broken::Size { place, axis, .. } => (place, Some(axis)),
        Broken::Order { place, .. } => (place, None),
        _ => return None,
    };
    let at = mesh.origin.polygon(place);
    let vertex = axis.and_then(|axis| {
        let at = mesh.geometry.positions();
        let value = |k: usize, axis: Axis| at.get(k).map(|v| [v.x, v.y, v.z][axis as usize]);
        let large = |x: f32| !x.is_finite() || x.abs() > 100f32.exp2();
        let odd =
            corners(mesh.geometry.polygons.get(place)?).into_iter().find(|&k| value(k, axis).is_some_and(large))?;
        let (number, word) = (mesh.origin.number(odd), value(odd, axis)?.to_bits());
        Some(format!(", by vertex {number} ({}), which stands at {axis} {}", mesh.origin.vertex(odd), both(word)))
    });
    Some(format!("{at}{}", vertex.unwrap_or_default()))
}

impl Checked {
    /// Why it does not pass.
    fn failed(&self) -> Option<String> {
        match (&self.not_finite, self.first) {
            (Some(_), _) => Some(NOT_FINITE.into()),
            (None, broken) => broken.map(|_| OUTSIDE.into()),
        }
    }

    /// Whether nothing stands against the mesh.
    fn within(&self) -> bool {
        self.reasons().is_empty()
    }

    /// What stands against it, for programs.
    fn reasons(&self) -> Vec<&'static str> {
        let all = [("not_finite", self.not_finite.is_some()), ("premises", self.first.is_some())];
        all.into_iter().filter(|(_, is)| *is).map(|(name, _)| name).collect()
    }

    fn text(&self) -> String {
        let mut text = self.verdict();
        if self.tree {
            text += &format!("node values cut to 16 bits: {} of {} ({F7}, {F8})\n", self.cut.0, self.cut.1);
        }
        if let Some(shrunk) = self.shrunk {
            text += &format!("vertices are shrunk {}\n", shrunk.words());
        }
        text += &self.note.as_ref().map_or(String::new(), |note| format!("NOTE {note}\n"));
        text + "beside the verdict, and nothing that fails a mesh:\n" + &self.report.text()
    }

    /// The lines by which a mesh is taken or turned away.
    fn verdict(&self) -> String {
        let mesh = format!("{}, {}", counted(self.polygons, "polygon"), vertices(self.vertices));
        let (head, finite) = match &self.not_finite {
            Some((words, _)) => (format!("NOT FINITE: {words}\n"), ""),
            None => (String::new(), ", every vertex finite"),
        };
        head + &match (self.tree, self.first) {
            (false, _) => {
                let kind = self.kind;
                format!("can be prepared as kind {kind} ({K4}){finite}: {mesh}; without a tree no premises\n")
            }
            (true, None) => format!("within the premises ({P4}){finite}: {mesh}\n"),
            (true, Some(broken)) => {
                let at = self.where_it_stands.as_ref().map_or(String::new(), |at| format!(" ({at})"));
                let more = match self.breaking {
                    0 => "none breaks them by itself; a query may miss polygons".to_string(),
                    n => format!("{} {} them; a query may miss polygons", counted(n, "value"), verb(n, "break")),
                };
                format!("OUTSIDE the premises ({P4}): {}{at}\n{mesh}{finite}; {more}\n", broken_words(broken))
            }
        }
    }

    fn json(&self) -> Json {
        Json::Object(vec![
            ("kind", (self.kind as usize).into()),
            ("within", self.within().into()),
            ("reasons", Json::list(self.reasons())),
            ("polygons", self.polygons.into()),
            ("vertices", self.vertices.into()),
            ("not_finite", self.not_finite.as_ref().map(|(_, json)| json.clone()).into()),
            ("premises", if self.tree { self.first.is_none().into() } else { Json::Null }),
            ("first", self.first.map(broken_words).into()),
            ("at", self.where_it_stands.clone().into()),
            ("breaking", self.breaking.into()),
            ("cut", self.cut.0.into()),
            ("values", self.cut.1.into()),
            ("shrunk_by", self.shrunk.map(|shrunk| shrunk.json()).into()),
            ("report", self.report.json()),
            ("note", self.note.clone().into()),
        ])
    }
}
