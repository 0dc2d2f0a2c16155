//! Whether every vertex of a mesh is finite: as its file has it, about the centre, and where it stands. A polygon's box may pass
//! over a value that is not (F3), and a vertex may be no polygon's: so the premises do not say it.

use super::{Mesh, Origin};
use crate::field::AXES;
use crate::json::Json;
use crate::number::{both, float};
use crate::rules::Rule::*;
use bounds::premises::Axis;
use bounds::Vec3;

/// When a vertex is no longer finite, or never was.
#[derive(Clone, Copy, Debug, PartialEq, Eq)]
pub enum Stage {
    /// The file has it so.
    Written,
    /// Finite in the file, and not about the centre: a sum or a difference is above every f32, or the centre is not finite.
    Centred,
    /// Finite about the centre, and not through the transform.
    Transformed,
}

/// A vertex that is not finite, by the first such value.
#[derive(Clone, Copy, Debug, PartialEq)]
pub struct Endless {
    /// From 0.
    pub vertex: usize,
    pub stage: Stage,
    pub axis: Axis,
    pub value: f32,
    /// As the file has it.
    pub written: Vec3,
}

/// The vertices that are not finite: how many, and the first in the order of the file.
#[derive(Clone, Copy, Debug, PartialEq)]
pub struct NotFinite {
    pub count: usize,
    pub first: Endless,
}

impl NotFinite {
    /// Those of a mesh; none where every vertex is finite.
    pub fn of(mesh: &Mesh) -> Option<NotFinite> {
        let geometry = &mesh.geometry;
        let stand = geometry.positions();
        let endless = |vertex: usize| {
            let written = mesh.origin.given[vertex];
            let kept = geometry.vertices[vertex];
            let stages = [
                (Stage::Written, written),
                (Stage::Centred, kept),
                (Stage::Centred, kept + geometry.center_geom),
                (Stage::Transformed, stand[vertex]),
            ];
            stages.into_iter().find_map(|(stage, point)| {
                let (axis, value) = odd(point)?;
                Some(Endless { vertex, stage, axis, value, written })
            })
        };
        let mut all = (0..geometry.vertices.len()).filter_map(endless);
        let first = all.next()?;
        Some(NotFinite { count: 1 + all.count(), first })
    }

    /// `vertex 590 (hole.obj line 592) has x NaN (7FC12345); 1 of 1599 vertices is not finite (F3)`.
    pub fn words(&self, origin: &Origin) -> String {
        let (n, all) = (self.count, origin.given.len());
        let are = if n == 1 { "is" } else { "are" };
        format!("{}; {n} of {all} vertices {are} not finite ({F3})", self.first.words(origin))
    }

    pub fn json(&self, origin: &Origin) -> Json {
        let Endless { vertex, stage, axis, value, written } = self.first;
        Json::Object(vec![
            ("count", self.count.into()),
            ("vertex", origin.number(vertex).into()),
            ("line", origin.vertices.get(vertex).copied().into()),
            ("written", Json::list([written.x, written.y, written.z].map(|x| Json::float(x.to_bits())))),
            ("after", stage.name().into()),
            ("axis", axis.to_string().into()),
            ("value", Json::float(value.to_bits())),
        ])
    }
}

impl Endless {
    /// The vertex by its number in the file and its line, and the value.
    fn words(&self, origin: &Origin) -> String {
        let vertex = format!("vertex {} ({})", origin.number(self.vertex), origin.vertex(self.vertex));
        let Endless { axis, value, written, .. } = *self;
        let value = both(value.to_bits());
        let place = [written.x, written.y, written.z].map(float).join(",");
        match self.stage {
            Stage::Written => format!("{vertex} has {axis} {value}"),
            Stage::Centred => format!("{vertex}, written {place}, has {axis} {value} about the centre ({K1})"),
            Stage::Transformed => {
                format!("{vertex}, written {place}, stands at {axis} {value} by the transform ({K1})")
            }
        }
    }
}

impl Stage {
    fn name(self) -> &'static str {
        match self {
            Stage::Written => "written",
            Stage::Centred => "centre",
            Stage::Transformed => "transform",
        }
    }
}

/// The first value of a point that is no number or infinite.
fn odd(v: Vec3) -> Option<(Axis, f32)> {
    AXES.into_iter().zip([v.x, v.y, v.z]).find(|(_, x)| !x.is_finite())
}
