//! How the vertices of a mesh of kind 4 were shrunk: by which margin, or by normals because none passed. The library says which;
//! the margins before that one follow from the start, each half the one before (S7).

use crate::json::Json;
use crate::number::{counted, float};
use crate::rules::Rule::*;
use bounds::{calculate_verts_shrunk, Geometry, Polygon, Prepared, Refusal, ShrinkBound, ShrunkBy};
use plain::shrink::{starting_margin, LEAST};

/// What the library prepares of a geometry and, of kind 4 with vertices, how it shrinks them. Preparing does not say that, so
/// the vertices are shrunk once more, at the same time.
pub fn prepare(geometry: &Geometry) -> Result<(Prepared, Option<ShrunkBy>), Refusal> {
    if geometry.kind != Geometry::PLAIN || geometry.vertices.is_empty() {
        return Ok((geometry.prepare()?, None));
    }
    std::thread::scope(|scope| {
        let shrunk = scope.spawn(|| shrink(geometry));
        let prepared = geometry.prepare();
        let by = shrunk.join().unwrap_or_else(|panic| std::panic::resume_unwind(panic));
        Ok((prepared?, Some(by?)))
    })
}

fn shrink(geometry: &Geometry) -> Result<ShrunkBy, Refusal> {
    let &Geometry { box_min, box_max, center_geom, margin, transform, .. } = geometry;
    let records: Vec<u8> = geometry.polygons.iter().flat_map(Polygon::to_bytes).collect();
    let bound = ShrinkBound { box_min, box_max, center_geom, margin, transform };
    Ok(calculate_verts_shrunk(&bound, &records, geometry.polygons.len(), &geometry.vertices)?.by)
}

/// How vertices were shrunk, and the margins that were tried before.
#[derive(Clone, Copy, Debug, PartialEq)]
pub struct Shrunk {
    pub by: ShrunkBy,
    pub given: f32,
    /// S1: the given margin, or half the least side of the box where that is less.
    pub start: f32,
    /// The margins that failed.
    pub failed: usize,
}

impl Shrunk {
    /// None where no vertex was shrunk.
    pub fn of(geometry: &Geometry, by: Option<ShrunkBy>) -> Option<Shrunk> {
        let by = by?;
        let start = starting_margin(geometry);
        let failed = match by {
            ShrunkBy::NoVertices => return None,
            ShrunkBy::Margin(passed) => halved(start).take_while(|&margin| margin != passed).count(),
            ShrunkBy::Normals => halved(start).count(),
        };
        Some(Shrunk { by, given: geometry.margin, start, failed })
    }

    /// `by margin 0.02, half the box, after 1 halving of it (S1, S7)`.
    pub fn words(&self) -> String {
        let given = float(self.given);
        match (self.by, self.failed) {
            (ShrunkBy::Margin(_), 0) if self.start == self.given => format!("by the given margin {given} ({S7})"),
            (ShrunkBy::Margin(_), 0) => {
                format!("by margin {}, half the box: {given} is given ({S1})", float(self.start))
            }
            (ShrunkBy::Margin(passed), n) => {
                let (passed, start) = (float(passed), float(self.start));
                format!("by margin {passed}, after {} of {start} ({S7}); {given} is given", counted(n, "halving"))
            }
            (_, 0) => format!("by normals, since no margin is above {}: {}", float(LEAST), self.outwards()),
            (_, n) => format!("by normals, since none of {} passed: {}", counted(n, "margin"), self.outwards()),
        }
    }

    /// S9 against S5.
    fn outwards(&self) -> String {
        let margin = float(self.given);
        format!("by {margin} the other way, outwards where triangles are counter-clockwise from outside ({S9})")
    }

    pub fn json(&self) -> Json {
        let passed = match self.by {
            ShrunkBy::Margin(passed) => Some(Json::float(passed.to_bits())),
            _ => None,
        };
        Json::Object(vec![
            ("by", if passed.is_some() { "margin" } else { "normals" }.into()),
            ("margin", passed.into()),
            ("given", Json::float(self.given.to_bits())),
            ("start", Json::float(self.start.to_bits())),
            ("failed", self.failed.into()),
        ])
    }
}

/// S7: the margins in the order in which they are tried. An infinite one is refused before.
fn halved(start: f32) -> impl Iterator<Item = f32> {
    std::iter::successors(Some(start), |margin| Some(margin * 0.5)).take_while(|margin| *margin > LEAST)
}

#[cfg(test)]
mod tests {
    use super::*;
    use bounds::Vec3;

    fn told(margin: f32, height: f32, by: ShrunkBy) -> Shrunk {
        let mut geometry = Geometry::new(Geometry::PLAIN);
        (geometry.margin, geometry.box_max) = (margin, Vec3::new(9.0, 9.0, height));
        Shrunk::of(&geometry, Some(by)).expect("vertices")
    }

    #[test]
    fn margins_are_counted() {
        assert_eq!(told(0.25, 8.0, ShrunkBy::Margin(0.25)).words(), format!("by the given margin 0.25 ({S7})"));
        let half = told(0.25, 0.25, ShrunkBy::Margin(0.125));
        assert_eq!((half.start, half.failed), (0.125, 0));
        assert_eq!(half.words(), format!("by margin 0.125, half the box: 0.25 is given ({S1})"));
        let later = told(0.25, 0.25, ShrunkBy::Margin(0.03125));
        assert_eq!(later.failed, 2);
        assert_eq!(later.words(), format!("by margin 0.03125, after 2 halvings of 0.125 ({S7}); 0.25 is given"));
        // 2^-19 is the last power of two above 1e-6.
        assert_eq!(told(1.0, 8.0, ShrunkBy::Normals).failed, 20);
        assert!(told(1.0, 8.0, ShrunkBy::Normals)
            .words()
            .starts_with("by normals, since none of 20 margins passed: by 1.0"));
        assert!(told(0.04, 0.0, ShrunkBy::Normals).words().starts_with("by normals, since no margin is above 1e-6: "));
        assert_eq!(told(f32::NAN, 0.5, ShrunkBy::Margin(0.25)).start, 0.25);
        assert_eq!(Shrunk::of(&Geometry::new(Geometry::BVH), None), None);
    }
}
