//! A query in the numbers of a mesh's file, over records that were made of what centring left of them.
//!
//! A vertex stands at (v - centre) + centre, and each step rounds: far from the origin it stands beside where the file has it. So
//! a query that meets a polygon's box as the file has it can miss the box over which the tree is built. Widened by the most that
//! any of them is moved it cannot: where `f` is a value of the box by the file, `s` the same where the vertices stand, `q` the
//! query's and |f - s| <= d, then f <= q gives s <= q + d, and f >= q gives s >= q - d.

use super::state::corners;
use super::{items_over, Mesh};
use bounds::{BvhItem, Mat4, Polygon, Refusal, Vec3};

/// How far polygons stand from where their file has them.
pub struct Rounded {
    /// On each axis the most that a vertex, or a value of a polygon's box, is moved. Vertices that are not finite, and the boxes
    /// of their polygons, have no part in it: of those no query is promised anything.
    pub by: [f64; 3],
    /// The polygons' boxes (G9) over the file's own numbers, turned so that z is up.
    pub boxes: Vec<BvhItem>,
}

/// A query, as it was asked and as it is walked.
#[derive(Clone, Copy, Debug, PartialEq)]
pub struct Query {
    pub min: Vec3,
    pub max: Vec3,
}

impl Rounded {
    /// None where nothing is moved, and where a query is not in the file's numbers: without a file whose vertices were put about
    /// a centre, or with a transform behind that.
    pub fn of(mesh: &Mesh) -> Result<Option<Rounded>, Refusal> {
        let Mesh { geometry, origin, .. } = mesh;
        if !mesh.is_obj() || geometry.transform != Mat4::identity() {
            return Ok(None);
        }
        let given: Vec<Vec3> = origin.given.iter().map(|&v| origin.up.turned(v)).collect();
        let points = geometry.positions();
        let (boxes, standing) = (items_over(geometry, &given)?, items_over(geometry, &points)?);
        let finite: Vec<bool> = given.iter().zip(&points).map(|(&f, &s)| is_finite(f) && is_finite(s)).collect();
        let vertices = given.iter().zip(&points).zip(&finite).filter(|(_, &finite)| finite).map(|((&f, &s), _)| (f, s));
        // A vertex that is not there is zero in both.
        let whole = |polygon: &Polygon| corners(polygon).iter().all(|&k| finite.get(k).copied().unwrap_or(true));
        let pairs = geometry.polygons.iter().zip(boxes.iter().zip(&standing)).filter(|(polygon, _)| whole(polygon));
        let corners = pairs.flat_map(|(_, (f, s))| [(f.min, s.min), (f.max, s.max)]);
        let mut by = [0.0f64; 3];
        for (f, s) in vertices.chain(corners) {
            for (by, (f, s)) in by.iter_mut().zip([(f.x, s.x), (f.y, s.y), (f.z, s.z)]) {
                *by = by.max(apart(f, s));
            }
        }
        Ok((by != [0.0; 3]).then_some(Rounded { by, boxes }))
    }

    /// A query that meets where a polygon stands, whenever this one meets where the file has it.
    pub fn widened(&self, query: Query) -> Query {
        let axes = |v: Vec3| [v.x, v.y, v.z];
        let (mut min, mut max) = (axes(query.min), axes(query.max));
        for axis in (0..3).filter(|&axis| self.by[axis] > 0.0) {
            min[axis] = below(min[axis], self.by[axis]);
            max[axis] = -below(-max[axis], self.by[axis]);
        }
        let point = |[x, y, z]: [f32; 3]| Vec3::new(x, y, z);
        Query { min: point(min), max: point(max) }
    }
}

fn is_finite(v: Vec3) -> bool {
    [v.x, v.y, v.z].iter().all(|x| x.is_finite())
}

/// No less than what two finite floats are apart.
///
/// The difference of two floats of 24 bits is exact in one of 53 where their sizes are less than 2^29 apart. Where it is not, the
/// rounded one may be below it: then it is the next one above.
fn apart(a: f32, b: f32) -> f64 {
    let (high, low) = (f64::from(a.max(b)), f64::from(a.min(b)));
    let (sum, rest) = added(high, -low);
    if rest > 0.0 {
        sum.next_up()
    } else {
        sum
    }
}

/// The greatest float that is not above `x - by`. A NaN and an infinity stay.
fn below(x: f32, by: f64) -> f32 {
    if !x.is_finite() {
        return x;
    }
    let (sum, rest) = added(f64::from(x), -by);
    let sum = if rest < 0.0 { sum.next_down() } else { sum };
    let near = sum as f32;
    if f64::from(near) > sum {
        near.next_down()
    } else {
        near
    }
}

/// A sum rounded to nearest, and what that left out, exactly (Knuth's two-sum, which holds for all that does not overflow).
fn added(a: f64, b: f64) -> (f64, f64) {
    let sum = a + b;
    let part = sum - a;
    (sum, (a - (sum - part)) + (b - part))
}

#[cfg(test)]
mod tests {
    use super::*;

    #[test]
    fn corners_move_outward_and_no_further_than_they_must() {
        assert_eq!(below(100.0, 0.5), 99.5);
        assert_eq!(below(1e7, 0.25), 9_999_999.0);
        assert_eq!(-below(-1e7, 0.25), 10_000_001.0);
        assert_eq!(below(1.0, 1e-30), 1f32.next_down());
        assert_eq!(below(f32::NEG_INFINITY, 1.0), f32::NEG_INFINITY);
        assert_eq!(below(f32::INFINITY, 1.0), f32::INFINITY);
        assert!(below(f32::NAN, 1.0).is_nan());
        assert_eq!(below(f32::MIN, 1.0), f32::NEG_INFINITY);
        assert_eq!((apart(3.0, 1.5), apart(1.5, 3.0), apart(-0.0, 0.0)), (1.5, 1.5, 0.0));
        assert_eq!(apart(1.0, -1e-30), 1f64.next_up());
        assert_eq!(apart(1.0, 1e-30), 1.0);
    }
}
