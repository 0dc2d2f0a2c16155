//! Shrunk vertices: where the vertices of a geometry stand when they are moved inwards by its margin, or, where no margin
//! passes, against their normals ([`ShrunkBy::Normals`]).
//!
//! ```
//! use bounds::{calculate_verts_shrunk, Polygon, ShrinkBound, ShrunkBy, Vec3};
//!
//! // A cube of 2, each side two triangles.
//! let side = |bit: u32| if bit & 1 == 1 { 1.0 } else { -1.0 };
//! let vertices: Vec<Vec3> = (0..8).map(|i| Vec3::new(side(i), side(i >> 1), side(i >> 2))).collect();
//! let sides = [[0, 1, 3, 2], [4, 6, 7, 5], [0, 4, 5, 1], [2, 3, 7, 6], [0, 2, 6, 4], [1, 5, 7, 3]];
//! let triangle = |v| Polygon::Triangle { material: 0, area: 0.0, v, edges: [-1; 3] };
//! let halves = |[a, b, c, d]: [u16; 4]| [triangle([a, b, c]), triangle([a, c, d])];
//! let polygons: Vec<u8> = sides.into_iter().flat_map(halves).flat_map(|p| p.to_bytes()).collect();
//!
//! let one = Vec3::new(1.0, 1.0, 1.0);
//! let shrunk = calculate_verts_shrunk(&ShrinkBound::new(-one, one, 0.25), &polygons, 12, &vertices)?;
//! assert_eq!(shrunk.by, ShrunkBy::Margin(0.25));
//! assert_eq!(shrunk.vertices[7], Vec3::new(0.75, 0.75, 0.75));
//! # Ok::<(), bounds::Refusal>(())
//! ```

use crate::bvh::parts;
use crate::geometry::RECORD;
use crate::octants::VERTICES;
use crate::{ffi, Mat4, Refusal, Vec3};

pub use crate::types::ShrinkBound;

/// Most polygons.
///
/// ```
/// # use bounds::{shrink::*, Refusal, Vec3};
/// assert_eq!(POLYGONS, i16::MAX as usize); // links are i16, with -1 for none
/// let bound = ShrinkBound::new(Vec3::ZERO, Vec3::ZERO, 0.04);
/// let without_bytes = |polygons| calculate_verts_shrunk(&bound, &[], polygons, &[]).err();
/// assert_eq!(without_bytes(POLYGONS), Some(Refusal::BufferTooShort));
/// assert_eq!(without_bytes(POLYGONS + 1), Some(Refusal::ListTooLong)); // looked for first
/// ```
pub const POLYGONS: usize = 32_767;

impl ShrinkBound {
    /// Of this box and margin, without a centre of its own and with the identity as transform.
    ///
    /// ```
    /// # use bounds::{Mat4, ShrinkBound, Vec3};
    /// let bound = ShrinkBound::new(Vec3::ZERO, Vec3::new(1.0, 1.0, 1.0), 0.04);
    /// assert_eq!((bound.center_geom, bound.transform), (Vec3::ZERO, Mat4::identity()));
    /// ```
    pub fn new(box_min: Vec3, box_max: Vec3, margin: f32) -> ShrinkBound {
        ShrinkBound { box_min, box_max, center_geom: Vec3::ZERO, margin, transform: Mat4::identity() }
    }
}

/// How vertices were shrunk.
///
/// ```
/// # use bounds::{calculate_verts_shrunk, ShrinkBound, ShrunkBy, Vec3};
/// let bound = |height: f32| ShrinkBound::new(Vec3::ZERO, Vec3::new(9.0, 9.0, height), 1.0);
/// let by = |height| calculate_verts_shrunk(&bound(height), &[], 0, &[Vec3::ZERO]).map(|shrunk| shrunk.by);
/// assert_eq!(by(8.0)?, ShrunkBy::Margin(1.0)); // the given one
/// assert_eq!(by(0.5)?, ShrunkBy::Margin(0.25)); // half the box is less
/// assert_eq!(by(0.0)?, ShrunkBy::Normals); // a flat box leaves no margin to try
/// # Ok::<(), bounds::Refusal>(())
/// ```
#[derive(Clone, Copy, Debug, PartialEq)]
pub enum ShrunkBy {
    /// By this margin, and clamped to the box: the first that no vertex crossed a triangle with.
    Margin(f32),
    /// By the given margin against the sum of each vertex's normals and not clamped, since no margin passed. The two ways
    /// are opposite, as in the source.
    Normals,
    /// There are no vertices.
    NoVertices,
}

/// The shrunk vertices, as many as were given.
///
/// ```
/// # use bounds::{calculate_verts_shrunk, Polygon, ShrinkBound, ShrunkBy, Vec3};
/// let vertices = [Vec3::ZERO, Vec3::new(1.0, 0.0, 0.0), Vec3::new(0.0, 1.0, 0.0)];
/// let triangle = Polygon::Triangle { material: 0, area: 0.5, v: [0, 1, 2], edges: [-1; 3] };
/// let flat = ShrinkBound::new(Vec3::ZERO, Vec3::new(1.0, 1.0, 0.0), 0.25);
/// let shrunk = calculate_verts_shrunk(&flat, &triangle.to_bytes(), 1, &vertices)?;
/// assert_eq!(shrunk.by, ShrunkBy::Normals); // nothing is clamped then
/// assert_eq!(shrunk.vertices, vertices.map(|v| Vec3 { z: 0.25, ..v }));
/// # Ok::<(), bounds::Refusal>(())
/// ```
#[derive(Clone, Debug, PartialEq)]
pub struct Shrunk {
    /// In the order of those that were given.
    pub vertices: Vec<Vec3>,
    /// How they came about.
    pub by: ShrunkBy,
}

/// Words of the work buffer for so many polygons and vertices.
///
/// ```
/// assert_eq!(bounds::shrink::work_len(2, 4), 76);
/// ```
pub fn work_len(polygons: usize, vertices: usize) -> usize {
    match (u32::try_from(polygons), u32::try_from(vertices)) {
        (Ok(p), Ok(v)) => ffi::bounds_shrink_work_len(p, v) as usize,
        _ => usize::MAX,
    }
}

/// Shrinks the vertices of the first `n` records of polygons.
///
/// The margin begins with the given one, or with half the box where that is less; a NaN is skipped. Each vertex is moved
/// against the normals of the triangles around it, and must cross none of the others on its way back, neither the given
/// nor the shrunk ones; else the margin is halved, while it is above 1e-6. What passes is clamped to the box, less the
/// margin, 0.025 at least. A triangle may name vertices that are not there: then a margin passes only if no vertex moves.
/// Links in the records do not matter, they are made anew.
///
/// # Errors
///
/// Refusals 1 (over [`POLYGONS`] polygons or [`VERTICES`] vertices), 2 (under 16 bytes a polygon), 6 (a record's kind is
/// above 4), 7 (there are vertices, and the margin to begin with is infinite), in this order.
///
/// ```
/// # use bounds::{calculate_verts_shrunk, Refusal, ShrinkBound, ShrunkBy, Vec3};
/// let bound = ShrinkBound::new(Vec3::new(-2.0, -2.0, -2.0), Vec3::new(2.0, 2.0, 2.0), 0.04);
/// // A vertex of no triangle is clamped all the same.
/// let shrunk = calculate_verts_shrunk(&bound, &[], 0, &[Vec3::new(9.0, 0.0, 0.0)])?;
/// assert_eq!((shrunk.by, shrunk.vertices), (ShrunkBy::Margin(0.04), vec![Vec3::new(1.96, 0.0, 0.0)]));
/// let endless = ShrinkBound { margin: f32::INFINITY, box_max: Vec3::new(f32::INFINITY, f32::NAN, f32::NAN), ..bound };
/// assert_eq!(calculate_verts_shrunk(&endless, &[], 0, &[Vec3::ZERO]), Err(Refusal::InfiniteMargin));
/// assert_eq!(calculate_verts_shrunk(&endless, &[], 0, &[])?.by, ShrunkBy::NoVertices);
/// # Ok::<(), Refusal>(())
/// ```
pub fn calculate_verts_shrunk(
    bound: &ShrinkBound,
    polygons: &[u8],
    n: usize,
    vertices: &[Vec3],
) -> Result<Shrunk, Refusal> {
    if n > POLYGONS || vertices.len() > VERTICES || polygons.len() < RECORD * n {
        // Nothing is allocated for what is refused.
        let refused = calculate_verts_shrunk_in(bound, polygons, n, vertices, &mut [], &mut []);
        return Err(refused.err().unwrap_or(Refusal::Unknown));
    }
    let (mut shrunk, mut work) = (vec![Vec3::ZERO; vertices.len()], vec![0; work_len(n, vertices.len())]);
    let by = calculate_verts_shrunk_in(bound, polygons, n, vertices, &mut shrunk, &mut work)?;
    Ok(Shrunk { vertices: shrunk, by })
}

/// [`calculate_verts_shrunk`] into a lent buffer, with another of [`work_len`] words to work in; longer ones will do. Points
/// past the number of vertices stay as they were. What the work buffer holds does not matter, nor what it holds afterwards.
///
/// # Errors
///
/// As there; refusal 2 also for a buffer that is too short. A refusal changes no point.
///
/// ```
/// # use bounds::{shrink::*, Refusal, Vec3};
/// let bound = ShrinkBound::new(Vec3::new(-2.0, -2.0, -2.0), Vec3::new(2.0, 2.0, 2.0), 0.04);
/// let (mut points, mut work) = ([Vec3::ZERO; 2], [0; 1]);
/// let by = calculate_verts_shrunk_in(&bound, &[], 0, &[Vec3::new(1.0, 0.0, 9.0)], &mut points, &mut work)?;
/// assert_eq!((by, points), (ShrunkBy::Margin(0.04), [Vec3::new(1.0, 0.0, 1.96), Vec3::ZERO]));
/// let short = calculate_verts_shrunk_in(&bound, &[], 0, &[Vec3::ZERO], &mut points, &mut []);
/// assert_eq!(short, Err(Refusal::BufferTooShort));
/// assert_eq!(calculate_verts_shrunk_in(&bound, &[5; 16], 1, &[], &mut [], &mut [0; 36]), Err(Refusal::UnknownKind));
/// # Ok::<(), Refusal>(())
/// ```
pub fn calculate_verts_shrunk_in(
    bound: &ShrinkBound,
    polygons: &[u8],
    n: usize,
    vertices: &[Vec3],
    points: &mut [Vec3],
    work: &mut [u32],
) -> Result<ShrunkBy, Refusal> {
    let work = cut(work, n, vertices.len());
    let words = (ffi::vector_words(vertices), ffi::vector_words_mut(points));
    let answer = ffi::calculate_verts_shrunk(*bound, n, polygons, vertices.len(), words, work);
    Refusal::check(answer.refusal)?;
    match answer.by {
        0 => Ok(ShrunkBy::NoVertices),
        1 => Ok(ShrunkBy::Margin(answer.margin)),
        2 => Ok(ShrunkBy::Normals),
        _ => Err(Refusal::Unknown),
    }
}

/// The work buffer in eight parts: corners, tri, firsts, spare, links, normals, olds, news. Each gets its length or what is
/// left, and the last all that is left: the library then finds a part too short where the whole is.
fn cut(work: &mut [u32], polygons: usize, vertices: usize) -> [&mut [u32]; 8] {
    let (p, v) = (3 * polygons.min(POLYGONS), vertices.min(VERTICES));
    parts(work, [p, p, p + v, p, p, p, 3 * p, usize::MAX])
}
