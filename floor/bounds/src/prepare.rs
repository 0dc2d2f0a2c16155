//! Prepare: from a mesh to all that a file holds of it.
//!
//! ```
//! use bounds::prepare::PolygonPlace;
//! use bounds::{BoundMaterial, Geometry, Polygon, Vec3};
//!
//! // A pyramid: four vertices and four triangles.
//! let at = Vec3::new;
//! let triangle = |v| Polygon::Triangle { material: 0, area: 0.0, v, edges: [-1; 3] };
//! let mut geometry = Geometry::new(Geometry::BVH);
//! geometry.vertices = vec![at(-1.0, -1.0, 0.0), at(1.0, -1.0, 0.0), at(0.0, 1.0, 0.0), at(0.0, 0.0, 1.0)];
//! geometry.polygons = [[0, 2, 1], [0, 1, 3], [1, 2, 3], [2, 0, 3]].map(triangle).to_vec();
//! geometry.materials = vec![BoundMaterial { data1: 7, data2: 0 }];
//!
//! let prepared = geometry.prepare()?;
//! assert_eq!((prepared.box_min, prepared.box_max), (at(-1.0, -1.0, 0.0), at(1.0, 1.0, 1.0)));
//! assert_eq!((prepared.materials_count, prepared.materials.len()), (1, 4));
//! assert_eq!(prepared.links(PolygonPlace(0)), [3, 2, 1].map(|k| Some(PolygonPlace(k)))); // the other three
//!
//! // Which triangles' boxes does the box from (0, 0, 0.5) to (1, 1, 1) meet?
//! let tree = prepared.bvh.as_ref().expect("kind 8 with polygons");
//! assert_eq!(tree.candidates(at(0.0, 0.0, 0.5), at(1.0, 1.0, 1.0)).places.len(), 4); // one leaf holds all
//! assert_eq!(tree.query(at(0.0, 0.0, 0.5), at(1.0, 1.0, 1.0)).len(), 3); // the ground lies below
//! # Ok::<(), bounds::Refusal>(())
//! ```

use crate::bvh::{built, parts, records_len, BuiltTree, RECORD};
use crate::geometry::MATERIALS_LEN;
use crate::octants::{lists_len, VERTICES};
use crate::shrink::POLYGONS;
use crate::{ffi, BoundMaterial, BoundVertex, Mat4, Octants, Polygon, Refusal, Vec3};

mod owned;
mod space;

pub use crate::prepared::{GivenPolygon, PolygonPlace, PreparedTree};
pub use owned::Prepare;
pub(crate) use owned::{material, stored_vertices};

/// Most materials. Of 256 different ones that are used the polygons are refused ([`Refusal::TooManyMaterials`]).
///
/// ```
/// # use bounds::{prepare::MATERIALS, BoundMaterial, Geometry, Refusal};
/// assert_eq!(MATERIALS, u8::MAX as usize + 1); // a polygon's material is a byte
/// let mut geometry = Geometry::new(Geometry::BVH);
/// geometry.materials = vec![BoundMaterial::default(); MATERIALS];
/// assert!(geometry.prepare().is_ok());
/// geometry.materials.push(BoundMaterial::default());
/// assert_eq!(geometry.prepare().err(), Some(Refusal::ListTooLong));
/// ```
pub const MATERIALS: usize = 256;

/// A geometry as it is modelled, by the source's names. Any floats will do.
///
/// ```
/// # use bounds::{Geometry, Vec3};
/// let geometry = Geometry { margin: 0.04, vertices: vec![Vec3::ZERO], ..Geometry::new(Geometry::PLAIN) };
/// assert!(format!("{geometry:?}").starts_with("Geometry { kind: 4, box_min: Vec3 { x: 0.0, y: 0.0, z: 0.0 }"));
/// ```
#[derive(Clone, Debug, PartialEq)]
#[allow(missing_docs)]
pub struct Geometry {
    /// [`Geometry::PLAIN`] or [`Geometry::BVH`].
    pub kind: u8,
    pub box_min: Vec3,
    pub box_max: Vec3,
    pub box_center: Vec3,
    pub sphere_center: Vec3,
    pub sphere_radius: f32,
    pub margin: f32,
    /// Added to the vertices where they meet the box and the transform.
    pub center_geom: Vec3,
    pub transform: Mat4,
    pub vertices: Vec<Vec3>,
    /// With the numbers of their materials. Links between them do not matter.
    pub polygons: Vec<Polygon>,
    pub materials: Vec<BoundMaterial>,
}

/// What is derived of a geometry, by the source's names. [`Prepared::polygon`], [`Prepared::links`], [`Prepared::given`] and
/// [`PreparedTree::candidates`] take and give places of polygons by their own type.
///
/// ```
/// # use bounds::{Geometry, Vec3};
/// let one = Vec3::new(1.0, 1.0, 1.0);
/// let geometry = Geometry { box_min: -one, box_max: one, vertices: vec![one], ..Geometry::new(Geometry::BVH) };
/// let prepared = geometry.prepare()?;
/// assert_eq!((prepared.box_max, prepared.vertices.stored[0].0), (one, 32_767));
/// # Ok::<(), bounds::Refusal>(())
/// ```
#[derive(Clone, Debug, PartialEq)]
#[allow(missing_docs)]
pub struct Prepared {
    pub quantum: Vec3,
    /// Of kind 8 with polygons the box, the centres and the radius are the tree's; else those that were given.
    pub box_min: Vec3,
    pub box_max: Vec3,
    pub box_center: Vec3,
    pub sphere_center: Vec3,
    pub sphere_radius: f32,
    /// As it was given: what is added to a vertex before the transform.
    pub center_geom: Vec3,
    /// Records of 16 bytes, their triangles linked; of kind 8 in the order of the tree's leaves.
    pub polygons: Vec<u8>,
    /// Each that is used, by first appearance among these polygons, filled up to four with (0, 0).
    pub materials: Vec<BoundMaterial>,
    /// How many they were before that.
    pub materials_count: usize,
    /// For each polygon its material's place in the list.
    pub polygon_material_indices: Vec<u8>,
    pub vertices: Quantised,
    /// Of kind 4, if there are vertices.
    pub vertices_shrunk: Option<Quantised>,
    /// Of kind 4, over the shrunk vertices before they were stored.
    pub octants: Option<Octants>,
    /// Of kind 8, if there are polygons.
    pub bvh: Option<PreparedTree>,
}

/// Vertices as they are stored, and the points that these stand for.
///
/// ```
/// # use bounds::{Geometry, Vec3};
/// let (one, half) = (Vec3::new(1.0, 1.0, 1.0), Vec3::new(0.5, 0.0, 0.0));
/// let geometry = Geometry { box_min: -one, box_max: one, vertices: vec![half], ..Geometry::new(Geometry::BVH) };
/// let quantised = geometry.prepare()?.vertices;
/// assert_eq!((quantised.stored[0].0, quantised.floats[0].x < 0.5), (16_383, true)); // toward zero
/// # Ok::<(), bounds::Refusal>(())
/// ```
#[derive(Clone, Debug, Default, PartialEq)]
#[allow(missing_docs)]
pub struct Quantised {
    pub stored: Vec<BoundVertex>,
    pub floats: Vec<Vec3>,
}

impl Geometry {
    /// The kind that shrinks its vertices and has octants.
    ///
    /// ```
    /// # use bounds::{Geometry, Vec3};
    /// let geometry = Geometry { vertices: vec![Vec3::ZERO], ..Geometry::new(Geometry::PLAIN) };
    /// let prepared = geometry.prepare()?;
    /// assert_eq!(prepared.vertices_shrunk.expect("a vertex").stored.len(), 1);
    /// assert_eq!(prepared.octants.expect("kind 4").items[7], [0]);
    /// # Ok::<(), bounds::Refusal>(())
    /// ```
    pub const PLAIN: u8 = 4;
    /// The kind that has a tree.
    ///
    /// ```
    /// # use bounds::{Geometry, Polygon, Vec3};
    /// let mut geometry = Geometry::new(Geometry::BVH);
    /// geometry.vertices = vec![Vec3::new(1.0, 2.0, 3.0)];
    /// geometry.polygons = vec![Polygon::Sphere { material: 0, index: 0, radius: 0.5 }];
    /// let prepared = geometry.prepare()?;
    /// assert_eq!(prepared.box_max, Vec3::new(1.5, 2.5, 3.5)); // the tree's box, not the given one
    /// assert!(prepared.bvh.is_some() && prepared.octants.is_none());
    /// # Ok::<(), bounds::Refusal>(())
    /// ```
    pub const BVH: u8 = 8;

    /// An empty one of this kind: all zero, and the identity as transform.
    ///
    /// ```
    /// # use bounds::Geometry;
    /// let prepared = Geometry::new(Geometry::PLAIN).prepare()?;
    /// assert!(prepared.vertices_shrunk.is_none() && prepared.octants.is_some() && prepared.bvh.is_none());
    /// assert_eq!((prepared.materials.len(), prepared.materials_count), (4, 0));
    /// # Ok::<(), bounds::Refusal>(())
    /// ```
    pub fn new(kind: u8) -> Geometry {
        let Bound {
            box_min, box_max, box_center, sphere_center, sphere_radius, margin, center_geom, transform, ..
        } = Bound::default();
        Geometry {
            kind,
            box_min,
            box_max,
            box_center,
            sphere_center,
            sphere_radius,
            margin,
            center_geom,
            transform,
            vertices: Vec::new(),
            polygons: Vec::new(),
            materials: Vec::new(),
        }
    }

    /// All that is derived of it. Words that are copied keep their bits: a NaN in the box, the centres, the radius, and in a
    /// polygon's radius or area.
    ///
    /// Of kind 4 the time is bounded but can be long: see [`calculate_verts_shrunk`](crate::calculate_verts_shrunk).
    ///
    /// # Errors
    ///
    /// Refusals 6 (a kind that is none of the two), 1 (over [`POLYGONS`] polygons, [`VERTICES`] vertices or [`MATERIALS`]
    /// materials), 8 (the polygons use 256 materials), 7 (kind 4 with vertices, and the margin to begin with is infinite), 4
    /// (kind 8, and the tree has over 32,767 nodes), in this order.
    ///
    /// ```
    /// # use bounds::{BoundMaterial, Geometry, Polygon, Refusal, Vec3};
    /// assert_eq!(Geometry::new(5).prepare().err(), Some(Refusal::UnknownKind));
    /// let mut many = Geometry::new(Geometry::PLAIN);
    /// many.polygons = (0..=255).map(|material| Polygon::Sphere { material, index: 0, radius: 1.0 }).collect();
    /// many.materials = (0..256).map(|data1| BoundMaterial { data1, data2: 0 }).collect();
    /// assert_eq!(many.prepare().err(), Some(Refusal::TooManyMaterials));
    /// many.polygons.pop();
    /// assert_eq!(many.prepare()?.materials_count, 255);
    /// (many.margin, many.box_max.x) = (f32::INFINITY, f32::INFINITY);
    /// (many.box_max.y, many.box_max.z) = (f32::NAN, f32::NAN);
    /// many.vertices.push(Vec3::ZERO);
    /// assert_eq!(many.prepare().err(), Some(Refusal::InfiniteMargin));
    /// # Ok::<(), Refusal>(())
    /// ```
    pub fn prepare(&self) -> Result<Prepared, Refusal> {
        Prepare::default().prepare(self)
    }
}

/// What a geometry has beside its lists. It is given to the library as it lies in memory, as `bounds_bound` of the C interface.
///
/// ```
/// # use bounds::prepare::Bound;
/// let bound = Bound { kind: 8, margin: 0.04, ..Bound::default() };
/// assert_eq!(std::mem::size_of_val(&bound), 4 * (1 + 3 * 4 + 2 + 3 + 16));
/// ```
#[derive(Clone, Copy, Debug, PartialEq)]
#[allow(missing_docs)]
#[repr(C)]
pub struct Bound {
    pub kind: u32,
    pub box_min: Vec3,
    pub box_max: Vec3,
    pub box_center: Vec3,
    pub sphere_center: Vec3,
    pub sphere_radius: f32,
    pub margin: f32,
    pub center_geom: Vec3,
    pub transform: Mat4,
}

/// Kind 0, which is none; all zero, and the identity as transform.
impl Default for Bound {
    fn default() -> Bound {
        let zero = Vec3::ZERO;
        Bound {
            kind: 0,
            box_min: zero,
            box_max: zero,
            box_center: zero,
            sphere_center: zero,
            sphere_radius: 0.0,
            margin: 0.0,
            center_geom: zero,
            transform: Mat4::identity(),
        }
    }
}

impl Bound {
    /// That of a geometry.
    ///
    /// ```
    /// # use bounds::{prepare::Bound, Geometry};
    /// assert_eq!(Bound::of(&Geometry::new(4)), Bound { kind: 4, ..Bound::default() });
    /// ```
    pub fn of(geometry: &Geometry) -> Bound {
        let &Geometry { kind, box_min, box_max, box_center, sphere_center, sphere_radius, margin, .. } = geometry;
        let &Geometry { center_geom, transform, .. } = geometry;
        let kind = kind as u32;
        Bound { kind, box_min, box_max, box_center, sphere_center, sphere_radius, margin, center_geom, transform }
    }
}

/// A box, its centre, and a sphere.
///
/// ```
/// # use bounds::{prepare::Frame, Vec3};
/// assert_eq!(Frame::default().box_max, Vec3::ZERO);
/// ```
#[derive(Clone, Copy, Debug, Default, PartialEq)]
#[allow(missing_docs)]
#[repr(C)]
pub struct Frame {
    pub box_min: Vec3,
    pub box_max: Vec3,
    pub box_center: Vec3,
    pub sphere_center: Vec3,
    pub sphere_radius: f32,
}

/// What is lent to be prepared: so many polygons, in records of 16 bytes, with the numbers of their materials.
///
/// ```
/// # use bounds::prepare::{Bound, Mesh};
/// let bound = Bound { kind: 4, ..Bound::default() };
/// let mesh = Mesh { bound, polygon_count: 1, polygons: &[1; 16], numbers: &[0], materials: &[], vertices: &[] };
/// assert_eq!(mesh.polygons.len(), 16 * mesh.polygon_count); // see `prepare`
/// ```
#[derive(Clone, Copy, Debug)]
#[allow(missing_docs)]
pub struct Mesh<'a> {
    pub bound: Bound,
    pub polygon_count: usize,
    pub polygons: &'a [u8],
    pub numbers: &'a [u8],
    pub materials: &'a [BoundMaterial],
    pub vertices: &'a [Vec3],
}

/// Where it is written to, and a buffer to work in. The sizes of [`Lengths`] are needed whatever the kind is; longer ones
/// will do. What a kind does not write to stays as it was, and so does what lies behind.
///
/// ```
/// # use bounds::{prepare::{Buffers, Lengths}, Vec3};
/// let of = Lengths::of(1, 3); // a polygon and three vertices
/// let to = Buffers {
///     materials: &mut vec![0; of.materials],
///     indices: &mut vec![0; of.indices],
///     polygons: &mut vec![0; of.polygons],
///     vertices: &mut vec![0; of.vertices],
///     floats: &mut vec![Vec3::ZERO; of.floats],
///     shrunk: &mut vec![0; of.shrunk],
///     shrunk_floats: &mut vec![Vec3::ZERO; of.shrunk_floats],
///     octants: &mut vec![0; of.octants],
///     node_bytes: &mut vec![0; of.node_bytes],
///     tree_bytes: &mut vec![0; of.tree_bytes],
///     order: &mut vec![0; of.order],
///     work: &mut vec![0; of.work],
/// };
/// assert_eq!((to.polygons.len(), to.vertices.len(), to.node_bytes.len()), (16, 6 * 3, 16 * (2 * 1 + 1)));
/// ```
#[derive(Debug)]
pub struct Buffers<'a> {
    /// Eight bytes a material, filled up to four with (0, 0).
    pub materials: &'a mut [u8],
    /// A polygon's place among them.
    pub indices: &'a mut [u8],
    /// Records of 16 bytes.
    pub polygons: &'a mut [u8],
    /// Six bytes a vertex, three i16.
    pub vertices: &'a mut [u8],
    /// The points that these stand for.
    pub floats: &'a mut [Vec3],
    /// The same of the shrunk vertices; kind 4.
    pub shrunk: &'a mut [u8],
    /// The same of the shrunk vertices; kind 4.
    pub shrunk_floats: &'a mut [Vec3],
    /// Eight words a vertex: of v vertices list k begins at word k · v; kind 4.
    pub octants: &'a mut [u32],
    /// Kind 8.
    pub node_bytes: &'a mut [u8],
    /// Kind 8.
    pub tree_bytes: &'a mut [u8],
    /// Kind 8.
    pub order: &'a mut [u16],
    /// What it holds does not matter, nor what it holds afterwards.
    pub work: &'a mut [u32],
}

/// The least lengths of [`Buffers`].
///
/// ```
/// # use bounds::prepare::Lengths;
/// assert_eq!(Lengths::of(0, 0).materials, 2048);
/// ```
#[derive(Clone, Copy, Debug, PartialEq, Eq)]
#[allow(missing_docs)]
pub struct Lengths {
    pub materials: usize,
    pub indices: usize,
    pub polygons: usize,
    pub vertices: usize,
    pub floats: usize,
    pub shrunk: usize,
    pub shrunk_floats: usize,
    pub octants: usize,
    pub node_bytes: usize,
    pub tree_bytes: usize,
    pub order: usize,
    pub work: usize,
}

impl Lengths {
    /// For so many polygons and vertices.
    ///
    /// ```
    /// let lengths = bounds::prepare::Lengths::of(2, 3);
    /// assert_eq!((lengths.octants, lengths.work), (24, 55 * 2 + 13 * 3 + 8));
    /// ```
    pub fn of(polygons: usize, vertices: usize) -> Lengths {
        let (p, v) = (polygons, vertices);
        let bytes = v.saturating_mul(6);
        Lengths {
            materials: MATERIALS_LEN,
            indices: p,
            polygons: p.saturating_mul(RECORD),
            vertices: bytes,
            floats: v,
            shrunk: bytes,
            shrunk_floats: v,
            octants: lists_len(v),
            node_bytes: records_len(p),
            tree_bytes: records_len(p),
            order: p,
            work: work_len(p, v),
        }
    }
}

/// Words of the work buffer for so many polygons and vertices.
///
/// ```
/// assert_eq!(bounds::prepare::work_len(1, 1), 76);
/// ```
pub fn work_len(polygons: usize, vertices: usize) -> usize {
    match (u32::try_from(polygons), u32::try_from(vertices)) {
        (Ok(p), Ok(v)) => ffi::bounds_prepare_work_len(p, v) as usize,
        _ => usize::MAX,
    }
}

/// What [`prepare()`] answers beside what it writes.
///
/// ```
/// # use bounds::{prepare::{Frame, Values}, Vec3};
/// let frame = Frame::default();
/// let none = Values { frame, quantum: Vec3::ZERO, materials_count: 0, octants: [0; 8], built: None };
/// assert!(format!("{none:?}").contains("materials_count: 0"));
/// ```
#[derive(Clone, Copy, Debug, PartialEq)]
#[allow(missing_docs)]
pub struct Values {
    /// Of kind 8 with polygons the tree's; else as it was given.
    pub frame: Frame,
    /// Of the box in it.
    pub quantum: Vec3,
    /// Before they are filled up to four.
    pub materials_count: usize,
    /// Of kind 4 the indices in each list of octants; else 0.
    pub octants: [usize; 8],
    /// Of kind 8 with polygons.
    pub built: Option<BuiltTree>,
}

/// [`Geometry::prepare`] in lent buffers.
///
/// # Errors
///
/// As there; after 1 also refusals 2 (a buffer too short, inputs too) and 6 (a polygon's kind is above 4). A refusal changes
/// nothing but the work buffer.
///
/// ```
/// # use bounds::{prepare::*, Geometry, Refusal, Vec3};
/// let vertices = [Vec3::new(0.5, 0.0, 0.0)];
/// let one = Vec3::new(1.0, 1.0, 1.0);
/// let bound = Bound { kind: 8, box_min: -one, box_max: one, ..Bound::default() };
/// let mesh = Mesh { bound, polygon_count: 0, polygons: &[], numbers: &[], materials: &[], vertices: &vertices };
/// let (mut materials, mut work) = ([7; 2048], vec![0; work_len(0, 1)]);
/// let (mut stored, mut floats, mut nodes, mut trees) = ([7; 6], [one], [7; 16], [7; 16]);
/// let mut to = |work: &mut [u32]| {
///     prepare(&mesh, Buffers {
///         materials: &mut materials,
///         indices: &mut [],
///         polygons: &mut [],
///         vertices: &mut stored,
///         floats: &mut floats,
///         shrunk: &mut [7; 6],
///         shrunk_floats: &mut [one],
///         octants: &mut [7; 8],
///         node_bytes: &mut nodes,
///         tree_bytes: &mut trees,
///         order: &mut [],
///         work,
///     })
/// };
/// assert_eq!(to(&mut work[1..]), Err(Refusal::BufferTooShort));
/// let values = to(&mut work)?;
/// assert_eq!((values.frame.box_max, values.built), (one, None));
/// assert_eq!((stored, nodes), ([0xFF, 0x3F, 0, 0, 0, 0], [7; 16])); // 16,383 units of 1/32,767
/// assert_eq!((materials[31], materials[32]), (0, 7));
/// # Ok::<(), Refusal>(())
/// ```
pub fn prepare(mesh: &Mesh, to: Buffers) -> Result<Values, Refusal> {
    let counts =
        ffi::Counts { polygons: mesh.polygon_count, vertices: mesh.vertices.len(), materials: mesh.materials.len() };
    let from = ffi::Inputs {
        polygons: mesh.polygons,
        numbers: mesh.numbers,
        materials: ffi::words(mesh.materials),
        vertices: ffi::words(mesh.vertices),
    };
    let outputs = ffi::Outputs {
        materials: to.materials,
        indices: to.indices,
        polygons: to.polygons,
        vertices: to.vertices,
        floats: ffi::words_mut(to.floats),
        shrunk: to.shrunk,
        shrunk_floats: ffi::words_mut(to.shrunk_floats),
        octants: to.octants,
        node_bytes: to.node_bytes,
        tree_bytes: to.tree_bytes,
        order: to.order,
    };
    let work = cut(to.work, mesh.polygon_count, mesh.vertices.len());
    let answer = ffi::prepare(mesh.bound, counts, from, outputs, work);
    Refusal::check(answer.refusal)?;
    Ok(Values {
        frame: answer.frame,
        quantum: answer.quantum,
        materials_count: answer.materials,
        octants: answer.octants.counts.map(|count| count as usize),
        // A tree has a node at least.
        built: (answer.tree.nodes > 0).then(|| built(&answer.tree)),
    })
}

/// The work buffer in ten parts: entries, places, temp, stack, rows, points, sorted, centres, olds, news. Each gets its length
/// or what is left, and the last all that is left: the library then finds a part too short where the whole is.
fn cut(work: &mut [u32], polygons: usize, vertices: usize) -> [&mut [u32]; 10] {
    let (p, v) = (polygons.min(POLYGONS), vertices.min(VERTICES));
    let lists = [7 * p + 4 * v, 3 * p + 3 * v, 3 * p + v, 3 * p + v, 16 * p + 8 + v, 3 * v];
    let [entries, places, temp, stack, rows, points] = lists;
    parts(work, [entries, places, temp, stack, rows, points, p, 4 * p, 9 * p, usize::MAX])
}
