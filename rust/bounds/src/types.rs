//! The values that are lent to the library as they lie in memory. They know nothing of it: ffi.rs rests on them, and the
//! modules that call it on both.

/// A point or a direction.
///
/// ```
/// # use bounds::Vec3;
/// let up = Vec3 { z: 3.0, ..Vec3::ZERO };
/// assert_eq!(up, Vec3::new(0.0, -0.0, 3.0)); // compared as floats: -0 is 0,
/// assert_ne!(Vec3 { x: f32::NAN, ..up }, Vec3 { x: f32::NAN, ..up }); // and a NaN equals nothing
/// ```
#[derive(Clone, Copy, Debug, Default, PartialEq)]
#[repr(C)]
#[allow(missing_docs)]
pub struct Vec3 {
    pub x: f32,
    pub y: f32,
    pub z: f32,
}

/// A point with its fourth coordinate.
///
/// ```
/// # use bounds::{Mat4, Vec3, Vec4};
/// let mut m = Mat4::identity();
/// m.0[3] = 1.0; // x goes into the fourth
/// let Vec4 { x, w, .. } = m.transform_point(Vec3::new(3.0, 0.0, 0.0));
/// assert_eq!(x / w, 0.75); // 3 / (3 + 1): dividing is left to the caller
/// ```
#[derive(Clone, Copy, Debug, Default, PartialEq)]
#[repr(C)]
#[allow(missing_docs)]
pub struct Vec4 {
    pub x: f32,
    pub y: f32,
    pub z: f32,
    pub w: f32,
}

/// A transform, row by row: a point goes through as `p * M`, and the translation is the fourth row.
///
/// ```
/// # use bounds::{Mat4, Vec3};
/// // x goes to y and y to -x, a quarter turn around z; then all moves by 5.
/// let m = Mat4([0.0, 1.0, 0.0, 0.0, -1.0, 0.0, 0.0, 0.0, 0.0, 0.0, 1.0, 0.0, 5.0, 0.0, 0.0, 1.0]);
/// assert_eq!(m.transform_point(Vec3::new(1.0, 2.0, 3.0)).xyz(), Vec3::new(5.0 - 2.0, 1.0, 3.0));
/// ```
#[derive(Clone, Copy, Debug, PartialEq)]
#[repr(C)]
pub struct Mat4(pub [f32; 16]);

/// An entry of the list: a mark and the box of an item, which is known by its place in the list. Any floats will do.
///
/// It is lent to the library as it lies in memory, as `bounds_item` of the C interface: seven words.
///
/// ```
/// # use bounds::{BvhItem, Tree, Vec3};
/// let items = [None, Some([Vec3::ZERO, Vec3::new(1.0, 1.0, 1.0)])].map(BvhItem::from);
/// assert_eq!(items.map(|item| item.present), [0, 1]);
/// assert_eq!(Tree::build(&items, 4)?.query(Vec3::ZERO, Vec3::ZERO), [1]); // its place, absent ones counted
/// # Ok::<(), bounds::Refusal>(())
/// ```
#[derive(Clone, Copy, Debug, Default, PartialEq)]
#[allow(missing_docs)]
#[repr(C)]
pub struct BvhItem {
    /// Any number but 0 where the entry is present.
    pub present: u32,
    pub min: Vec3,
    pub max: Vec3,
}

/// The records that are walked over. Any bytes will do: damaged ones are refused where they are read.
///
/// ```
/// # use bounds::{walk::{walk, Records}, BvhItem, Refusal, Tree, Vec3};
/// let tree = Tree::build(&[BvhItem::new(Vec3::ZERO, Vec3::new(1.0, 1.0, 1.0))], 1)?;
/// let (built, records) = (tree.built(), tree.records());
/// assert_eq!((records.nodes_count, records.node_bytes.len()), (1, 3 * 16)); // the padding is not counted
/// let damaged = Records { node_bytes: &[0xFF; 16], ..records }; // a leaf of -1 items
/// let answer = walk(Vec3::ZERO, Vec3::ZERO, built.bb_center, built.quantum_inverse, &damaged, &mut [0]);
/// assert_eq!(answer.unwrap_err().refusal, Refusal::NodeRecord);
/// # Ok::<(), Refusal>(())
/// ```
#[derive(Clone, Copy, Debug)]
pub struct Records<'a> {
    /// Node records, 16 bytes each, in preorder.
    pub node_bytes: &'a [u8],
    /// Nodes, without the padding.
    pub nodes_count: usize,
    /// Tree records, 16 bytes each.
    pub tree_bytes: &'a [u8],
    /// Trees.
    pub trees_count: usize,
    /// Positions that leaves may name: the entries of the list at threshold 1, else the present items.
    pub items_count: usize,
}

/// A child of a composite: a mark, its box, margin and transform. Any floats will do.
///
/// It is lent to the library as it lies in memory: 24 words.
///
/// ```
/// # use bounds::{Child, Mat4, Vec3};
/// let child = Child::new(Vec3::ZERO, Vec3::new(1.0, 1.0, 1.0), 0.04, Mat4::identity());
/// assert!(child.present != 0 && Child::ABSENT.present == 0);
/// ```
#[derive(Clone, Copy, Debug, PartialEq)]
#[allow(missing_docs)]
#[repr(C)]
pub struct Child {
    /// Any number but 0 where the child is present.
    pub present: u32,
    pub box_min: Vec3,
    pub box_max: Vec3,
    pub margin: f32,
    pub transform: Mat4,
}

/// A material of a geometry.
///
/// ```
/// # use bounds::geometry::{build_materials, BoundMaterial, MATERIALS_LEN};
/// let materials = [BoundMaterial { data1: 1, data2: 0 }, BoundMaterial { data1: 1, data2: 2 }];
/// let mut list = [0; MATERIALS_LEN];
/// assert_eq!(build_materials(&[0, 1, 0], &materials, &mut list, &mut [0; 3])?, 2); // they differ by one word
/// assert_eq!(list[8..16], [1, 0, 0, 0, 2, 0, 0, 0]);
/// # Ok::<(), bounds::Refusal>(())
/// ```
#[derive(Clone, Copy, PartialEq, Eq, Hash, Default, Debug)]
#[repr(C)]
#[allow(missing_docs)]
pub struct BoundMaterial {
    pub data1: u32,
    pub data2: u32,
}

/// A vertex in units of its geometry's quantum.
///
/// ```
/// # use bounds::{BoundVertex, Vec3};
/// let quantum = Vec3::new(0.25, 0.25, 0.25);
/// let stored = BoundVertex::from_vec(Vec3::new(1.0, -0.6, 0.2), quantum);
/// assert_eq!(stored, BoundVertex(4, -2, 0));
/// assert_eq!(stored.to_vec(quantum), Vec3::new(1.0, -0.5, 0.0)); // toward zero, by less than a quantum
/// ```
#[derive(Clone, Copy, PartialEq, Eq, Debug)]
#[repr(C)]
pub struct BoundVertex(pub i16, pub i16, pub i16);

/// What shrinking reads of a geometry beside its vertices and polygons. Any floats will do.
///
/// It is given to the library as it lies in memory, as `bounds_geometry` of the C interface: 26 floats.
///
/// ```
/// # use bounds::{calculate_verts_shrunk, ShrinkBound, Vec3};
/// let (low, high) = (Vec3::new(8.0, -2.0, -2.0), Vec3::new(12.0, 2.0, 2.0));
/// let bound = ShrinkBound { center_geom: Vec3::new(10.0, 0.0, 0.0), ..ShrinkBound::new(low, high, 0.5) };
/// let shrunk = calculate_verts_shrunk(&bound, &[], 0, &[Vec3::new(9.0, 0.0, 0.0)])?;
/// assert_eq!(shrunk.vertices, [Vec3::new(1.5, 0.0, 0.0)]); // 12 less the margin, less the centre
/// # Ok::<(), bounds::Refusal>(())
/// ```
#[derive(Clone, Copy, Debug, PartialEq)]
#[allow(missing_docs)]
#[repr(C)]
pub struct ShrinkBound {
    pub box_min: Vec3,
    pub box_max: Vec3,
    /// Added to the vertices where they meet the box and the transform.
    pub center_geom: Vec3,
    pub margin: f32,
    pub transform: Mat4,
}
