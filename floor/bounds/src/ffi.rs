//! The C interface as include/bounds.h has it, and the only unsafe code of this crate.
//!
//! The declarations below claim to be those of libbounds.a and libbounds_prepare.a, and that a call may be made with any
//! argument. The first no tool checks: the sizes and alignments of the structs are asserted as this file compiles, and the
//! tests and `compare` make every call. The second rests on this: the library is proved total and in bounds for every
//! argument that its C signature admits. For what reaches no memory it holds line by line for the reason beside it, for what
//! does by the reasons of [`memory`], which makes the calls.
#![allow(unsafe_code)]

use crate::geometry::Polygon;
use crate::prepare::{Bound, Frame};
use crate::types::{BoundMaterial, BoundVertex, BvhItem, Child, Mat4, ShrinkBound, Vec3, Vec4};

/// What may be lent to the library as it lies in memory.
///
/// # Safety
///
/// It is made of words, floats or smaller numbers all through, without padding: any bits that are written there are a value.
pub unsafe trait Lent {}

// SAFETY: numbers.
unsafe impl Lent for u8 {}
unsafe impl Lent for u16 {}
unsafe impl Lent for u32 {}
unsafe impl Lent for f32 {}
// SAFETY: `repr(C)`, of u32 and f32 alone: 3, 7, 24 and 2 of them, which the layouts at the end hold to their sizes.
unsafe impl Lent for Vec3 {}
unsafe impl Lent for BvhItem {}
unsafe impl Lent for Child {}
unsafe impl Lent for BoundMaterial {}

/// Where a slice begins, and how many cells of another type it has.
#[inline]
fn lent<T: Lent, As: Lent>(cells: &[T]) -> (*const As, usize) {
    (cells.as_ptr().cast(), const { cells_each::<T, As>() } * cells.len())
}

/// [`lent`], to be written.
#[inline]
fn lent_mut<T: Lent, As: Lent>(cells: &mut [T]) -> (*mut As, usize) {
    (cells.as_mut_ptr().cast(), const { cells_each::<T, As>() } * cells.len())
}

/// How many cells of another type fill one; a type that does not, or that is aligned otherwise, stops the build.
const fn cells_each<T, As>() -> usize {
    assert!(size_of::<T>().is_multiple_of(size_of::<As>()) && align_of::<T>() >= align_of::<As>());
    size_of::<T>() / size_of::<As>()
}

/// The words of what is lent, as they lie in memory.
#[inline]
pub fn words<T: Lent>(cells: &[T]) -> &[u32] {
    let (first, count) = lent(cells);
    // SAFETY: so many words lie there, initialised, aligned and any; they are borrowed for as long as the cells.
    unsafe { std::slice::from_raw_parts(first, count) }
}

/// [`words`] to be written.
#[inline]
pub fn words_mut<T: Lent>(cells: &mut [T]) -> &mut [u32] {
    let (first, count) = lent_mut(cells);
    // SAFETY: as there; the borrow is exclusive, and any words are a value of what they were lent as.
    unsafe { std::slice::from_raw_parts_mut(first, count) }
}

/// Declares functions that reach memory, and makes a safe one of the same name for each, over slices.
///
/// The header's arguments stand in the header's order. One that is a pointer and a length there is a slice here, `&[T]` or
/// `&mut [T]`; `&[T as U]` is a slice of T that the header has as cells of type U, and the length is counted in those. Several
/// that are taken as one array stand in brackets, `[a, b as U]: [&mut [u32]; 2]`.
macro_rules! memory {
    ($($(#[$about:meta])* fn $name:ident($($args:tt)*) -> $answer:ty;)*) => {
        $( memory! { @ [$($args)*,] { $(#[$about])* $name $answer } [] [] [] [] } )*
    };
    (@ [$x:ident: &[$t:ty $(as $u:ty)?], $($rest:tt)*] $of:tt [$($taken:tt)*] [$($declared:tt)*] [$($made:tt)*] [$($passed:tt)*]) => {
        memory! { @ [$($rest)*] $of [$($taken)* $x: &[$t],] [$($declared)* $x: *const cell!($t $(, $u)?), _: usize,]
            [$($made)* let $x = lent($x);] [$($passed)* $x.0, $x.1,] }
    };
    (@ [$x:ident: &mut [$t:ty $(as $u:ty)?], $($rest:tt)*] $of:tt [$($taken:tt)*] [$($declared:tt)*] [$($made:tt)*] [$($passed:tt)*]) => {
        memory! { @ [$($rest)*] $of [$($taken)* $x: &mut [$t],] [$($declared)* $x: *mut cell!($t $(, $u)?), _: usize,]
            [$($made)* let $x = lent_mut($x);] [$($passed)* $x.0, $x.1,] }
    };
    (@ [[$($x:ident),*]: [&[u32]; $n:literal], $($rest:tt)*] $of:tt [$($taken:tt)*] [$($declared:tt)*] [$($made:tt)*] [$($passed:tt)*]) => {
        memory! { @ [$($rest)*] $of [$($taken)* [$($x),*]: [&[u32]; $n],] [$($declared)* $($x: *const u32, _: usize,)*]
            [$($made)* $(let $x = lent($x);)*] [$($passed)* $($x.0, $x.1,)*] }
    };
    (@ [[$($x:ident $(as $u:ty)?),*]: [&mut [u32]; $n:literal], $($rest:tt)*] $of:tt [$($taken:tt)*] [$($declared:tt)*] [$($made:tt)*] [$($passed:tt)*]) => {
        memory! { @ [$($rest)*] $of [$($taken)* [$($x),*]: [&mut [u32]; $n],] [$($declared)* $($x: *mut cell!(u32 $(, $u)?), _: usize,)*]
            [$($made)* $(let $x = lent_mut($x);)*] [$($passed)* $($x.0, $x.1,)*] }
    };
    (@ [[$($x:ident),*]: [$t:ty; $n:literal], $($rest:tt)*] $of:tt [$($taken:tt)*] [$($declared:tt)*] $made:tt [$($passed:tt)*]) => {
        memory! { @ [$($rest)*] $of [$($taken)* [$($x),*]: [$t; $n],] [$($declared)* $($x: $t,)*] $made [$($passed)* $($x,)*] }
    };
    (@ [$x:ident: $t:ty, $($rest:tt)*] $of:tt [$($taken:tt)*] [$($declared:tt)*] $made:tt [$($passed:tt)*]) => {
        memory! { @ [$($rest)*] $of [$($taken)* $x: $t,] [$($declared)* $x: $t,] $made [$($passed)* $x,] }
    };
    (@ [] { $(#[$about:meta])* $name:ident $answer:ty } [$($taken:tt)*] [$($declared:tt)*] [$($made:tt)*] [$($passed:tt)*]) => {
        $(#[$about])*
        #[inline]
        #[allow(clippy::too_many_arguments)]
        pub fn $name($($taken)*) -> $answer {
            unsafe extern "C" {
                fn $name($($declared)*) -> $answer;
            }
            $($made)*
            // SAFETY: the library reaches memory only through each pointer and within the length behind it. Each pair comes
            // from one slice, whose cells are initialised; as `Lent` they may be read as what they are lent as, and hold a
            // value whatever is written. A shared slice is only read; an exclusive one overlaps no other. What is passed by
            // value may be any: a count is held to the lengths, and a record, a vertex or a child is reached only where the
            // slice was found long enough for it. The structs have the header's fields in the header's order.
            unsafe { $name($($passed)*) }
        }
    };
}

/// The type of a lent slice's cells, or the one that it is lent as.
macro_rules! cell {
    ($t:ty) => {
        $t
    };
    ($t:ty, $u:ty) => {
        $u
    };
}

/// `bounds_aabb`.
#[derive(Clone, Copy)]
#[repr(C)]
pub struct Aabb {
    pub min: Vec3,
    pub max: Vec3,
}

/// `bounds_aabb` as an answer, by its six floats: as two corners it is copied by eight bytes and four, and a copy that
/// crosses two of the callee's stores waits for both.
#[repr(C)]
pub struct Corners(pub [f32; 6]);

/// `bounds_words3`.
#[derive(Clone, Copy)]
#[repr(C)]
pub struct Words3 {
    pub x: u32,
    pub y: u32,
    pub z: u32,
}

/// `bounds_units`.
#[derive(Clone, Copy)]
#[repr(C)]
pub struct Scale {
    pub cen: Vec3,
    pub inverse: Vec3,
    pub quantum: Vec3,
}

/// `bounds_build_answer`.
#[derive(Clone, Copy)]
#[repr(C)]
pub struct BuildAnswer {
    pub refusal: u32,
    pub nodes: usize,
    pub capacity: usize,
    pub trees: usize,
    pub present: usize,
    pub min: Words3,
    pub max: Words3,
    pub scale: Scale,
}

/// `bounds_bvh`.
#[derive(Clone, Copy)]
#[repr(C)]
pub struct Bvh {
    pub nodes_address: u64,
    pub nodes_count: u32,
    pub nodes_capacity: u32,
    pub bb_min: Words3,
    pub bb_max: Words3,
    pub bb_center: Words3,
    pub quantum_inverse: Words3,
    pub quantum: Words3,
    pub trees_address: u64,
    pub trees_count: u32,
}

/// `bounds_walk_answer`.
#[derive(Clone, Copy)]
#[repr(C)]
pub struct WalkAnswer {
    pub refusal: u32,
    pub reads: usize,
    pub handed: usize,
}

/// `bounds_premises`.
#[derive(Clone, Copy)]
#[repr(C)]
pub struct Premises {
    pub refusal: u32,
    pub fault: u32,
    pub place: u32,
}

unsafe extern "C" {
    // Scalars by value: no memory is reached. The numbers that stand for an order are read as numbers, so that none of
    // them would be invalid.
    pub safe fn bounds_value(word: u32) -> f32; // any word; a NaN's gives a NaN
    pub safe fn bounds_bits(x: f32) -> u32; // any float; the library asks for no bits of a NaN
    pub safe fn bounds_value_bits(word: u32) -> u32; // any word
    pub safe fn bounds_relate(a: f32, b: f32) -> u32; // any floats; unordered is an answer
    pub safe fn bounds_cmp_f32(a: f32, b: f32) -> i32; // any floats; NaN has its place
    pub safe fn bounds_order_key(word: u32) -> u32; // any word; no key overflows
    pub safe fn bounds_vmin(a: f32, b: f32) -> f32; // any floats; a comparison and a choice
    pub safe fn bounds_vmax(a: f32, b: f32) -> f32; // likewise
    pub safe fn bounds_vmin_word(a: u32, b: u32) -> u32; // any words; the word is copied
    pub safe fn bounds_vmax_word(a: u32, b: u32) -> u32; // likewise
    pub safe fn bounds_min_number(a: f32, b: f32) -> f32; // any floats; a comparison and a choice
    pub safe fn bounds_max_number(a: f32, b: f32) -> f32; // likewise
    pub safe fn bounds_to_i32(x: f32) -> i32; // any float; saturates, so none is out of range
    pub safe fn bounds_wrap_i16(n: i32) -> i16; // any number; 16 bits are always left
    pub safe fn bounds_to_short(x: f32) -> i16; // any float; the two above in turn
    pub safe fn bounds_vertex_value(x: f32) -> i16; // any float; clamps before it truncates
    pub safe fn bounds_of_count(n: u16) -> f32; // any count; each is a float
    pub safe fn bounds_sqrt(x: f32) -> f32; // any float; a NaN below 0

    // The words of a work buffer: any numbers of entries, polygons and vertices.
    pub safe fn bounds_work_len(entries: u32) -> u64; // 30 of them and 8 more stay below 2^64
    pub safe fn bounds_edges_work_len(polygons: u32) -> u64; // so do 15 of them
    pub safe fn bounds_octants_work_len(vertices: u32) -> u64; // 10
    pub safe fn bounds_shrink_work_len(polygons: u32, vertices: u32) -> u64; // 36 and 1
    pub safe fn bounds_prepare_work_len(polygons: u32, vertices: u32) -> u64; // 55 and 13, and 8 more

    // Structs by value: `repr(C)`, the header's fields in the header's order, floats or words all through, no padding.
    pub safe fn bounds_add(a: Vec3, b: Vec3) -> Vec3; // float arithmetic has an answer for any floats
    pub safe fn bounds_sub(a: Vec3, b: Vec3) -> Vec3; // likewise
    pub safe fn bounds_scale(v: Vec3, f: f32) -> Vec3; // likewise
    pub safe fn bounds_neg(v: Vec3) -> Vec3; // likewise
    pub safe fn bounds_abs(v: Vec3) -> Vec3; // likewise
    pub safe fn bounds_dot(a: Vec3, b: Vec3) -> f32; // likewise
    pub safe fn bounds_cross(a: Vec3, b: Vec3) -> Vec3; // likewise
    pub safe fn bounds_length(v: Vec3) -> f32; // likewise; the root of a NaN is a NaN
    pub safe fn bounds_norm(v: Vec3) -> Vec3; // divides only where the length is above 1e-6
    pub safe fn bounds_vmul(a: Vec3, b: Vec3) -> Vec3; // likewise
    pub safe fn bounds_vdiv(a: Vec3, b: Vec3) -> Vec3; // by zero is an infinity or a NaN
    pub safe fn bounds_vadd_f(v: Vec3, f: f32) -> Vec3; // likewise
    pub safe fn bounds_vmin3(a: Vec3, b: Vec3) -> Vec3; // vmin on each axis
    pub safe fn bounds_vmax3(a: Vec3, b: Vec3) -> Vec3; // vmax on each axis
    pub safe fn bounds_vmin_words3(a: Words3, b: Words3) -> Words3; // vmin_word on each axis
    pub safe fn bounds_vmax_words3(a: Words3, b: Words3) -> Words3; // vmax_word on each axis
    pub safe fn bounds_cmp_vec3(a: Vec3, b: Vec3) -> i32; // cmp_f32 on each axis
    pub safe fn bounds_transform_point(m: Mat4, p: Vec3) -> Vec4; // sixteen floats are the header's four rows of four
    pub safe fn bounds_transform_vector(m: Mat4, v: Vec3) -> Vec3; // likewise
    pub safe fn bounds_transform_box_rows(
        row0: Vec4,
        row1: Vec4,
        row2: Vec4,
        row3: Vec4,
        min_x: f32,
        min_y: f32,
        min_z: f32,
        max_x: f32,
        max_y: f32,
        max_z: f32,
    ) -> Corners; // float arithmetic again; a fourth coordinate of 0 gives infinities
    pub safe fn bounds_quantum(b: Aabb) -> Vec3; // likewise
    pub safe fn bounds_stored_vertex(v: Vec3, quantum: Vec3) -> BoundVertex; // likewise; clamps before it truncates
    pub safe fn bounds_read_back(v: BoundVertex, quantum: Vec3) -> Vec3; // likewise; each i16 is a float
}

memory! {
    fn bounds_build_bvh(
        items: &[BvhItem], threshold: u32, node_bytes: &mut [u8], tree_bytes: &mut [u8], order: &mut [u16],
        [entries, places, temp, stack, rows, centres as f32]: [&mut [u32]; 6]
    ) -> BuildAnswer;

    fn bounds_tree_header(out: &mut [u8], bvh: Bvh) -> u32;

    /// Being inlined matters here: else the box is put together by eight bytes and four, and the copy that is passed waits
    /// for all of them.
    fn bounds_walk(
        query: Aabb, cen: Vec3, inverse: Vec3, node_bytes: &[u8], node_count: usize, tree_bytes: &[u8], tree_count: usize,
        item_count: usize, out: &mut [u16]
    ) -> WalkAnswer;

    fn bounds_ordinary(entry_count: usize, entries: &[u32]) -> Premises;
}

// ---- geometry

/// `bounds_polygon`.
#[derive(Clone, Copy)]
#[repr(C)]
pub struct PolygonC {
    pub kind: u32,
    pub word: u32,
    pub h0: u16,
    pub h1: u16,
    pub h2: u16,
    pub h3: u16,
    pub h4: u16,
    pub h5: u16,
}

/// `bounds_read_answer`.
#[derive(Clone, Copy)]
#[repr(C)]
pub struct ReadAnswer {
    pub refusal: u32,
    pub polygon: PolygonC,
}

/// `bounds_box_answer`.
#[derive(Clone, Copy)]
#[repr(C)]
pub struct BoxAnswer {
    pub refusal: u32,
    pub min: Words3,
    pub max: Words3,
}

/// `bounds_polygon_box`.
#[derive(Clone, Copy)]
#[repr(C)]
pub struct PolygonBox {
    pub min: Words3,
    pub max: Words3,
}

/// `bounds_float_box`, its floats by their words: a point of floats would be copied whole, in other pieces than those in which it
/// was stored, and wait.
#[derive(Clone, Copy)]
#[repr(C)]
pub struct FloatBox {
    pub min: Words3,
    pub spare_min: u32,
    pub max: Words3,
    pub spare_max: u32,
    pub told: u32,
}

/// `bounds_materials_answer`.
#[derive(Clone, Copy)]
#[repr(C)]
pub struct MaterialsAnswer {
    pub refusal: u32,
    pub count: usize,
}

memory! {
    fn bounds_polygon_read(bytes: &[u8]) -> ReadAnswer;
    fn bounds_polygon_write(out: &mut [u8], polygon: PolygonC) -> u32;
    fn bounds_polygon_bbox(polygon: PolygonC, vertices: &[u32]) -> BoxAnswer;
    fn bounds_triangle_float_box([v1, v2, v3]: [u16; 3], vertices: &[Vec3 as f32]) -> FloatBox;
    fn bounds_moved_float_box([i1, i2, i3, i4]: [u32; 4], low: f32, high: f32, vertices: &[Vec3 as f32]) -> FloatBox;
    fn bounds_triangle_word_box([v1, v2, v3]: [u16; 3], vertices: &[u32]) -> PolygonBox;
    fn bounds_sphere_bbox(index: u16, radius: f32, vertices: &[u32]) -> PolygonBox;
    fn bounds_capsule_bbox(i1: u16, i2: u16, radius: f32, vertices: &[u32]) -> PolygonBox;
    fn bounds_box_bbox([i1, i2, i3, i4]: [u16; 4], vertices: &[u32]) -> PolygonBox;
    fn bounds_polygon_items(
        polygons: &[u8], polygon_count: usize, vertices: &[Vec3 as u32], items: &mut [BvhItem as u32]
    ) -> u32;
    fn bounds_update_edge_indices(
        polygons: &mut [u8], polygon_count: usize, [corners, keys, sides, spare, links]: [&mut [u32]; 5]
    ) -> u32;
    fn bounds_build_materials(
        polygon_count: usize, numbers: &[u8], material_count: usize, mats: &[BoundMaterial as u32], list: &mut [u8],
        indices: &mut [u8]
    ) -> MaterialsAnswer;
}

/// By the kind, what its box by floats is made of; of a triangle without the mask, which its own function has.
struct BoxParts {
    /// Where the numbers of its vertices stand, as [`places`] has it.
    numbers: [u32; 8],
    /// Which bits of the word at byte 4, the radius if it has one, are taken from the least corner: all, or none, which is 0.
    keep: [u32; 8],
    /// What is set in that for what is added to the greatest corner: nothing, or the sign, since -0 and not 0 leaves -0 as it is.
    set: [u32; 8],
}

/// The first number stands at byte 2, the second at `second`, the third at twice that less 2, the fourth at `fourth`; a kind with fewer
/// has its first again. Both are one word, which is read at once.
const fn places(second: u32, fourth: u32) -> u32 {
    second | fourth << 16
}

const SIGN: u32 = 1 << 31;

/// Of five kinds, and as long as no index is outside.
const BOX_PARTS: BoxParts = BoxParts {
    numbers: [
        places(4, 6),
        places(2, 2),
        places(2, 8),
        places(4, 8),
        places(2, 8),
        places(2, 2),
        places(2, 2),
        places(2, 2),
    ],
    keep: [0, !0, !0, 0, !0, 0, 0, 0],
    set: [SIGN, 0, 0, SIGN, 0, 0, 0, 0],
};

/// The numbers of four vertices, what is taken from the least corner of their box, and what is added to the greatest.
#[inline]
fn corners(polygon: &Polygon) -> ([u16; 4], f32, f32) {
    let first = std::ptr::from_ref(polygon).cast::<u8>();
    // SAFETY: a polygon is `repr(u8)`, so its first byte is its kind, and behind that its fields stand as in a `repr(C)` struct. At each
    // place that is read its kind has a field of two bytes, at byte 4 a field of four or two of two, all initialised; places of two
    // bytes are even, and a polygon begins at a multiple of 4. The pointer comes from a reference to the whole of it. A test holds
    // what is read to the fields.
    let (kind, numbers, word) = unsafe {
        let kind = usize::from(*first & 7);
        let both = BOX_PARTS.numbers[kind];
        let (second, fourth) = ((both & 0xFFFF) as usize, (both >> 16) as usize);
        let number = |at: usize| first.add(at).cast::<u16>().read();
        (kind, [number(2), number(second), number(2 * second - 2), number(fourth)], first.add(4).cast::<u32>().read())
    };
    let kept = word & BOX_PARTS.keep[kind];
    (numbers, f32::from_bits(kept), f32::from_bits(kept | BOX_PARTS.set[kind]))
}

/// `bounds_moved_float_box` of a polygon that is no triangle: the same steps for each kind, so that nothing is waited for
/// where kinds are mixed.
#[inline]
pub fn moved_float_box(polygon: &Polygon, vertices: &[Vec3]) -> FloatBox {
    let (numbers, low, high) = corners(polygon);
    bounds_moved_float_box(numbers.map(u32::from), low, high, vertices)
}

// ---- octants and composites

/// `bounds_octants_answer`.
#[derive(Clone, Copy)]
#[repr(C)]
pub struct OctantsAnswer {
    pub refusal: u32,
    pub counts: [u32; 8],
}

/// `bounds_child_box`.
#[derive(Clone, Copy)]
#[repr(C)]
pub struct ChildBox {
    pub present: u32,
    pub min: Vec3,
    pub max: Vec3,
}

memory! {
    fn bounds_calculate_octants(
        vertex_count: usize, vertices: &[u32], lists: &mut [u32], [keys, rows, order, temp, marks]: [&mut [u32]; 5]
    ) -> OctantsAnswer;
    fn bounds_write_octants(address: u64, [l0, l1, l2, l3, l4, l5, l6, l7]: [&[u32]; 8], out: &mut [u8]) -> u32;
    fn bounds_child_boxes(child_count: usize, children: &[u32], out: &mut [u8]) -> u32;
    fn bounds_computed_box(children: &[u32], k: usize) -> ChildBox;
    fn bounds_composite_tree(
        child_count: usize, children: &[u32], node_bytes: &mut [u8], tree_bytes: &mut [u8], order: &mut [u16],
        [entries, places, temp, stack, rows, centres as f32]: [&mut [u32]; 6]
    ) -> BuildAnswer;
}

// ---- shrinking

/// `bounds_shrink_answer`.
#[derive(Clone, Copy)]
#[repr(C)]
pub struct ShrinkAnswer {
    pub refusal: u32,
    pub by: u32,
    pub margin: f32,
}

memory! {
    fn bounds_calculate_verts_shrunk(
        geometry: ShrinkBound, polygon_count: usize, polygons: &[u8], vertex_count: usize, vertices: &[u32],
        points: &mut [u32], [corners, tri, firsts, spare, links, normals as f32, olds as f32, news as f32]: [&mut [u32]; 8]
    ) -> ShrinkAnswer;
}

// ---- prepare

/// `bounds_counts`.
#[derive(Clone, Copy)]
#[repr(C)]
pub struct Counts {
    pub polygons: usize,
    pub vertices: usize,
    pub materials: usize,
}

/// `bounds_bvh_lengths`.
#[derive(Clone, Copy)]
#[repr(C)]
pub struct BvhLengths {
    node_bytes: usize,
    tree_bytes: usize,
    order: usize,
    sorted: usize,
}

/// `bounds_geometry_lengths`.
#[derive(Clone, Copy)]
#[repr(C)]
pub struct GeometryLengths {
    shrunk: usize,
    shrunk_floats: usize,
    octants: usize,
    olds: usize,
    news: usize,
}

/// `bounds_prepare_answer`.
#[derive(Clone, Copy)]
#[repr(C)]
pub struct PrepareAnswer {
    pub refusal: u32,
    pub frame: Frame,
    pub quantum: Vec3,
    pub materials: usize,
    pub octants: OctantsAnswer,
    pub tree: BuildAnswer,
}

/// The pointers of a `bounds_mesh`.
#[derive(Clone, Copy)]
pub struct Inputs<'a> {
    pub polygons: &'a [u8],
    pub numbers: &'a [u8],
    pub materials: &'a [u32],
    pub vertices: &'a [u32],
}

/// The pointers of a `bounds_buffers`, without the one to work in.
pub struct Outputs<'a> {
    pub materials: &'a mut [u8],
    pub indices: &'a mut [u8],
    pub polygons: &'a mut [u8],
    pub vertices: &'a mut [u8],
    pub floats: &'a mut [u32],
    pub shrunk: &'a mut [u8],
    pub shrunk_floats: &'a mut [u32],
    pub octants: &'a mut [u32],
    pub node_bytes: &'a mut [u8],
    pub tree_bytes: &'a mut [u8],
    pub order: &'a mut [u16],
}

memory! {
    fn bounds_prepare_geometry(
        bound: Bound, counts: Counts, other: BvhLengths, polygons: &[u8], numbers: &[u8], mats: &[u32], vertices: &[u32],
        list: &mut [u8], indices: &mut [u8], polygons_out: &mut [u8], stored: &mut [u8], floats: &mut [u32],
        shrunk: &mut [u8], shrunk_floats: &mut [u32], octants: &mut [u32],
        [entries, places, temp, stack, rows, points, centres as f32, olds as f32, news as f32]: [&mut [u32]; 9]
    ) -> PrepareAnswer;
    fn bounds_prepare_bvh(
        bound: Bound, counts: Counts, other: GeometryLengths, polygons: &[u8], numbers: &[u8], mats: &[u32],
        vertices: &[u32], list: &mut [u8], indices: &mut [u8], polygons_out: &mut [u8], stored: &mut [u8],
        floats: &mut [u32], node_bytes: &mut [u8], tree_bytes: &mut [u8], order: &mut [u16],
        [entries, places, temp, stack, rows, points, sorted as u8, centres as f32]: [&mut [u32]; 8]
    ) -> PrepareAnswer;
}

/// `bounds_prepare`; what it works in is lent in ten parts: entries, places, temp, stack, rows, points, sorted, centres, olds
/// and news. Of what a kind does not use only the lengths are passed; `sorted` is four bytes a word.
pub fn prepare(bound: Bound, counts: Counts, from: Inputs, to: Outputs, work: [&mut [u32]; 10]) -> PrepareAnswer {
    let Inputs { polygons, numbers, materials, vertices } = from;
    let [entries, places, temp, stack, rows, points, sorted, centres, olds, news] = work;
    if bound.kind == 8 {
        let (shrunk, shrunk_floats, octants) = (to.shrunk.len(), to.shrunk_floats.len(), to.octants.len());
        let other = GeometryLengths { shrunk, shrunk_floats, octants, olds: olds.len(), news: news.len() };
        return bounds_prepare_bvh(
            bound,
            counts,
            other,
            polygons,
            numbers,
            materials,
            vertices,
            to.materials,
            to.indices,
            to.polygons,
            to.vertices,
            to.floats,
            to.node_bytes,
            to.tree_bytes,
            to.order,
            [entries, places, temp, stack, rows, points, sorted, centres],
        );
    }
    let (node_bytes, tree_bytes, order) = (to.node_bytes.len(), to.tree_bytes.len(), to.order.len());
    let other = BvhLengths { node_bytes, tree_bytes, order, sorted: 4 * sorted.len() };
    bounds_prepare_geometry(
        bound,
        counts,
        other,
        polygons,
        numbers,
        materials,
        vertices,
        to.materials,
        to.indices,
        to.polygons,
        to.vertices,
        to.floats,
        to.shrunk,
        to.shrunk_floats,
        to.octants,
        [entries, places, temp, stack, rows, points, centres, olds, news],
    )
}

/// Bytes and alignment of each struct, as the header gives them: a change of one stops the build here.
macro_rules! layouts {
    ($($name:ident: $size:literal / $align:literal,)*) => {
        const _: () = { $( assert!(size_of::<$name>() == $size && align_of::<$name>() == $align); )* };
    };
}

layouts! {
    Vec3: 12 / 4, Vec4: 16 / 4, Mat4: 64 / 4, Aabb: 24 / 4, Corners: 24 / 4, Words3: 12 / 4, Scale: 36 / 4,
    BvhItem: 28 / 4, BuildAnswer: 104 / 8, Bvh: 96 / 8, WalkAnswer: 24 / 8, Premises: 12 / 4,
    Polygon: 20 / 4, PolygonC: 20 / 4, ReadAnswer: 24 / 4, BoxAnswer: 28 / 4, PolygonBox: 24 / 4, FloatBox: 36 / 4,
    MaterialsAnswer: 16 / 8, BoundMaterial: 8 / 4, BoundVertex: 6 / 2,
    OctantsAnswer: 36 / 4, Child: 96 / 4, ChildBox: 28 / 4, ShrinkBound: 104 / 4, ShrinkAnswer: 12 / 4,
    Frame: 52 / 4, Bound: 136 / 4, Counts: 24 / 8, BvhLengths: 32 / 8, GeometryLengths: 40 / 8, PrepareAnswer: 224 / 8,
}

#[cfg(test)]
mod tests;
