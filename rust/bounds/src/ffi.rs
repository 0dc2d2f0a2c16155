//! The C interface as include/bounds.h has it, and the only unsafe code of this crate.
//!
//! `unsafe extern` claims that the declarations below are those of libbounds.a and libbounds_prepare.a, and `safe` that a
//! call may be made with any argument. The first no tool checks: the sizes and alignments of the structs are asserted as
//! this file compiles, and the tests and `compare` make every call. The second holds line by line for the reason beside
//! it, and rests on this: the library is proved total and in bounds for every argument that its C signature admits.
#![allow(unsafe_code)]

use crate::geometry::Polygon;
use crate::prepare::{Bound, Frame};
use crate::types::{BoundMaterial, BoundVertex, BvhItem, Child, Mat4, Records, ShrinkBound, Vec3, Vec4};

/// `bounds_aabb`.
#[derive(Clone, Copy)]
#[repr(C)]
pub struct Aabb {
    pub min: Vec3,
    pub max: Vec3,
}

/// `bounds_aabb` as an answer, by its six floats: as two corners it is copied by eight bytes and four, and a copy that
/// crosses two of the callee's stores waits for both.
#[repr(C)]
pub struct Corners(pub [f32; 6]);

/// `bounds_words3`.
#[derive(Clone, Copy)]
#[repr(C)]
pub struct Words3 {
    pub x: u32,
    pub y: u32,
    pub z: u32,
}

/// `bounds_units`.
#[derive(Clone, Copy)]
#[repr(C)]
pub struct Scale {
    pub cen: Vec3,
    pub inverse: Vec3,
    pub quantum: Vec3,
}

/// `bounds_build_answer`.
#[derive(Clone, Copy)]
#[repr(C)]
pub struct BuildAnswer {
    pub refusal: u32,
    pub nodes: usize,
    pub capacity: usize,
    pub trees: usize,
    pub present: usize,
    pub min: Words3,
    pub max: Words3,
    pub scale: Scale,
}

/// `bounds_bvh`.
#[derive(Clone, Copy)]
#[repr(C)]
pub struct Bvh {
    pub nodes_address: u64,
    pub nodes_count: u32,
    pub nodes_capacity: u32,
    pub bb_min: Words3,
    pub bb_max: Words3,
    pub bb_center: Words3,
    pub quantum_inverse: Words3,
    pub quantum: Words3,
    pub trees_address: u64,
    pub trees_count: u32,
}

/// `bounds_walk_answer`.
#[derive(Clone, Copy)]
#[repr(C)]
pub struct WalkAnswer {
    pub refusal: u32,
    pub reads: usize,
    pub handed: usize,
}

/// `bounds_premises`.
#[derive(Clone, Copy)]
#[repr(C)]
pub struct Premises {
    pub refusal: u32,
    pub fault: u32,
    pub place: u32,
}

unsafe extern "C" {
    // Scalars by value: no memory is reached. The numbers that stand for an order are read as numbers, so that none of
    // them would be invalid.
    pub safe fn bounds_value(word: u32) -> f32; // any word; a NaN's gives a NaN
    pub safe fn bounds_bits(x: f32) -> u32; // any float; the library asks for no bits of a NaN
    pub safe fn bounds_value_bits(word: u32) -> u32; // any word
    pub safe fn bounds_relate(a: f32, b: f32) -> u32; // any floats; unordered is an answer
    pub safe fn bounds_cmp_f32(a: f32, b: f32) -> i32; // any floats; NaN has its place
    pub safe fn bounds_order_key(word: u32) -> u32; // any word; no key overflows
    pub safe fn bounds_vmin(a: f32, b: f32) -> f32; // any floats; a comparison and a choice
    pub safe fn bounds_vmax(a: f32, b: f32) -> f32; // likewise
    pub safe fn bounds_vmin_word(a: u32, b: u32) -> u32; // any words; the word is copied
    pub safe fn bounds_vmax_word(a: u32, b: u32) -> u32; // likewise
    pub safe fn bounds_min_number(a: f32, b: f32) -> f32; // any floats; a comparison and a choice
    pub safe fn bounds_max_number(a: f32, b: f32) -> f32; // likewise
    pub safe fn bounds_to_i32(x: f32) -> i32; // any float; saturates, so none is out of range
    pub safe fn bounds_wrap_i16(n: i32) -> i16; // any number; 16 bits are always left
    pub safe fn bounds_to_short(x: f32) -> i16; // any float; the two above in turn
    pub safe fn bounds_vertex_value(x: f32) -> i16; // any float; clamps before it truncates
    pub safe fn bounds_of_count(n: u16) -> f32; // any count; each is a float
    pub safe fn bounds_sqrt(x: f32) -> f32; // any float; a NaN below 0

    // Structs by value: `repr(C)`, the header's fields in the header's order, floats or words all through, no padding.
    pub safe fn bounds_add(a: Vec3, b: Vec3) -> Vec3; // float arithmetic has an answer for any floats
    pub safe fn bounds_sub(a: Vec3, b: Vec3) -> Vec3; // likewise
    pub safe fn bounds_scale(v: Vec3, f: f32) -> Vec3; // likewise
    pub safe fn bounds_neg(v: Vec3) -> Vec3; // likewise
    pub safe fn bounds_abs(v: Vec3) -> Vec3; // likewise
    pub safe fn bounds_dot(a: Vec3, b: Vec3) -> f32; // likewise
    pub safe fn bounds_cross(a: Vec3, b: Vec3) -> Vec3; // likewise
    pub safe fn bounds_length(v: Vec3) -> f32; // likewise; the root of a NaN is a NaN
    pub safe fn bounds_norm(v: Vec3) -> Vec3; // divides only where the length is above 1e-6
    pub safe fn bounds_vmul(a: Vec3, b: Vec3) -> Vec3; // likewise
    pub safe fn bounds_vdiv(a: Vec3, b: Vec3) -> Vec3; // by zero is an infinity or a NaN
    pub safe fn bounds_vadd_f(v: Vec3, f: f32) -> Vec3; // likewise
    pub safe fn bounds_vmin3(a: Vec3, b: Vec3) -> Vec3; // vmin on each axis
    pub safe fn bounds_vmax3(a: Vec3, b: Vec3) -> Vec3; // vmax on each axis
    pub safe fn bounds_vmin_words3(a: Words3, b: Words3) -> Words3; // vmin_word on each axis
    pub safe fn bounds_vmax_words3(a: Words3, b: Words3) -> Words3; // vmax_word on each axis
    pub safe fn bounds_cmp_vec3(a: Vec3, b: Vec3) -> i32; // cmp_f32 on each axis
    pub safe fn bounds_transform_point(m: Mat4, p: Vec3) -> Vec4; // sixteen floats are the header's four rows of four
    pub safe fn bounds_transform_vector(m: Mat4, v: Vec3) -> Vec3; // likewise
    pub safe fn bounds_transform_box_rows(
        row0: Vec4,
        row1: Vec4,
        row2: Vec4,
        row3: Vec4,
        min_x: f32,
        min_y: f32,
        min_z: f32,
        max_x: f32,
        max_y: f32,
        max_z: f32,
    ) -> Corners; // float arithmetic again; a fourth coordinate of 0 gives infinities

    pub safe fn bounds_work_len(entries: u32) -> u64; // any number; 30 of them and 8 more stay below 2^64

    // Memory is reached, and only through each pointer and the length behind it: called below, with slices.
    fn bounds_build_bvh(
        items: *const BvhItem,
        items_len: usize,
        threshold: u32,
        node_bytes: *mut u8,
        node_bytes_len: usize,
        tree_bytes: *mut u8,
        tree_bytes_len: usize,
        order: *mut u16,
        order_len: usize,
        entries: *mut u32,
        entries_len: usize,
        places: *mut u32,
        places_len: usize,
        temp: *mut u32,
        temp_len: usize,
        stack: *mut u32,
        stack_len: usize,
        rows: *mut u32,
        rows_len: usize,
        centres: *mut f32,
        centres_len: usize,
    ) -> BuildAnswer;
    fn bounds_tree_header(out: *mut u8, out_len: usize, bvh: Bvh) -> u32;
    fn bounds_walk(
        query: Aabb,
        cen: Vec3,
        inverse: Vec3,
        node_bytes: *const u8,
        node_bytes_len: usize,
        node_count: usize,
        tree_bytes: *const u8,
        tree_bytes_len: usize,
        tree_count: usize,
        item_count: usize,
        out: *mut u16,
        out_len: usize,
    ) -> WalkAnswer;
    fn bounds_ordinary(entry_count: usize, entries: *const u32, entries_len: usize) -> Premises;
}

/// `bounds_build_bvh`; what it works in is lent in six parts: entries, places, temp, stack, rows and centres.
pub fn build_bvh(
    items: &[BvhItem],
    threshold: u32,
    node_bytes: &mut [u8],
    tree_bytes: &mut [u8],
    order: &mut [u16],
    [entries, places, temp, stack, rows, centres]: [&mut [u32]; 6],
) -> BuildAnswer {
    // SAFETY: each pointer comes from a slice and goes with that slice's length, and all its cells are initialised. The
    // items are only read: seven words each, as `bounds_item` has them, and any words will do. The others, being
    // exclusive borrows, overlap neither them nor one another. The centres are lent as floats: those have a word's size
    // and alignment, and any bits are a float's and a word's. The threshold may be any number.
    unsafe {
        bounds_build_bvh(
            items.as_ptr(),
            items.len(),
            threshold,
            node_bytes.as_mut_ptr(),
            node_bytes.len(),
            tree_bytes.as_mut_ptr(),
            tree_bytes.len(),
            order.as_mut_ptr(),
            order.len(),
            entries.as_mut_ptr(),
            entries.len(),
            places.as_mut_ptr(),
            places.len(),
            temp.as_mut_ptr(),
            temp.len(),
            stack.as_mut_ptr(),
            stack.len(),
            rows.as_mut_ptr(),
            rows.len(),
            centres.as_mut_ptr().cast::<f32>(),
            centres.len(),
        )
    }
}

/// `bounds_tree_header`.
pub fn tree_header(out: &mut [u8], bvh: Bvh) -> u32 {
    // SAFETY: the pointer comes from an exclusive slice and goes with its length; any header may be given.
    unsafe { bounds_tree_header(out.as_mut_ptr(), out.len(), bvh) }
}

/// `bounds_walk`. Inlined: else the box is put together by eight bytes and four, and the copy that is passed waits for
/// all of them.
#[inline]
pub fn walk(query: Aabb, cen: Vec3, inverse: Vec3, records: &Records, out: &mut [u16]) -> WalkAnswer {
    let &Records { node_bytes, nodes_count, tree_bytes, trees_count, items_count } = records;
    // SAFETY: each pointer comes from a slice and goes with that slice's length; the output, an exclusive borrow,
    // overlaps neither of the others, which are only read. Counts and floats may be any: the library reads records only
    // where it found the slices long enough for them.
    unsafe {
        bounds_walk(
            query,
            cen,
            inverse,
            node_bytes.as_ptr(),
            node_bytes.len(),
            nodes_count,
            tree_bytes.as_ptr(),
            tree_bytes.len(),
            trees_count,
            items_count,
            out.as_mut_ptr(),
            out.len(),
        )
    }
}

/// The items' words, seven each, as they lie in memory.
pub fn item_words(items: &[BvhItem]) -> &[u32] {
    // SAFETY: an item is `repr(C)`, a u32 and six f32, 28 bytes without padding and aligned as a u32 is (checked below),
    // and each pattern of a float's bits is a u32. The words are borrowed for as long as the items.
    unsafe { std::slice::from_raw_parts(items.as_ptr().cast(), 7 * items.len()) }
}

/// `bounds_ordinary`.
pub fn ordinary(entry_count: usize, entries: &[u32]) -> Premises {
    // SAFETY: the pointer comes from a slice, which is only read, and goes with its length. The count may be any number:
    // the library reads entries only where it found the slice long enough for them.
    unsafe { bounds_ordinary(entry_count, entries.as_ptr(), entries.len()) }
}

// The layouts that the header gives: a change of a struct stops the build here.
const _: () = {
    assert!(size_of::<Vec3>() == 12 && align_of::<Vec3>() == 4);
    assert!(size_of::<Vec4>() == 16 && align_of::<Vec4>() == 4);
    assert!(size_of::<Aabb>() == 24 && align_of::<Aabb>() == 4);
    assert!(size_of::<Mat4>() == 64 && align_of::<Mat4>() == 4);
    assert!(size_of::<Words3>() == 12 && align_of::<Words3>() == 4);
    assert!(size_of::<BvhItem>() == 28 && align_of::<BvhItem>() == 4);
    assert!(size_of::<Scale>() == 36 && align_of::<Scale>() == 4);
    assert!(size_of::<BuildAnswer>() == 104 && align_of::<BuildAnswer>() == 8);
    assert!(size_of::<WalkAnswer>() == 24 && align_of::<WalkAnswer>() == 8);
    assert!(size_of::<Premises>() == 12 && align_of::<Premises>() == 4);
    assert!(size_of::<Bvh>() == 96 && align_of::<Bvh>() == 8);
};

// ---- geometry

/// `bounds_polygon`.
#[derive(Clone, Copy)]
#[repr(C)]
pub struct PolygonC {
    pub kind: u32,
    pub word: u32,
    pub h0: u16,
    pub h1: u16,
    pub h2: u16,
    pub h3: u16,
    pub h4: u16,
    pub h5: u16,
}

/// `bounds_read_answer`.
#[derive(Clone, Copy)]
#[repr(C)]
pub struct ReadAnswer {
    pub refusal: u32,
    pub polygon: PolygonC,
}

/// `bounds_box_answer`.
#[derive(Clone, Copy)]
#[repr(C)]
pub struct BoxAnswer {
    pub refusal: u32,
    pub min: Words3,
    pub max: Words3,
}

/// `bounds_polygon_box`.
#[derive(Clone, Copy)]
#[repr(C)]
pub struct PolygonBox {
    pub min: Words3,
    pub max: Words3,
}

/// `bounds_float_box`, its floats by their words: a point of floats would be copied whole, in other pieces than those in which it
/// was stored, and wait.
#[derive(Clone, Copy)]
#[repr(C)]
pub struct FloatBox {
    pub min: Words3,
    pub spare_min: u32,
    pub max: Words3,
    pub spare_max: u32,
    pub told: u32,
}

/// `bounds_materials_answer`.
#[derive(Clone, Copy)]
#[repr(C)]
pub struct MaterialsAnswer {
    pub refusal: u32,
    pub count: usize,
}

unsafe extern "C" {
    // Structs by value, as above.
    pub safe fn bounds_quantum(b: Aabb) -> Vec3; // float arithmetic has an answer for any floats
    pub safe fn bounds_stored_vertex(v: Vec3, quantum: Vec3) -> BoundVertex; // likewise; clamps before it truncates
    pub safe fn bounds_read_back(v: BoundVertex, quantum: Vec3) -> Vec3; // likewise; each i16 is a float
    pub safe fn bounds_edges_work_len(polygons: u32) -> u64; // any number; 15 of them stay below 2^64

    // Memory is reached, and only through each pointer and the length behind it: called below, with slices.
    fn bounds_polygon_read(bytes: *const u8, bytes_len: usize) -> ReadAnswer;
    fn bounds_polygon_write(out: *mut u8, out_len: usize, polygon: PolygonC) -> u32;
    fn bounds_polygon_bbox(polygon: PolygonC, vertices: *const u32, vertices_len: usize) -> BoxAnswer;
    fn bounds_triangle_float_box(v1: u16, v2: u16, v3: u16, vertices: *const f32, vertices_len: usize) -> FloatBox;
    fn bounds_moved_float_box(
        i1: u32,
        i2: u32,
        i3: u32,
        i4: u32,
        low: f32,
        high: f32,
        vertices: *const f32,
        vertices_len: usize,
    ) -> FloatBox;
    fn bounds_triangle_word_box(v1: u16, v2: u16, v3: u16, vertices: *const u32, vertices_len: usize) -> PolygonBox;
    fn bounds_sphere_bbox(index: u16, radius: f32, vertices: *const u32, vertices_len: usize) -> PolygonBox;
    fn bounds_capsule_bbox(i1: u16, i2: u16, radius: f32, vertices: *const u32, vertices_len: usize) -> PolygonBox;
    fn bounds_box_bbox(i1: u16, i2: u16, i3: u16, i4: u16, vertices: *const u32, vertices_len: usize) -> PolygonBox;
    fn bounds_polygon_items(
        polygons: *const u8,
        polygons_len: usize,
        polygon_count: usize,
        vertices: *const u32,
        vertices_len: usize,
        items: *mut u32,
        items_len: usize,
    ) -> u32;
    fn bounds_update_edge_indices(
        polygons: *mut u8,
        polygons_len: usize,
        polygon_count: usize,
        corners: *mut u32,
        corners_len: usize,
        keys: *mut u32,
        keys_len: usize,
        sides: *mut u32,
        sides_len: usize,
        spare: *mut u32,
        spare_len: usize,
        links: *mut u32,
        links_len: usize,
    ) -> u32;
    fn bounds_build_materials(
        polygon_count: usize,
        numbers: *const u8,
        numbers_len: usize,
        material_count: usize,
        mats: *const u32,
        mats_len: usize,
        list: *mut u8,
        list_len: usize,
        indices: *mut u8,
        indices_len: usize,
    ) -> MaterialsAnswer;
}

/// `bounds_polygon_read`.
#[inline]
pub fn polygon_read(bytes: &[u8]) -> ReadAnswer {
    // SAFETY: the pointer comes from a slice, which is only read, and goes with its length; any bytes will do.
    unsafe { bounds_polygon_read(bytes.as_ptr(), bytes.len()) }
}

/// `bounds_polygon_write`.
pub fn polygon_write(out: &mut [u8], polygon: PolygonC) -> u32 {
    // SAFETY: the pointer comes from an exclusive slice and goes with its length; any struct may be given.
    unsafe { bounds_polygon_write(out.as_mut_ptr(), out.len(), polygon) }
}

/// `bounds_polygon_bbox`.
pub fn polygon_bbox(polygon: PolygonC, vertices: &[u32]) -> BoxAnswer {
    // SAFETY: the pointer comes from a slice, which is only read, and goes with its length. Any struct may be given: the
    // library reads a vertex only where the slice has it.
    unsafe { bounds_polygon_bbox(polygon, vertices.as_ptr(), vertices.len()) }
}

/// `bounds_triangle_float_box`, over vertices as they lie in memory.
#[inline]
pub fn triangle_float_box([v1, v2, v3]: [u16; 3], vertices: &[Vec3]) -> FloatBox {
    // SAFETY: the pointer comes from a slice, which is only read, and goes with its length in floats: a point is `repr(C)`, three
    // f32 without padding. The numbers may be any: the library reads a float only where the slice has it.
    unsafe { bounds_triangle_float_box(v1, v2, v3, vertices.as_ptr().cast(), 3 * vertices.len()) }
}

/// By the kind, what its box by floats is made of; of a triangle without the mask, which its own function has.
struct BoxParts {
    /// Where the numbers of its vertices stand, as [`places`] has it.
    numbers: [u32; 8],
    /// Which bits of the word at byte 4, the radius if it has one, are taken from the least corner: all, or none, which is 0.
    keep: [u32; 8],
    /// What is set in that for what is added to the greatest corner: nothing, or the sign, since -0 and not 0 leaves -0 as it is.
    set: [u32; 8],
}

/// The first number stands at byte 2, the second at `second`, the third at twice that less 2, the fourth at `fourth`; a kind with fewer
/// has its first again. Both are one word, which is read at once.
const fn places(second: u32, fourth: u32) -> u32 {
    second | fourth << 16
}

const SIGN: u32 = 1 << 31;

/// Of five kinds, and as long as no index is outside.
const BOX_PARTS: BoxParts = BoxParts {
    numbers: [
        places(4, 6),
        places(2, 2),
        places(2, 8),
        places(4, 8),
        places(2, 8),
        places(2, 2),
        places(2, 2),
        places(2, 2),
    ],
    keep: [0, !0, !0, 0, !0, 0, 0, 0],
    set: [SIGN, 0, 0, SIGN, 0, 0, 0, 0],
};

/// The numbers of four vertices, what is taken from the least corner of their box, and what is added to the greatest.
#[inline]
fn corners(polygon: &Polygon) -> ([u16; 4], f32, f32) {
    let first = std::ptr::from_ref(polygon).cast::<u8>();
    // SAFETY: a polygon is `repr(u8)`, so its first byte is its kind, and behind that its fields stand as in a `repr(C)` struct. At each
    // place that is read its kind has a field of two bytes, at byte 4 a field of four or two of two, all initialised; places of two
    // bytes are even, and a polygon begins at a multiple of 4. The pointer comes from a reference to the whole of it. A test below holds
    // what is read to the fields.
    let (kind, numbers, word) = unsafe {
        let kind = usize::from(*first & 7);
        let both = BOX_PARTS.numbers[kind];
        let (second, fourth) = ((both & 0xFFFF) as usize, (both >> 16) as usize);
        let number = |at: usize| first.add(at).cast::<u16>().read();
        (kind, [number(2), number(second), number(2 * second - 2), number(fourth)], first.add(4).cast::<u32>().read())
    };
    let kept = word & BOX_PARTS.keep[kind];
    (numbers, f32::from_bits(kept), f32::from_bits(kept | BOX_PARTS.set[kind]))
}

const _: () = assert!(size_of::<Polygon>() == 20 && align_of::<Polygon>() == 4);

/// `bounds_moved_float_box` of a polygon that is no triangle, over vertices as they lie in memory: the same steps for each kind, so that
/// nothing is waited for where kinds are mixed.
#[inline]
pub fn moved_float_box(polygon: &Polygon, vertices: &[Vec3]) -> FloatBox {
    let (numbers, low, high) = corners(polygon);
    let [i1, i2, i3, i4] = numbers.map(u32::from);
    // SAFETY: as for a triangle's; float arithmetic has an answer for any floats.
    unsafe { bounds_moved_float_box(i1, i2, i3, i4, low, high, vertices.as_ptr().cast(), 3 * vertices.len()) }
}

/// `bounds_triangle_word_box`.
pub fn triangle_word_box([v1, v2, v3]: [u16; 3], vertices: &[u32]) -> PolygonBox {
    // SAFETY: the pointer comes from a slice, which is only read, and goes with its length. The numbers may be any: the
    // library reads a vertex only where the slice has it.
    unsafe { bounds_triangle_word_box(v1, v2, v3, vertices.as_ptr(), vertices.len()) }
}

/// `bounds_sphere_bbox`.
#[inline]
pub fn sphere_bbox(index: u16, radius: f32, vertices: &[u32]) -> PolygonBox {
    // SAFETY: as for a triangle; float arithmetic has an answer for any radius.
    unsafe { bounds_sphere_bbox(index, radius, vertices.as_ptr(), vertices.len()) }
}

/// `bounds_capsule_bbox`.
#[inline]
pub fn capsule_bbox(i1: u16, i2: u16, radius: f32, vertices: &[u32]) -> PolygonBox {
    // SAFETY: as for a sphere.
    unsafe { bounds_capsule_bbox(i1, i2, radius, vertices.as_ptr(), vertices.len()) }
}

/// `bounds_box_bbox`.
#[inline]
pub fn box_bbox([i1, i2, i3, i4]: [u16; 4], vertices: &[u32]) -> PolygonBox {
    // SAFETY: as for a triangle.
    unsafe { bounds_box_bbox(i1, i2, i3, i4, vertices.as_ptr(), vertices.len()) }
}

/// `bounds_polygon_items`, over items as they lie in memory.
pub fn polygon_items(polygons: &[u8], polygon_count: usize, vertices: &[Vec3], items: &mut [BvhItem]) -> u32 {
    let vertices = vector_words(vertices);
    // SAFETY: each pointer comes from a slice and goes with that slice's length in words, seven an item (checked above), and
    // all its cells are initialised; the items, being an exclusive borrow, overlap neither of the others, which are only
    // read. An item holds any words: each pattern of bits is a u32 and an f32. The count may be any number: the library
    // reaches records and items only where it found the slices long enough for them.
    unsafe {
        bounds_polygon_items(
            polygons.as_ptr(),
            polygons.len(),
            polygon_count,
            vertices.as_ptr(),
            vertices.len(),
            items.as_mut_ptr().cast(),
            7 * items.len(),
        )
    }
}

/// `bounds_update_edge_indices`; what it works in is lent in five parts: corners, keys, sides, spare and links.
pub fn update_edge_indices(
    polygons: &mut [u8],
    polygon_count: usize,
    [corners, keys, sides, spare, links]: [&mut [u32]; 5],
) -> u32 {
    // SAFETY: each pointer comes from a slice and goes with that slice's length, and all its cells are initialised; being
    // exclusive borrows, none overlaps another. The count may be any number: the library reaches records only where it
    // found the slices long enough for them.
    unsafe {
        bounds_update_edge_indices(
            polygons.as_mut_ptr(),
            polygons.len(),
            polygon_count,
            corners.as_mut_ptr(),
            corners.len(),
            keys.as_mut_ptr(),
            keys.len(),
            sides.as_mut_ptr(),
            sides.len(),
            spare.as_mut_ptr(),
            spare.len(),
            links.as_mut_ptr(),
            links.len(),
        )
    }
}

/// `bounds_build_materials`, with as many polygons as numbers.
pub fn build_materials(
    numbers: &[u8],
    materials: &[BoundMaterial],
    list: &mut [u8],
    indices: &mut [u8],
) -> MaterialsAnswer {
    // SAFETY: each pointer comes from a slice and goes with its length; a material is `repr(C)`, two words without padding
    // (checked below), so there are twice as many words. Those two slices are only read; the others, being exclusive
    // borrows, overlap nothing.
    unsafe {
        bounds_build_materials(
            numbers.len(),
            numbers.as_ptr(),
            numbers.len(),
            materials.len(),
            materials.as_ptr().cast(),
            2 * materials.len(),
            list.as_mut_ptr(),
            list.len(),
            indices.as_mut_ptr(),
            indices.len(),
        )
    }
}

/// The words of points, three each, as they lie in memory.
#[inline]
pub fn vector_words(points: &[Vec3]) -> &[u32] {
    // SAFETY: a point is `repr(C)`, three f32 without padding and aligned as a u32 is (checked above), and each pattern of
    // a float's bits is a u32. The words are borrowed for as long as the points.
    unsafe { std::slice::from_raw_parts(points.as_ptr().cast(), 3 * points.len()) }
}

const _: () = {
    assert!(size_of::<PolygonC>() == 20 && align_of::<PolygonC>() == 4);
    assert!(size_of::<ReadAnswer>() == 24 && align_of::<ReadAnswer>() == 4);
    assert!(size_of::<BoxAnswer>() == 28 && align_of::<BoxAnswer>() == 4);
    assert!(size_of::<PolygonBox>() == 24 && align_of::<PolygonBox>() == 4);
    assert!(size_of::<FloatBox>() == 36 && align_of::<FloatBox>() == 4);
    assert!(size_of::<MaterialsAnswer>() == 16 && align_of::<MaterialsAnswer>() == 8);
    assert!(size_of::<BoundMaterial>() == 8 && align_of::<BoundMaterial>() == 4);
    assert!(size_of::<BoundVertex>() == 6 && align_of::<BoundVertex>() == 2);
};

// ---- octants and composites

/// `bounds_octants_answer`.
#[derive(Clone, Copy)]
#[repr(C)]
pub struct OctantsAnswer {
    pub refusal: u32,
    pub counts: [u32; 8],
}

/// `bounds_child_box`.
#[derive(Clone, Copy)]
#[repr(C)]
pub struct ChildBox {
    pub present: u32,
    pub min: Vec3,
    pub max: Vec3,
}

unsafe extern "C" {
    pub safe fn bounds_octants_work_len(vertices: u32) -> u64; // any number; 10 of them stay below 2^64

    // Memory is reached, and only through each pointer and the length behind it: called below, with slices.
    fn bounds_calculate_octants(
        vertex_count: usize,
        vertices: *const u32,
        vertices_len: usize,
        lists: *mut u32,
        lists_len: usize,
        keys: *mut u32,
        keys_len: usize,
        rows: *mut u32,
        rows_len: usize,
        order: *mut u32,
        order_len: usize,
        temp: *mut u32,
        temp_len: usize,
        marks: *mut u32,
        marks_len: usize,
    ) -> OctantsAnswer;
    fn bounds_write_octants(
        address: u64,
        l0: *const u32,
        l0_len: usize,
        l1: *const u32,
        l1_len: usize,
        l2: *const u32,
        l2_len: usize,
        l3: *const u32,
        l3_len: usize,
        l4: *const u32,
        l4_len: usize,
        l5: *const u32,
        l5_len: usize,
        l6: *const u32,
        l6_len: usize,
        l7: *const u32,
        l7_len: usize,
        out: *mut u8,
        out_len: usize,
    ) -> u32;
    fn bounds_child_boxes(
        child_count: usize,
        children: *const u32,
        children_len: usize,
        out: *mut u8,
        out_len: usize,
    ) -> u32;
    fn bounds_computed_box(children: *const u32, children_len: usize, k: usize) -> ChildBox;
    fn bounds_composite_tree(
        child_count: usize,
        children: *const u32,
        children_len: usize,
        node_bytes: *mut u8,
        node_bytes_len: usize,
        tree_bytes: *mut u8,
        tree_bytes_len: usize,
        order: *mut u16,
        order_len: usize,
        entries: *mut u32,
        entries_len: usize,
        places: *mut u32,
        places_len: usize,
        temp: *mut u32,
        temp_len: usize,
        stack: *mut u32,
        stack_len: usize,
        rows: *mut u32,
        rows_len: usize,
        centres: *mut f32,
        centres_len: usize,
    ) -> BuildAnswer;
}

/// `bounds_calculate_octants`; what it works in is lent in five parts: keys, rows, order, temp and marks.
pub fn calculate_octants(
    vertex_count: usize,
    vertices: &[u32],
    lists: &mut [u32],
    [keys, rows, order, temp, marks]: [&mut [u32]; 5],
) -> OctantsAnswer {
    // SAFETY: each pointer comes from a slice and goes with that slice's length, and all its cells are initialised. The
    // vertices are only read; the others, being exclusive borrows, overlap neither them nor one another. The count may be
    // any number: the library reaches vertices and lists only where it found the slices long enough for them.
    unsafe {
        bounds_calculate_octants(
            vertex_count,
            vertices.as_ptr(),
            vertices.len(),
            lists.as_mut_ptr(),
            lists.len(),
            keys.as_mut_ptr(),
            keys.len(),
            rows.as_mut_ptr(),
            rows.len(),
            order.as_mut_ptr(),
            order.len(),
            temp.as_mut_ptr(),
            temp.len(),
            marks.as_mut_ptr(),
            marks.len(),
        )
    }
}

/// `bounds_write_octants`.
pub fn write_octants(address: u64, lists: [&[u32]; 8], out: &mut [u8]) -> u32 {
    let [l0, l1, l2, l3, l4, l5, l6, l7] = lists;
    // SAFETY: each pointer comes from a slice and goes with that slice's length. The lists are only read, and may be one
    // another's; the output, an exclusive borrow, overlaps none of them. Any address will do: it is a number.
    unsafe {
        bounds_write_octants(
            address,
            l0.as_ptr(),
            l0.len(),
            l1.as_ptr(),
            l1.len(),
            l2.as_ptr(),
            l2.len(),
            l3.as_ptr(),
            l3.len(),
            l4.as_ptr(),
            l4.len(),
            l5.as_ptr(),
            l5.len(),
            l6.as_ptr(),
            l6.len(),
            l7.as_ptr(),
            l7.len(),
            out.as_mut_ptr(),
            out.len(),
        )
    }
}

/// The children's words, 24 each, as they lie in memory.
pub fn child_words(children: &[Child]) -> &[u32] {
    // SAFETY: a child is `repr(C)`, a u32 and 23 f32, 96 bytes without padding and aligned as a u32 is (checked below),
    // and each pattern of a float's bits is a u32. The words are borrowed for as long as the children.
    unsafe { std::slice::from_raw_parts(children.as_ptr().cast(), 24 * children.len()) }
}

/// `bounds_child_boxes`.
pub fn child_boxes(child_count: usize, children: &[u32], out: &mut [u8]) -> u32 {
    // SAFETY: each pointer comes from a slice and goes with that slice's length; the output, an exclusive borrow, does
    // not overlap the children, which are only read. The count may be any number: the library reaches children and bytes
    // only where it found the slices long enough for them.
    unsafe { bounds_child_boxes(child_count, children.as_ptr(), children.len(), out.as_mut_ptr(), out.len()) }
}

/// `bounds_computed_box`.
pub fn computed_box(children: &[u32], k: usize) -> ChildBox {
    // SAFETY: the pointer comes from a slice, which is only read, and goes with its length. Any number will do: the
    // library reads a child only where the slice has all its words.
    unsafe { bounds_computed_box(children.as_ptr(), children.len(), k) }
}

/// `bounds_composite_tree`; what it works in is lent in the six parts of [`build_bvh`].
pub fn composite_tree(
    child_count: usize,
    children: &[u32],
    node_bytes: &mut [u8],
    tree_bytes: &mut [u8],
    order: &mut [u16],
    [entries, places, temp, stack, rows, centres]: [&mut [u32]; 6],
) -> BuildAnswer {
    // SAFETY: as for `build_bvh`, the children being only read. The count may be any number: the library reaches children
    // only where it found the slice long enough for them.
    unsafe {
        bounds_composite_tree(
            child_count,
            children.as_ptr(),
            children.len(),
            node_bytes.as_mut_ptr(),
            node_bytes.len(),
            tree_bytes.as_mut_ptr(),
            tree_bytes.len(),
            order.as_mut_ptr(),
            order.len(),
            entries.as_mut_ptr(),
            entries.len(),
            places.as_mut_ptr(),
            places.len(),
            temp.as_mut_ptr(),
            temp.len(),
            stack.as_mut_ptr(),
            stack.len(),
            rows.as_mut_ptr(),
            rows.len(),
            centres.as_mut_ptr().cast::<f32>(),
            centres.len(),
        )
    }
}

const _: () = {
    assert!(size_of::<OctantsAnswer>() == 36 && align_of::<OctantsAnswer>() == 4);
    assert!(size_of::<Child>() == 96 && align_of::<Child>() == 4);
    assert!(size_of::<ChildBox>() == 28 && align_of::<ChildBox>() == 4);
};

// ---- shrinking

/// `bounds_shrink_answer`.
#[derive(Clone, Copy)]
#[repr(C)]
pub struct ShrinkAnswer {
    pub refusal: u32,
    pub by: u32,
    pub margin: f32,
}

unsafe extern "C" {
    pub safe fn bounds_shrink_work_len(polygons: u32, vertices: u32) -> u64; // any numbers; 36 and 1 stay below 2^64

    // Memory is reached, and only through each pointer and the length behind it: called below, with slices.
    fn bounds_calculate_verts_shrunk(
        geometry: ShrinkBound,
        polygon_count: usize,
        polygons: *const u8,
        polygons_len: usize,
        vertex_count: usize,
        vertices: *const u32,
        vertices_len: usize,
        points: *mut u32,
        points_len: usize,
        corners: *mut u32,
        corners_len: usize,
        tri: *mut u32,
        tri_len: usize,
        firsts: *mut u32,
        firsts_len: usize,
        spare: *mut u32,
        spare_len: usize,
        links: *mut u32,
        links_len: usize,
        normals: *mut f32,
        normals_len: usize,
        olds: *mut f32,
        olds_len: usize,
        news: *mut f32,
        news_len: usize,
    ) -> ShrinkAnswer;
}

/// `bounds_calculate_verts_shrunk`, of vertices into points, both in words; what it works in is lent in eight parts:
/// corners, tri, firsts, spare, links, normals, olds and news.
pub fn calculate_verts_shrunk(
    bound: ShrinkBound,
    polygon_count: usize,
    polygons: &[u8],
    vertex_count: usize,
    (vertices, points): (&[u32], &mut [u32]),
    [corners, tri, firsts, spare, links, normals, olds, news]: [&mut [u32]; 8],
) -> ShrinkAnswer {
    // SAFETY: each pointer comes from a slice and goes with that slice's length, and all its cells are initialised. The
    // polygons and the vertices are only read; the others, being exclusive borrows, overlap neither them nor one another.
    // Normals, olds and news are lent as floats: those have a word's size and alignment, and any bits are a float's and a
    // word's. The struct has the header's 26 floats and no padding (checked below). The counts may be any numbers: the
    // library reaches records and vertices only where it found the slices long enough for them.
    unsafe {
        bounds_calculate_verts_shrunk(
            bound,
            polygon_count,
            polygons.as_ptr(),
            polygons.len(),
            vertex_count,
            vertices.as_ptr(),
            vertices.len(),
            points.as_mut_ptr(),
            points.len(),
            corners.as_mut_ptr(),
            corners.len(),
            tri.as_mut_ptr(),
            tri.len(),
            firsts.as_mut_ptr(),
            firsts.len(),
            spare.as_mut_ptr(),
            spare.len(),
            links.as_mut_ptr(),
            links.len(),
            normals.as_mut_ptr().cast::<f32>(),
            normals.len(),
            olds.as_mut_ptr().cast::<f32>(),
            olds.len(),
            news.as_mut_ptr().cast::<f32>(),
            news.len(),
        )
    }
}

/// [`vector_words`] to be written.
pub fn vector_words_mut(points: &mut [Vec3]) -> &mut [u32] {
    // SAFETY: as there; the borrow is exclusive, and each word is the pattern of some float.
    unsafe { std::slice::from_raw_parts_mut(points.as_mut_ptr().cast(), 3 * points.len()) }
}

const _: () = {
    assert!(size_of::<ShrinkBound>() == 104 && align_of::<ShrinkBound>() == 4);
    assert!(size_of::<ShrinkAnswer>() == 12 && align_of::<ShrinkAnswer>() == 4);
};

// ---- prepare

/// `bounds_counts`.
#[derive(Clone, Copy)]
#[repr(C)]
pub struct Counts {
    pub polygons: usize,
    pub vertices: usize,
    pub materials: usize,
}

/// `bounds_bvh_lengths`.
#[derive(Clone, Copy)]
#[repr(C)]
struct BvhLengths {
    node_bytes: usize,
    tree_bytes: usize,
    order: usize,
    sorted: usize,
}

/// `bounds_geometry_lengths`.
#[derive(Clone, Copy)]
#[repr(C)]
struct GeometryLengths {
    shrunk: usize,
    shrunk_floats: usize,
    octants: usize,
    olds: usize,
    news: usize,
}

/// `bounds_prepare_answer`.
#[derive(Clone, Copy)]
#[repr(C)]
pub struct PrepareAnswer {
    pub refusal: u32,
    pub frame: Frame,
    pub quantum: Vec3,
    pub materials: usize,
    pub octants: OctantsAnswer,
    pub tree: BuildAnswer,
}

/// The pointers of a `bounds_mesh`.
#[derive(Clone, Copy)]
pub struct Inputs<'a> {
    pub polygons: &'a [u8],
    pub numbers: &'a [u8],
    pub materials: &'a [u32],
    pub vertices: &'a [u32],
}

/// The pointers of a `bounds_buffers`, without the one to work in.
pub struct Outputs<'a> {
    pub materials: &'a mut [u8],
    pub indices: &'a mut [u8],
    pub polygons: &'a mut [u8],
    pub vertices: &'a mut [u8],
    pub floats: &'a mut [u32],
    pub shrunk: &'a mut [u8],
    pub shrunk_floats: &'a mut [u32],
    pub octants: &'a mut [u32],
    pub node_bytes: &'a mut [u8],
    pub tree_bytes: &'a mut [u8],
    pub order: &'a mut [u16],
}

unsafe extern "C" {
    pub safe fn bounds_prepare_work_len(polygons: u32, vertices: u32) -> u64; // any numbers; 55 and 13 stay below 2^64

    // Memory is reached, and only through each pointer and the length behind it: called below, with slices.
    fn bounds_prepare_geometry(
        bound: Bound,
        counts: Counts,
        other: BvhLengths,
        polygons: *const u8,
        polygons_len: usize,
        numbers: *const u8,
        numbers_len: usize,
        mats: *const u32,
        mats_len: usize,
        vertices: *const u32,
        vertices_len: usize,
        list: *mut u8,
        list_len: usize,
        indices: *mut u8,
        indices_len: usize,
        polygons_out: *mut u8,
        polygons_out_len: usize,
        stored: *mut u8,
        stored_len: usize,
        floats: *mut u32,
        floats_len: usize,
        shrunk: *mut u8,
        shrunk_len: usize,
        shrunk_floats: *mut u32,
        shrunk_floats_len: usize,
        octants: *mut u32,
        octants_len: usize,
        entries: *mut u32,
        entries_len: usize,
        places: *mut u32,
        places_len: usize,
        temp: *mut u32,
        temp_len: usize,
        stack: *mut u32,
        stack_len: usize,
        rows: *mut u32,
        rows_len: usize,
        points: *mut u32,
        points_len: usize,
        centres: *mut f32,
        centres_len: usize,
        olds: *mut f32,
        olds_len: usize,
        news: *mut f32,
        news_len: usize,
    ) -> PrepareAnswer;
    fn bounds_prepare_bvh(
        bound: Bound,
        counts: Counts,
        other: GeometryLengths,
        polygons: *const u8,
        polygons_len: usize,
        numbers: *const u8,
        numbers_len: usize,
        mats: *const u32,
        mats_len: usize,
        vertices: *const u32,
        vertices_len: usize,
        list: *mut u8,
        list_len: usize,
        indices: *mut u8,
        indices_len: usize,
        polygons_out: *mut u8,
        polygons_out_len: usize,
        stored: *mut u8,
        stored_len: usize,
        floats: *mut u32,
        floats_len: usize,
        node_bytes: *mut u8,
        node_bytes_len: usize,
        tree_bytes: *mut u8,
        tree_bytes_len: usize,
        order: *mut u16,
        order_len: usize,
        entries: *mut u32,
        entries_len: usize,
        places: *mut u32,
        places_len: usize,
        temp: *mut u32,
        temp_len: usize,
        stack: *mut u32,
        stack_len: usize,
        rows: *mut u32,
        rows_len: usize,
        points: *mut u32,
        points_len: usize,
        sorted: *mut u8,
        sorted_len: usize,
        centres: *mut f32,
        centres_len: usize,
    ) -> PrepareAnswer;
}

/// `bounds_prepare`; what it works in is lent in ten parts: entries, places, temp, stack, rows, points, sorted, centres, olds
/// and news.
pub fn prepare(bound: Bound, counts: Counts, from: Inputs, to: Outputs, work: [&mut [u32]; 10]) -> PrepareAnswer {
    let [entries, places, temp, stack, rows, points, sorted, centres, olds, news] = work;
    if bound.kind == 8 {
        let other = GeometryLengths {
            shrunk: to.shrunk.len(),
            shrunk_floats: to.shrunk_floats.len(),
            octants: to.octants.len(),
            olds: olds.len(),
            news: news.len(),
        };
        // SAFETY: each pointer comes from a slice and goes with that slice's length, and all its cells are initialised. The
        // inputs are only read; the others, being exclusive borrows, overlap neither them nor one another. The part
        // `sorted` is lent as bytes, four a word, and `centres` as floats: any bits are a word's, a byte's and a float's.
        // The structs have the header's fields in the header's order (their sizes are checked below). The counts may be any
        // numbers: the library reaches what they count only where it found the slices long enough for it.
        return unsafe {
            bounds_prepare_bvh(
                bound,
                counts,
                other,
                from.polygons.as_ptr(),
                from.polygons.len(),
                from.numbers.as_ptr(),
                from.numbers.len(),
                from.materials.as_ptr(),
                from.materials.len(),
                from.vertices.as_ptr(),
                from.vertices.len(),
                to.materials.as_mut_ptr(),
                to.materials.len(),
                to.indices.as_mut_ptr(),
                to.indices.len(),
                to.polygons.as_mut_ptr(),
                to.polygons.len(),
                to.vertices.as_mut_ptr(),
                to.vertices.len(),
                to.floats.as_mut_ptr(),
                to.floats.len(),
                to.node_bytes.as_mut_ptr(),
                to.node_bytes.len(),
                to.tree_bytes.as_mut_ptr(),
                to.tree_bytes.len(),
                to.order.as_mut_ptr(),
                to.order.len(),
                entries.as_mut_ptr(),
                entries.len(),
                places.as_mut_ptr(),
                places.len(),
                temp.as_mut_ptr(),
                temp.len(),
                stack.as_mut_ptr(),
                stack.len(),
                rows.as_mut_ptr(),
                rows.len(),
                points.as_mut_ptr(),
                points.len(),
                sorted.as_mut_ptr().cast::<u8>(),
                4 * sorted.len(),
                centres.as_mut_ptr().cast::<f32>(),
                centres.len(),
            )
        };
    }
    let other = BvhLengths {
        node_bytes: to.node_bytes.len(),
        tree_bytes: to.tree_bytes.len(),
        order: to.order.len(),
        sorted: 4 * sorted.len(),
    };
    // SAFETY: as above; `olds` and `news` are lent as floats too.
    unsafe {
        bounds_prepare_geometry(
            bound,
            counts,
            other,
            from.polygons.as_ptr(),
            from.polygons.len(),
            from.numbers.as_ptr(),
            from.numbers.len(),
            from.materials.as_ptr(),
            from.materials.len(),
            from.vertices.as_ptr(),
            from.vertices.len(),
            to.materials.as_mut_ptr(),
            to.materials.len(),
            to.indices.as_mut_ptr(),
            to.indices.len(),
            to.polygons.as_mut_ptr(),
            to.polygons.len(),
            to.vertices.as_mut_ptr(),
            to.vertices.len(),
            to.floats.as_mut_ptr(),
            to.floats.len(),
            to.shrunk.as_mut_ptr(),
            to.shrunk.len(),
            to.shrunk_floats.as_mut_ptr(),
            to.shrunk_floats.len(),
            to.octants.as_mut_ptr(),
            to.octants.len(),
            entries.as_mut_ptr(),
            entries.len(),
            places.as_mut_ptr(),
            places.len(),
            temp.as_mut_ptr(),
            temp.len(),
            stack.as_mut_ptr(),
            stack.len(),
            rows.as_mut_ptr(),
            rows.len(),
            points.as_mut_ptr(),
            points.len(),
            centres.as_mut_ptr().cast::<f32>(),
            centres.len(),
            olds.as_mut_ptr().cast::<f32>(),
            olds.len(),
            news.as_mut_ptr().cast::<f32>(),
            news.len(),
        )
    }
}

/// The words of materials, two each, as they lie in memory.
pub fn material_words(materials: &[BoundMaterial]) -> &[u32] {
    // SAFETY: a material is `repr(C)`, two u32 without padding (checked above). The words are borrowed for as long as the
    // materials.
    unsafe { std::slice::from_raw_parts(materials.as_ptr().cast(), 2 * materials.len()) }
}

const _: () = {
    assert!(size_of::<Frame>() == 52 && align_of::<Frame>() == 4);
    assert!(size_of::<Bound>() == 136 && align_of::<Bound>() == 4);
    assert!(size_of::<Counts>() == 24 && size_of::<BvhLengths>() == 32 && size_of::<GeometryLengths>() == 40);
    assert!(size_of::<PrepareAnswer>() == 224 && align_of::<PrepareAnswer>() == 8);
};

#[cfg(test)]
mod tests {
    use super::*;

    /// What `corners` is to find, by the fields of each kind.
    fn fields(polygon: Polygon) -> ([u16; 4], u32, u32) {
        let grown = |numbers, radius: f32| (numbers, radius.to_bits(), radius.to_bits());
        let plain = |numbers| (numbers, 0.0_f32.to_bits(), (-0.0_f32).to_bits());
        match polygon {
            Polygon::Triangle { v: [a, b, c], .. } => plain([a, b, c, c]),
            Polygon::Sphere { index, radius, .. } => grown([index; 4], radius),
            Polygon::Capsule { i1, i2, radius, .. } | Polygon::Cylinder { i1, i2, radius, .. } => {
                grown([i1, i1, i1, i2], radius)
            }
            Polygon::Box { i, .. } => plain(i.map(|i| i as u16)),
        }
    }

    #[test]
    fn corners_are_the_fields_of_each_kind() {
        let (material, i1, i2) = (0xAB, 0x1234, 0xFEDC);
        for radius in [0.0, -0.0, 1.5, -1.5, f32::INFINITY, f32::NAN, f32::from_bits(0xFF81_2345), f32::from_bits(1)] {
            for polygon in [
                Polygon::Triangle { material, v: [i1, i2, 0x5678], area: radius, edges: [-1, 2, -3] },
                Polygon::Sphere { material, index: i2, radius },
                Polygon::Capsule { material, i1, i2, radius },
                Polygon::Box { material, i: [0x0102, -0x0304, 0x0506, -0x0708] },
                Polygon::Cylinder { material, i1, i2, radius },
            ] {
                let (numbers, low, high) = corners(&polygon);
                assert_eq!((numbers, low.to_bits(), high.to_bits()), fields(polygon), "{polygon:?}");
            }
        }
    }

    const ENTRIES: usize = 3;
    /// Entries, places, temp, stack, rows, centres.
    const PARTS: [usize; 6] = [7 * ENTRIES, ENTRIES, ENTRIES, ENTRIES, 8 * (2 * ENTRIES + 1), 4 * ENTRIES];

    /// Boxes 2i to 2i + 1 on each axis; any mark but 0 says present.
    fn items() -> [BvhItem; ENTRIES] {
        let corner = |x: f32| Vec3::new(x, x, x);
        [(1, 0.0), (0x8000_0000, 2.0), (u32::MAX, 4.0)].map(|(present, low)| BvhItem {
            present,
            min: corner(low),
            max: corner(low + 1.0),
        })
    }

    fn build(parts: [usize; 6]) -> (BuildAnswer, Vec<u8>) {
        let mut work = parts.map(|len| vec![0; len]);
        let work = work.each_mut().map(|part| &mut part[..]);
        let (mut nodes, mut trees, mut order) = (vec![7; 112], vec![7; 112], vec![7; ENTRIES]);
        let built = build_bvh(&items(), 1, &mut nodes, &mut trees, &mut order, work);
        (built, nodes)
    }

    #[test]
    fn each_part_of_the_work_buffer_is_checked() {
        let (built, nodes) = build(PARTS);
        assert_eq!((built.refusal, built.nodes, built.capacity, built.present), (0, 5, 7, 3));
        for part in 0..PARTS.len() {
            let (mut longer, mut shorter) = (PARTS, PARTS);
            longer[part] += 1;
            let (same, same_nodes) = build(longer);
            assert_eq!((same.refusal, &same_nodes), (0, &nodes), "part {part} longer");
            shorter[part] -= 1;
            let (refused, untouched) = build(shorter);
            assert_eq!((refused.refusal, untouched), (2, vec![7; 112]), "part {part} shorter");
            assert_eq!((refused.nodes, refused.min.x), (0, 0), "a refusal has no values");
        }
        assert_eq!(PARTS.iter().sum::<usize>() as u64, bounds_work_len(ENTRIES as u32));
    }

    #[test]
    fn premises_are_refused_where_entries_are_short_or_too_many() {
        let items = items();
        let entries = item_words(&items);
        let answer = |n, len| {
            let Premises { refusal, fault, place } = ordinary(n, &entries[..len]);
            (refusal, fault, place)
        };
        assert_eq!(answer(ENTRIES, 7 * ENTRIES), (0, 0, 0));
        assert_eq!(answer(ENTRIES, 7 * ENTRIES - 1), (2, 0, 0));
        assert_eq!(answer(ENTRIES - 1, 7 * ENTRIES - 1), (0, 0, 0));
        assert_eq!(answer(32_767, 7 * ENTRIES), (2, 0, 0));
        assert_eq!(answer(32_768, 7 * ENTRIES), (1, 0, 0));
        assert_eq!(answer(usize::MAX, 7 * ENTRIES), (1, 0, 0));
    }

    /// Vertices, lists, keys, rows, order, temp and marks of so many vertices.
    fn octant_lengths(n: usize) -> [usize; 7] {
        [3 * n, 8 * n, 3 * n, 4 * n, n, n, n]
    }

    fn octants(n: usize, lengths: [usize; 7]) -> (OctantsAnswer, Vec<u32>) {
        let mut buffers = lengths.map(|len| vec![7; len]);
        let [vertices, lists, work @ ..] = buffers.each_mut().map(|part| &mut part[..]);
        (calculate_octants(n, vertices, lists, work), buffers[1].clone())
    }

    #[test]
    fn each_buffer_of_octants_is_checked() {
        const VERTICES: usize = 3;
        let lengths = octant_lengths(VERTICES);
        let (answer, lists) = octants(VERTICES, lengths);
        assert_eq!((answer.refusal, answer.counts), (0, [1; 8]), "of equal vertices the first");
        for at in 0..lengths.len() {
            let (mut longer, mut shorter) = (lengths, lengths);
            longer[at] += 1;
            let (same, same_lists) = octants(VERTICES, longer);
            assert_eq!((same.refusal, same.counts, &same_lists[..24]), (0, [1; 8], &lists[..]), "buffer {at} longer");
            assert!(same_lists[24..].iter().all(|&word| word == 7), "what lies behind stays");
            shorter[at] -= 1;
            let (refused, untouched) = octants(VERTICES, shorter);
            assert_eq!((refused.refusal, refused.counts), (2, [0; 8]), "buffer {at} shorter");
            assert!(untouched.iter().all(|&word| word == 7), "buffer {at} shorter");
        }
        assert_eq!(lengths[2..].iter().sum::<usize>() as u64, bounds_octants_work_len(VERTICES as u32));
    }

    #[test]
    fn octants_are_refused_by_their_number_first() {
        for n in [32_769, usize::MAX / 8, usize::MAX] {
            assert_eq!(octants(n, [0; 7]).0.refusal, 1, "{n}");
        }
        assert_eq!(octants(32_768, [0; 7]).0.refusal, 2);
        assert_eq!(octants(0, [0; 7]).0.refusal, 0);
    }

    const CHILDREN: usize = 6;
    /// Children, nodes, trees, order, and the parts of the work buffer.
    const COMPOSITE: [usize; 10] = [
        24 * CHILDREN,
        16 * (2 * CHILDREN + 1),
        16 * (2 * CHILDREN + 1),
        CHILDREN,
        7 * CHILDREN,
        CHILDREN,
        CHILDREN,
        CHILDREN,
        8 * (2 * CHILDREN + 1),
        4 * CHILDREN,
    ];

    fn composite(n: usize, lengths: [usize; 10]) -> (BuildAnswer, [Vec<u8>; 2], Vec<u16>) {
        let [children, nodes, trees, order, work @ ..] = lengths;
        let (children, mut records) = (vec![1; children], [vec![7; nodes], vec![7; trees]]);
        let (mut order, mut work) = (vec![7; order], work.map(|len| vec![0; len]));
        let work = work.each_mut().map(|part| &mut part[..]);
        let [nodes, trees] = &mut records;
        let built = composite_tree(n, &children, nodes, trees, &mut order, work);
        (built, records, order)
    }

    fn untouched((_, records, order): &(BuildAnswer, [Vec<u8>; 2], Vec<u16>)) -> bool {
        records.iter().flatten().all(|&byte| byte == 7) && order.iter().all(|&place| place == 7)
    }

    #[test]
    fn each_buffer_of_a_composite_is_checked_above_five_children() {
        let built = composite(CHILDREN, COMPOSITE);
        assert_eq!((built.0.refusal, built.0.nodes, built.0.capacity, built.0.present), (0, 11, 13, 6));
        for at in 0..COMPOSITE.len() {
            let (mut longer, mut shorter) = (COMPOSITE, COMPOSITE);
            longer[at] += 1;
            assert_eq!(composite(CHILDREN, longer).0.refusal, 0, "buffer {at} longer");
            shorter[at] -= 1;
            let refused = composite(CHILDREN, shorter);
            assert_eq!((refused.0.refusal, refused.0.nodes), (2, 0), "buffer {at} shorter");
            assert!(untouched(&refused), "buffer {at} shorter");
        }
        let none = composite(CHILDREN - 1, [3; 10]);
        assert_eq!((none.0.refusal, none.0.nodes, none.0.capacity, none.0.trees), (0, 0, 0, 0));
        assert!(untouched(&none));
        for (n, refusal) in [(0, 0), (5, 0), (6, 2), (32_767, 2), (32_768, 1), (usize::MAX, 1)] {
            assert_eq!(composite(n, [0; 10]).0.refusal, refusal, "{n} children");
        }
    }

    #[test]
    fn children_are_read_only_where_they_are_whole() {
        let words = [1; 48];
        let boxes = |n, len, room| {
            let mut out = vec![7; room];
            let refusal = child_boxes(n, &words[..len], &mut out);
            assert!(refusal == 0 || out.iter().all(|&byte| byte == 7));
            refusal
        };
        assert_eq!((boxes(2, 48, 64), boxes(2, 47, 64), boxes(2, 48, 63)), (0, 2, 2));
        assert_eq!((boxes(0, 0, 0), boxes(32_767, 0, 0), boxes(32_768, 0, 0), boxes(usize::MAX, 48, 64)), (0, 2, 1, 1));
        let present = |len, k| computed_box(&words[..len], k).present;
        assert_eq!((present(48, 0), present(48, 1), present(47, 1), present(48, 2)), (1, 1, 0, 0));
        assert_eq!((present(0, 0), present(48, usize::MAX), present(48, usize::MAX / 24)), (0, 0, 0));
    }

    /// Polygons in bytes, vertices, points, and the eight parts of the work buffer.
    fn shrink_lengths(p: usize, v: usize) -> [usize; 11] {
        [16 * p, 3 * v, 3 * v, 3 * p, 3 * p, 3 * p + v, 3 * p, 3 * p, 3 * p, 9 * p, 9 * p]
    }

    /// Triangles 0, 1, 2 of vertices at 7 and the word 7, which is next to 0, in a box of 4 about 0.
    fn shrink(p: usize, v: usize, kind: u8, lengths: [usize; 11]) -> (ShrinkAnswer, Vec<u32>) {
        let [polygons, buffers @ ..] = lengths;
        let record = [kind, 0, 0, 0, 0, 0, 1, 0, 2, 0, 0, 0, 0, 0, 0, 0];
        let polygons: Vec<u8> = record.into_iter().cycle().take(polygons).collect();
        let mut buffers = buffers.map(|len| vec![7; len]);
        let [vertices, points, work @ ..] = buffers.each_mut().map(|part| &mut part[..]);
        let two = Vec3::new(2.0, 2.0, 2.0);
        let bound = ShrinkBound::new(-two, two, 1.0);
        (calculate_verts_shrunk(bound, p, &polygons, v, (vertices, points), work), buffers[1].clone())
    }

    #[test]
    fn each_buffer_of_shrinking_is_checked() {
        const POLYGONS: usize = 2;
        const VERTICES: usize = 3;
        let lengths = shrink_lengths(POLYGONS, VERTICES);
        let answers = |lengths| shrink(POLYGONS, VERTICES, 0, lengths);
        let (answer, points) = answers(lengths);
        assert_eq!((answer.refusal, answer.by, answer.margin), (0, 1, 1.0), "of equal vertices none moves");
        assert_eq!(points, [7; 9], "within the box");
        for at in 0..lengths.len() {
            let (mut longer, mut shorter) = (lengths, lengths);
            longer[at] += 1;
            let (same, same_points) = answers(longer);
            assert_eq!((same.refusal, same.by, &same_points[..9]), (0, 1, &points[..]), "buffer {at} longer");
            assert!(same_points[9..].iter().all(|&word| word == 7), "what lies behind stays");
            shorter[at] -= 1;
            let (refused, untouched) = answers(shorter);
            assert_eq!((refused.refusal, refused.by, refused.margin), (2, 0, 0.0), "buffer {at} shorter");
            assert!(untouched.iter().all(|&word| word == 7), "buffer {at} shorter");
        }
        let words = bounds_shrink_work_len(POLYGONS as u32, VERTICES as u32);
        assert_eq!(lengths[3..].iter().sum::<usize>() as u64, words);
    }

    #[test]
    fn shrinking_is_refused_by_its_numbers_then_by_kinds() {
        let refusal = |p, v, kind, lengths| shrink(p, v, kind, lengths).0.refusal;
        for n in [32_769, usize::MAX / 16, usize::MAX] {
            assert_eq!((refusal(n, 0, 5, [0; 11]), refusal(0, n, 5, [0; 11])), (1, 1), "{n}");
        }
        assert_eq!((refusal(32_768, 0, 0, [0; 11]), refusal(0, 32_768, 0, [0; 11])), (1, 2));
        assert_eq!((refusal(32_767, 0, 0, [0; 11]), refusal(0, 0, 0, [0; 11])), (2, 0));
        let lengths = shrink_lengths(1, 1);
        assert_eq!([4, 5, 6, 7, 8].map(|kind| refusal(1, 1, kind, lengths)), [0, 6, 6, 6, 0]);
    }

    /// Inputs (polygons, numbers, materials, vertices), outputs as `Outputs` has them, and the ten parts of the work buffer;
    /// bytes, halves or words. In the work buffer the part `sorted` is words, of which a quarter is enough.
    fn prepare_lengths(p: usize, v: usize, m: usize) -> [usize; 25] {
        let records = 16 * (2 * p + 1);
        let outputs = [2048, p, 16 * p, 6 * v, 3 * v, 6 * v, 3 * v, 8 * v, records, records, p];
        let work =
            [7 * p + 4 * v, 3 * p + 3 * v, 3 * p + v, 3 * p + v, 16 * p + 8 + v, 3 * v, p / 4, 4 * p, 9 * p, 9 * p];
        let mut all = [0; 25];
        all[..4].copy_from_slice(&[16 * p, p, 2 * m, 3 * v]);
        all[4..15].copy_from_slice(&outputs);
        all[15..].copy_from_slice(&work);
        all
    }

    /// Triangles of the first three of vertices that are all the same; every cell of an output is 7.
    fn prepared(kind: u32, p: usize, v: usize, m: usize, lengths: [usize; 25]) -> (PrepareAnswer, bool) {
        let record = [0, 0, 0, 0, 0, 0, 1, 0, 2, 0, 0, 0, 0, 0, 0, 0];
        let polygons: Vec<u8> = record.into_iter().cycle().take(lengths[0]).collect();
        let (numbers, materials, vertices) = (vec![0; lengths[1]], vec![5; lengths[2]], vec![7; lengths[3]]);
        let from = Inputs { polygons: &polygons, numbers: &numbers, materials: &materials, vertices: &vertices };
        let bytes = |at: usize| vec![7u8; lengths[at]];
        let words = |at: usize| vec![7u32; lengths[at]];
        let (mut list, mut indices, mut records) = (bytes(4), bytes(5), bytes(6));
        let (mut stored, mut floats, mut shrunk, mut shrunk_floats) = (bytes(7), words(8), bytes(9), words(10));
        let (mut octants, mut nodes, mut trees, mut order) = (words(11), bytes(12), bytes(13), vec![7u16; lengths[14]]);
        let to = Outputs {
            materials: &mut list,
            indices: &mut indices,
            polygons: &mut records,
            vertices: &mut stored,
            floats: &mut floats,
            shrunk: &mut shrunk,
            shrunk_floats: &mut shrunk_floats,
            octants: &mut octants,
            node_bytes: &mut nodes,
            tree_bytes: &mut trees,
            order: &mut order,
        };
        let mut work: [Vec<u32>; 10] = std::array::from_fn(|part| vec![7; lengths[15 + part]]);
        let work = work.each_mut().map(|part| &mut part[..]);
        let two = Vec3::new(2.0, 2.0, 2.0);
        let bound = Bound { kind, box_min: -two, box_max: two, margin: 1.0, ..Bound::default() };
        let answer = prepare(bound, Counts { polygons: p, vertices: v, materials: m }, from, to, work);
        let bytes = [list, indices, records, stored, shrunk, nodes, trees].concat();
        let words = [floats, shrunk_floats, octants].concat();
        let untouched = bytes.iter().all(|&b| b == 7) && words.iter().all(|&w| w == 7) && order.iter().all(|&o| o == 7);
        (answer, untouched)
    }

    #[test]
    fn each_buffer_of_prepare_is_checked_for_both_kinds() {
        const COUNTS: (usize, usize, usize) = (8, 3, 2);
        let (p, v, m) = COUNTS;
        let lengths = prepare_lengths(p, v, m);
        for kind in [4, 8] {
            let (answer, untouched) = prepared(kind, p, v, m, lengths);
            assert_eq!((answer.refusal, answer.materials, untouched), (0, 1, false), "kind {kind}");
            assert_eq!((answer.octants.counts[0], answer.tree.nodes), if kind == 4 { (1, 0) } else { (0, 3) });
            for at in 0..lengths.len() {
                let (mut longer, mut shorter) = (lengths, lengths);
                longer[at] += 1;
                assert_eq!(prepared(kind, p, v, m, longer).0.refusal, 0, "kind {kind}, buffer {at} longer");
                shorter[at] -= 1;
                let (refused, untouched) = prepared(kind, p, v, m, shorter);
                assert_eq!((refused.refusal, untouched), (2, true), "kind {kind}, buffer {at} shorter");
                assert_eq!((refused.materials, refused.tree.nodes, refused.frame), (0, 0, Frame::default()));
            }
        }
        let words: usize = lengths[15..].iter().sum::<usize>() + p - p / 4;
        assert_eq!(words as u64, bounds_prepare_work_len(p as u32, v as u32));
    }

    #[test]
    fn prepare_is_refused_by_its_kind_then_by_its_numbers() {
        let refusal = |kind, p, v, m| prepared(kind, p, v, m, [0; 25]).0.refusal;
        for kind in [0, 3, 5, 7, 9, 12, 260, u32::MAX] {
            assert_eq!((refusal(kind, 0, 0, 0), refusal(kind, usize::MAX, 0, 0)), (6, 6), "{kind}");
        }
        for kind in [4, 8] {
            for n in [32_769, usize::MAX / 16, usize::MAX] {
                assert_eq!([refusal(kind, n, 0, 0), refusal(kind, 0, n, 0), refusal(kind, 0, 0, n)], [1; 3], "{n}");
            }
            assert_eq!([refusal(kind, 32_768, 0, 0), refusal(kind, 0, 32_768, 0), refusal(kind, 0, 0, 257)], [1, 2, 1]);
            assert_eq!([refusal(kind, 32_767, 0, 0), refusal(kind, 0, 0, 256), refusal(kind, 0, 0, 0)], [2; 3]);
            assert_eq!(prepared(kind, 0, 0, 0, prepare_lengths(0, 0, 0)).0.refusal, 0);
        }
    }
}
