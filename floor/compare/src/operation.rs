//! The operations, each with both sides on words.
//!
//! A float goes in as its word, any NaN included. A float that comes out of arithmetic is compared by its word where it
//! is a number and as a NaN where it is one ([`made`]); a copied one by its word always. The other side is Rust's own
//! operator, and the reference's function where it has one.

use crate::inputs::Input::{self, Count, Float, Number};
use bounds::{float, math as proved, Mat4, Vec3, Vec4};
use oracle::{float as source, math as reference, Aabb};
use std::cmp::Ordering;

/// Up to six words.
#[derive(Clone, Copy, Debug, PartialEq, Eq)]
pub struct Words {
    words: [u32; 6],
    len: usize,
}

impl Words {
    pub fn as_slice(&self) -> &[u32] {
        &self.words[..self.len]
    }
}

impl<const N: usize> From<[u32; N]> for Words {
    fn from(from: [u32; N]) -> Words {
        let mut words = [0; 6];
        words[..N].copy_from_slice(&from);
        Words { words, len: N }
    }
}

pub type Side = fn(&[u32]) -> Words;

pub struct Operation {
    pub name: &'static str,
    pub group: &'static str,
    /// Its number in a file of vectors.
    pub number: Option<u8>,
    pub shape: &'static [Input],
    pub ours: Side,
    pub theirs: Side,
}

/// A float that arithmetic made: any NaN counts as one.
pub fn made(x: f32) -> u32 {
    if x.is_nan() {
        0x7FC0_0000
    } else {
        x.to_bits()
    }
}

/// [`made`] of each coordinate.
pub fn made3(v: Vec3) -> [u32; 3] {
    <[f32; 3]>::from(v).map(made)
}

/// [`made`] of both corners.
pub fn made6(min: Vec3, max: Vec3) -> [u32; 6] {
    let ([a, b, c], [d, e, f]) = (made3(min), made3(max));
    [a, b, c, d, e, f]
}

fn made4(v: Vec4) -> [u32; 4] {
    [v.x, v.y, v.z, v.w].map(made)
}

/// The words of a point that was copied.
pub fn copied(v: Vec3) -> [u32; 3] {
    <[f32; 3]>::from(v).map(f32::to_bits)
}

/// 0 less, 1 equal, 2 greater.
fn order(o: Ordering) -> u32 {
    (o as i32 + 1) as u32
}

/// 3 where unordered.
fn relation(o: Option<Ordering>) -> u32 {
    o.map_or(3, order)
}

/// Rust leaves open which of two zeros its `min` and `max` give.
fn open_zero(case: &[u32], x: f32) -> u32 {
    if is_open(case) {
        0
    } else {
        made(x)
    }
}

/// Two zeros, one of each sign.
pub fn is_open(case: &[u32]) -> bool {
    case.len() == 2 && case[0] ^ case[1] == 0x8000_0000 && case[0] << 1 == 0
}

fn f(word: u32) -> f32 {
    f32::from_bits(word)
}

pub fn point(w: &[u32]) -> Vec3 {
    Vec3::new(f(w[0]), f(w[1]), f(w[2]))
}
fn words3(w: &[u32]) -> [u32; 3] {
    [w[0], w[1], w[2]]
}
fn matrix(w: &[u32]) -> Mat4 {
    Mat4(std::array::from_fn(|i| f(w[i])))
}

const F1: &[Input] = &[Float];
const F2: &[Input] = &[Float; 2];
const F3: &[Input] = &[Float; 3];
const F4: &[Input] = &[Float; 4];
const F6: &[Input] = &[Float; 6];
const F19: &[Input] = &[Float; 19];
const F22: &[Input] = &[Float; 22];

/// A group's operations: name, number, shape, and of the words `w` our side's words and the other's.
macro_rules! operations {
    ($group:literal, $w:ident: $($name:literal $($number:literal)? ($shape:expr) $ours:expr, $theirs:expr;)*) => {
        [$(Operation {
            name: $name,
            group: $group,
            number: [$(Some($number),)? None][0],
            shape: $shape,
            ours: |$w| $ours.into(),
            theirs: |$w| $theirs.into(),
        }),*]
    };
}
pub(crate) use operations;

fn floats() -> impl IntoIterator<Item = Operation> {
    operations! { "float", w:
        "value_bits" 0x01 (F1) [float::value_bits(w[0])], [made(f(w[0]))];
        "value" (F1) [made(float::value(w[0]))], [made(f(w[0]))];
        "bits" (F1) [float::bits(f(w[0]))], [made(f(w[0]))];
        "relate" 0x02 (F2) [relation(float::relate(f(w[0]), f(w[1])))], [relation(f(w[0]).partial_cmp(&f(w[1])))];
        "cmp_f32" 0x03 (F2) [order(float::cmp_f32(f(w[0]), f(w[1])))], [order(source::cmp_f32(f(w[0]), f(w[1])))];
        "order_key" 0x04 (F2) [order(float::order_key(w[0]).cmp(&float::order_key(w[1])))],
            [order(source::cmp_f32(f(w[0]), f(w[1])))];
        "vmin_word" 0x05 (F2) [float::vmin_word(w[0], w[1])], [source::vmin(f(w[0]), f(w[1])).to_bits()];
        "vmax_word" 0x06 (F2) [float::vmax_word(w[0], w[1])], [source::vmax(f(w[0]), f(w[1])).to_bits()];
        "vmin" (F2) [made(float::vmin(f(w[0]), f(w[1])))], [made(source::vmin(f(w[0]), f(w[1])))];
        "vmax" (F2) [made(float::vmax(f(w[0]), f(w[1])))], [made(source::vmax(f(w[0]), f(w[1])))];
        "min_number" 0x07 (F2) [open_zero(w, float::min_number(f(w[0]), f(w[1])))], [open_zero(w, f(w[0]).min(f(w[1])))];
        "max_number" 0x08 (F2) [open_zero(w, float::max_number(f(w[0]), f(w[1])))], [open_zero(w, f(w[0]).max(f(w[1])))];
        "to_i32" 0x09 (F1) [float::to_i32(f(w[0])) as u32], [f(w[0]) as i32 as u32];
        "wrap_i16" (&[Number]) [float::wrap_i16(w[0] as i32) as u32], [w[0] as i16 as u32];
        "to_short" 0x0A (F1) [float::to_short(f(w[0])) as u32], [source::to_short(f(w[0])) as u32];
        "vertex_value" 0x0B (F1) [float::vertex_value(f(w[0])) as u32], [source::vertex_value(f(w[0])) as u32];
        "sqrt" 0x0C (F1) [made(float::sqrt(f(w[0])))], [made(f(w[0]).sqrt())];
        "of_count" 0x0D (&[Count]) [made(float::of_count(w[0] as u16))], [made(w[0] as u16 as f32)];
    }
}

fn maths() -> impl IntoIterator<Item = Operation> {
    operations! { "math", w:
        "add" (F6) made3(point(w) + point(&w[3..])), made3(reference::add(point(w), point(&w[3..])));
        "sub" (F6) made3(point(w) - point(&w[3..])), made3(reference::sub(point(w), point(&w[3..])));
        "scale" (F4) made3(point(w) * f(w[3])), made3(reference::scale(point(w), f(w[3])));
        "neg" (F3) made3(-point(w)), made3(reference::neg(point(w)));
        "abs" (F3) made3(point(w).abs()), made3(reference::abs(point(w)));
        "length" 0x0E (F3) [made(point(w).length())], [made(reference::length(point(w)))];
        "norm" 0x0F (F3) made3(proved::norm(point(w))), made3(reference::norm(point(w)));
        "dot" 0x10 (F6) [made(point(w).dot(point(&w[3..])))], [made(reference::dot(point(w), point(&w[3..])))];
        "cross" 0x11 (F6) made3(point(w).cross(point(&w[3..]))), made3(reference::cross(point(w), point(&w[3..])));
        "vmul" (F6) made3(proved::vmul(point(w), point(&w[3..]))), made3(reference::vmul(point(w), point(&w[3..])));
        "vdiv" (F6) made3(proved::vdiv(point(w), point(&w[3..]))), made3(reference::vdiv(point(w), point(&w[3..])));
        "vadd_f" (F4) made3(proved::vadd_f(point(w), f(w[3]))), made3(reference::vadd_f(point(w), f(w[3])));
        "vmin3" (F6) made3(proved::vmin(point(w), point(&w[3..]))), made3(reference::vmin(point(w), point(&w[3..])));
        "vmax3" (F6) made3(proved::vmax(point(w), point(&w[3..]))), made3(reference::vmax(point(w), point(&w[3..])));
        "vmin_words3" (F6) proved::vmin_words(words3(w), words3(&w[3..])), copied(reference::vmin(point(w), point(&w[3..])));
        "vmax_words3" (F6) proved::vmax_words(words3(w), words3(&w[3..])), copied(reference::vmax(point(w), point(&w[3..])));
        "cmp_vec3" 0x12 (F6) [order(proved::cmp_vec3(point(w), point(&w[3..])))],
            [order(reference::cmp_vec3(point(w), point(&w[3..])))];
        "transform_point" 0x13 (F19) made4(matrix(w).transform_point(point(&w[16..]))),
            made4(reference::transform_point(&matrix(w), point(&w[16..])));
        "transform_vector" 0x14 (F19) made3(matrix(w).transform_vector(point(&w[16..]))),
            made3(reference::transform_vector(&matrix(w), point(&w[16..])));
        "transform_box" 0x15 (F22) {
            let (min, max) = proved::transform_box(point(w), point(&w[3..]), &matrix(&w[6..]));
            made6(min, max)
        }, {
            let given = Aabb { min: point(w), max: point(&w[3..]) };
            let Aabb { min, max } = reference::transform_box(given, &matrix(&w[6..]));
            made6(min, max)
        };
    }
}

/// Every operation.
pub fn all() -> Vec<Operation> {
    floats().into_iter().chain(maths()).collect()
}
