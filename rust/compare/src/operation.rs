//! The operations, each with both sides on words.
//!
//! A float goes in as its word, any NaN included. A float that comes out of arithmetic is compared by its word where it
//! is a number and as a NaN where it is one ([`made`]); a copied one by its word always. The other side is Rust's own
//! operator, and the reference's function where it has one.

use crate::inputs::Input::{self, Count, Float, Number};
use bounds::{float, math as proved, Mat4, Vec3};
use oracle::{float as source, math as reference};
use std::cmp::Ordering;

/// Up to six words.
#[derive(Clone, Copy, Debug, PartialEq, Eq)]
pub struct Words {
    words: [u32; 6],
    len: usize,
}

impl Words {
    pub fn as_slice(&self) -> &[u32] {
        &self.words[..self.len]
    }
}

impl<const N: usize> From<[u32; N]> for Words {
    fn from(from: [u32; N]) -> Words {
        let mut words = [0; 6];
        words[..N].copy_from_slice(&from);
        Words { words, len: N }
    }
}

pub type Side = fn(&[u32]) -> Words;

pub struct Operation {
    pub name: &'static str,
    pub group: &'static str,
    /// Its number in a file of vectors.
    pub number: Option<u8>,
    pub shape: &'static [Input],
    pub ours: Side,
    pub theirs: Side,
}

/// A float that arithmetic made: any NaN counts as one.
pub fn made(x: f32) -> u32 {
    if x.is_nan() {
        0x7FC0_0000
    } else {
        x.to_bits()
    }
}

/// 0 less, 1 equal, 2 greater.
fn order(o: Ordering) -> u32 {
    (o as i32 + 1) as u32
}

/// 3 where unordered.
fn relation(o: Option<Ordering>) -> u32 {
    o.map_or(3, order)
}

/// Rust leaves open which of two zeros its `min` and `max` give.
fn open_zero(case: &[u32], x: f32) -> u32 {
    if is_open(case) {
        0
    } else {
        made(x)
    }
}

/// Two zeros, one of each sign.
pub fn is_open(case: &[u32]) -> bool {
    case.len() == 2 && case[0] ^ case[1] == 0x8000_0000 && case[0] << 1 == 0
}

fn f(word: u32) -> f32 {
    f32::from_bits(word)
}

fn ours3(w: &[u32]) -> Vec3 {
    Vec3::new(f(w[0]), f(w[1]), f(w[2]))
}
fn theirs3(w: &[u32]) -> [f32; 3] {
    [f(w[0]), f(w[1]), f(w[2])]
}
fn words3(w: &[u32]) -> [u32; 3] {
    [w[0], w[1], w[2]]
}
fn matrix(w: &[u32]) -> [f32; 16] {
    std::array::from_fn(|i| f(w[i]))
}

fn one(x: f32) -> Words {
    [made(x)].into()
}
fn ours_point(v: Vec3) -> Words {
    [made(v.x), made(v.y), made(v.z)].into()
}
fn theirs_point(v: [f32; 3]) -> Words {
    v.map(made).into()
}
fn both(a: [f32; 3], b: [f32; 3]) -> Words {
    [a[0], a[1], a[2], b[0], b[1], b[2]].map(made).into()
}

const F1: &[Input] = &[Float];
const F2: &[Input] = &[Float; 2];
const F3: &[Input] = &[Float; 3];
const F4: &[Input] = &[Float; 4];
const F6: &[Input] = &[Float; 6];
const F19: &[Input] = &[Float; 19];
const F22: &[Input] = &[Float; 22];

macro_rules! operations {
    ($group:literal: $($name:literal $($number:literal)? ($shape:expr) $ours:expr, $theirs:expr;)*) => {
        [$(Operation {
            name: $name,
            group: $group,
            number: [$(Some($number),)? None][0],
            shape: $shape,
            ours: $ours,
            theirs: $theirs,
        }),*]
    };
}

fn floats() -> impl IntoIterator<Item = Operation> {
    operations! { "float":
        "value_bits" 0x01 (F1) |w| [float::value_bits(w[0])].into(), |w| one(f(w[0]));
        "value" (F1) |w| one(float::value(w[0])), |w| one(f(w[0]));
        "bits" (F1) |w| [float::bits(f(w[0]))].into(), |w| one(f(w[0]));
        "relate" 0x02 (F2) |w| [relation(float::relate(f(w[0]), f(w[1])))].into(),
            |w| [relation(f(w[0]).partial_cmp(&f(w[1])))].into();
        "cmp_f32" 0x03 (F2) |w| [order(float::cmp_f32(f(w[0]), f(w[1])))].into(),
            |w| [order(source::cmp_f32(f(w[0]), f(w[1])))].into();
        "order_key" 0x04 (F2) |w| [order(float::order_key(w[0]).cmp(&float::order_key(w[1])))].into(),
            |w| [order(source::cmp_f32(f(w[0]), f(w[1])))].into();
        "vmin_word" 0x05 (F2) |w| [float::vmin_word(w[0], w[1])].into(),
            |w| [source::vmin(f(w[0]), f(w[1])).to_bits()].into();
        "vmax_word" 0x06 (F2) |w| [float::vmax_word(w[0], w[1])].into(),
            |w| [source::vmax(f(w[0]), f(w[1])).to_bits()].into();
        "vmin" (F2) |w| one(float::vmin(f(w[0]), f(w[1]))), |w| one(source::vmin(f(w[0]), f(w[1])));
        "vmax" (F2) |w| one(float::vmax(f(w[0]), f(w[1]))), |w| one(source::vmax(f(w[0]), f(w[1])));
        "min_number" 0x07 (F2) |w| [open_zero(w, float::min_number(f(w[0]), f(w[1])))].into(),
            |w| [open_zero(w, f(w[0]).min(f(w[1])))].into();
        "max_number" 0x08 (F2) |w| [open_zero(w, float::max_number(f(w[0]), f(w[1])))].into(),
            |w| [open_zero(w, f(w[0]).max(f(w[1])))].into();
        "to_i32" 0x09 (F1) |w| [float::to_i32(f(w[0])) as u32].into(), |w| [f(w[0]) as i32 as u32].into();
        "wrap_i16" (&[Number]) |w| [float::wrap_i16(w[0] as i32) as u32].into(), |w| [w[0] as i16 as u32].into();
        "to_short" 0x0A (F1) |w| [float::to_short(f(w[0])) as u32].into(), |w| [source::to_short(f(w[0])) as u32].into();
        "vertex_value" 0x0B (F1) |w| [float::vertex_value(f(w[0])) as u32].into(),
            |w| [source::vertex_value(f(w[0])) as u32].into();
        "sqrt" 0x0C (F1) |w| one(float::sqrt(f(w[0]))), |w| one(f(w[0]).sqrt());
        "of_count" 0x0D (&[Count]) |w| one(float::of_count(w[0] as u16)), |w| one(w[0] as u16 as f32);
    }
}

fn maths() -> impl IntoIterator<Item = Operation> {
    operations! { "math":
        "add" (F6) |w| ours_point(ours3(w) + ours3(&w[3..])), |w| theirs_point(reference::add(theirs3(w), theirs3(&w[3..])));
        "sub" (F6) |w| ours_point(ours3(w) - ours3(&w[3..])), |w| theirs_point(reference::sub(theirs3(w), theirs3(&w[3..])));
        "scale" (F4) |w| ours_point(ours3(w) * f(w[3])), |w| theirs_point(reference::scale(theirs3(w), f(w[3])));
        "neg" (F3) |w| ours_point(-ours3(w)), |w| theirs_point(reference::neg(theirs3(w)));
        "abs" (F3) |w| ours_point(ours3(w).abs()), |w| theirs_point(reference::abs(theirs3(w)));
        "length" 0x0E (F3) |w| one(ours3(w).length()), |w| one(reference::length(theirs3(w)));
        "norm" 0x0F (F3) |w| ours_point(proved::norm(ours3(w))), |w| theirs_point(reference::norm(theirs3(w)));
        "dot" 0x10 (F6) |w| one(ours3(w).dot(ours3(&w[3..]))), |w| one(reference::dot(theirs3(w), theirs3(&w[3..])));
        "cross" 0x11 (F6) |w| ours_point(ours3(w).cross(ours3(&w[3..]))),
            |w| theirs_point(reference::cross(theirs3(w), theirs3(&w[3..])));
        "vmul" (F6) |w| ours_point(proved::vmul(ours3(w), ours3(&w[3..]))),
            |w| theirs_point(reference::vmul(theirs3(w), theirs3(&w[3..])));
        "vdiv" (F6) |w| ours_point(proved::vdiv(ours3(w), ours3(&w[3..]))),
            |w| theirs_point(reference::vdiv(theirs3(w), theirs3(&w[3..])));
        "vadd_f" (F4) |w| ours_point(proved::vadd_f(ours3(w), f(w[3]))),
            |w| theirs_point(reference::vadd_f(theirs3(w), f(w[3])));
        "vmin3" (F6) |w| ours_point(proved::vmin(ours3(w), ours3(&w[3..]))),
            |w| theirs_point(reference::vmin(theirs3(w), theirs3(&w[3..])));
        "vmax3" (F6) |w| ours_point(proved::vmax(ours3(w), ours3(&w[3..]))),
            |w| theirs_point(reference::vmax(theirs3(w), theirs3(&w[3..])));
        "vmin_words3" (F6) |w| proved::vmin_words(words3(w), words3(&w[3..])).into(),
            |w| reference::vmin(theirs3(w), theirs3(&w[3..])).map(f32::to_bits).into();
        "vmax_words3" (F6) |w| proved::vmax_words(words3(w), words3(&w[3..])).into(),
            |w| reference::vmax(theirs3(w), theirs3(&w[3..])).map(f32::to_bits).into();
        "cmp_vec3" 0x12 (F6) |w| [order(proved::cmp_vec3(ours3(w), ours3(&w[3..])))].into(),
            |w| [order(reference::cmp_vec3(theirs3(w), theirs3(&w[3..])))].into();
        "transform_point" 0x13 (F19) |w| {
            let p = Mat4(matrix(w)).transform_point(ours3(&w[16..]));
            [p.x, p.y, p.z, p.w].map(made).into()
        }, |w| reference::transform_point(&matrix(w), theirs3(&w[16..])).map(made).into();
        "transform_vector" 0x14 (F19) |w| ours_point(Mat4(matrix(w)).transform_vector(ours3(&w[16..]))),
            |w| theirs_point(reference::transform_vector(&matrix(w), theirs3(&w[16..])));
        "transform_box" 0x15 (F22) |w| {
            let (a, b) = proved::transform_box(ours3(w), ours3(&w[3..]), &Mat4(matrix(&w[6..])));
            both([a.x, a.y, a.z], [b.x, b.y, b.z])
        }, |w| {
            let b = oracle::Aabb { min: theirs3(w), max: theirs3(&w[3..]) };
            let b = reference::transform_box(b, &matrix(&w[6..]));
            both(b.min, b.max)
        };
    }
}

/// Every operation.
pub fn all() -> Vec<Operation> {
    floats().into_iter().chain(maths()).collect()
}
