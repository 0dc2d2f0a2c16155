//! The operations that a recorded case may name, by their numbers, each from words to words by Rust's own operators and
//! the source's formulas. `compare`'s vectors.rs says what the words are.
use crate::source::{self, Mat4, Vec3};
use std::cmp::Ordering;
use std::hint::black_box;

/// The float of a word. The compiler is not shown it, so that each step is taken by the machine.
fn value(word: u32) -> f32 {
    f32::from_bits(black_box(word))
}

/// The word of a float that was computed: every NaN that arithmetic made is written as one.
fn made(x: f32) -> u32 {
    if x.is_nan() {
        0x7fc00000
    } else {
        x.to_bits()
    }
}

fn point(w: &[u32]) -> Vec3 {
    Vec3(value(w[0]), value(w[1]), value(w[2]))
}

fn matrix(w: &[u32]) -> Mat4 {
    Mat4(std::array::from_fn(|i| value(w[i])))
}

fn made3(v: Vec3) -> Vec<u32> {
    vec![made(v.0), made(v.1), made(v.2)]
}

/// 0 less, 1 equal, 2 greater.
fn order(o: Ordering) -> u32 {
    (o as i32 + 1) as u32
}

fn both(w: &[u32]) -> (f32, f32) {
    (value(w[0]), value(w[1]))
}

pub struct Operation {
    pub number: usize,
    /// How many words it takes.
    pub inputs: usize,
    pub answer: fn(&[u32]) -> Vec<u32>,
}

fn op(number: usize, inputs: usize, answer: fn(&[u32]) -> Vec<u32>) -> Operation {
    Operation { number, inputs, answer }
}

/// 0 for a NaN, else 2^31 and the magnitude's bits above or below it.
fn order_key(word: u32) -> u32 {
    let x = value(word);
    if x.is_nan() {
        0
    } else if x.is_sign_negative() {
        (1 << 31) - x.abs().to_bits()
    } else {
        (1 << 31) + x.to_bits()
    }
}

/// All of them, by number. Those from 16 hexadecimal on have no vectors: `order_key`, `abs`, `vmin`, `vmax`; of points
/// `add`, `sub`, `vmul`, `vdiv`, `vmin`, `vmax`, `neg`, `abs`; of a point and a word `scale`, `vadd_f`.
pub fn all() -> Vec<Operation> {
    vec![
        op(0x01, 1, |w| vec![made(value(w[0]))]),
        op(0x02, 2, |w| vec![value(w[0]).partial_cmp(&value(w[1])).map_or(3, order)]),
        op(0x03, 2, |w| vec![order(source::cmp_f32(value(w[0]), value(w[1])))]),
        // the keys' order is to be cmp_f32's
        op(0x04, 2, |w| vec![order(source::cmp_f32(value(w[0]), value(w[1])))]),
        op(0x05, 2, |w| vec![source::vmin_word(w[0], w[1])]),
        op(0x06, 2, |w| vec![source::vmax_word(w[0], w[1])]),
        op(0x07, 2, |w| vec![made(both(w).0.min(both(w).1))]),
        op(0x08, 2, |w| vec![made(both(w).0.max(both(w).1))]),
        op(0x09, 1, |w| vec![value(w[0]) as i32 as u32]),
        op(0x0a, 1, |w| vec![source::to_short(value(w[0])) as u32]),
        op(0x0b, 1, |w| vec![source::vertex_value(value(w[0])) as u32]),
        op(0x0c, 1, |w| vec![made(value(w[0]).sqrt())]),
        op(0x0d, 1, |w| vec![made(w[0] as u16 as f32)]),
        op(0x0e, 3, |w| vec![made(point(w).length())]),
        op(0x0f, 3, |w| made3(source::norm(point(w)))),
        op(0x10, 6, |w| vec![made(point(w).dot(point(&w[3..])))]),
        op(0x11, 6, |w| made3(point(w).cross(point(&w[3..])))),
        op(0x12, 6, |w| vec![order(source::cmp_vec3(point(w), point(&w[3..])))]),
        op(0x13, 19, |w| matrix(w).transform_point(point(&w[16..])).map(made).to_vec()),
        op(0x14, 19, |w| made3(matrix(w).transform_vector(point(&w[16..])))),
        op(0x15, 22, |w| {
            let (min, max) = source::transform_box(point(w), point(&w[3..]), matrix(&w[6..]));
            [made3(min), made3(max)].concat()
        }),
        op(0x16, 1, |w| vec![order_key(w[0])]),
        op(0x17, 1, |w| vec![made(value(w[0]).abs())]),
        op(0x18, 2, |w| vec![made(source::vmin(value(w[0]), value(w[1])))]),
        op(0x19, 2, |w| vec![made(source::vmax(value(w[0]), value(w[1])))]),
        op(0x1a, 6, |w| made3(point(w).add(point(&w[3..])))),
        op(0x1b, 6, |w| made3(point(w).sub(point(&w[3..])))),
        op(0x1c, 6, |w| made3(source::vmul(point(w), point(&w[3..])))),
        op(0x1d, 6, |w| made3(source::vdiv(point(w), point(&w[3..])))),
        op(0x1e, 6, |w| made3(point(w).both(point(&w[3..]), source::vmin))),
        op(0x1f, 6, |w| made3(point(w).both(point(&w[3..]), source::vmax))),
        op(0x20, 3, |w| made3(point(w).neg())),
        op(0x21, 3, |w| made3(point(w).abs())),
        op(0x22, 4, |w| made3(point(w).scale(value(w[3])))),
        op(0x23, 4, |w| made3(source::vadd_f(point(w), value(w[3])))),
    ]
}

/// Rust leaves open which of two zeros its own min and max give.
pub fn is_open(number: usize, w: &[u32]) -> bool {
    matches!(number, 0x07 | 0x08) && w[0] ^ w[1] == 0x8000_0000 && w[0] << 1 == 0
}
