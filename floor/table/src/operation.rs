//! The operations that a recorded case may name, by their numbers, each from words to words by Rust's own operators and
//! the plain steps. `compare`'s vectors.rs says what the words are.
use bounds::premises::Corner;
use compare::operation::{self as vectors, made};
use plain::fold::pick;
use plain::points::{add, cross, dot, length, norm, scale, sub, Point};
use plain::split::compare as cmp_f32;
use plain::vertex::vertex_value;
use std::cmp::Ordering;
use std::hint::black_box;

/// The float of a word. The compiler is not shown it, so that each step is taken by the machine.
fn value(word: u32) -> f32 {
    f32::from_bits(black_box(word))
}

/// The numbers from a word on.
fn values<const N: usize>(w: &[u32], from: usize) -> [f32; N] {
    std::array::from_fn(|i| value(w[from + i]))
}

/// Of the words of two points a point by a step on each axis.
fn both(w: &[u32], step: impl Fn(f32, f32) -> f32) -> Vec<u32> {
    let [a, b]: [Point; 2] = [values(w, 0), values(w, 3)];
    (0..3).map(|axis| made(step(a[axis], b[axis]))).collect()
}

fn made3(v: Point) -> Vec<u32> {
    v.map(made).to_vec()
}

/// 0 less, 1 equal, 2 greater.
fn order(o: Ordering) -> u32 {
    (o as i32 + 1) as u32
}

fn chosen(corner: Corner, a: f32, b: f32) -> f32 {
    f32::from_bits(pick(corner, a.to_bits(), b.to_bits()))
}

/// Rows of four; a point goes through as p * M.
type Matrix = [f32; 16];

fn column(m: &Matrix, c: usize, v: Point) -> f32 {
    m[c] * v[0] + m[4 + c] * v[1] + m[8 + c] * v[2]
}

fn transform_vector(m: &Matrix, v: Point) -> Point {
    std::array::from_fn(|c| column(m, c, v))
}

fn transform_point(m: &Matrix, p: Point) -> [f32; 4] {
    std::array::from_fn(|c| column(m, c, p) + m[12 + c])
}

/// The image of a box, its least and its greatest corner.
fn transform_box(min: Point, max: Point, m: &Matrix) -> [Point; 2] {
    let [x, y, z, w] = transform_point(m, scale(add(max, min), 0.5));
    let centre = scale([x, y, z], 1.0 / w);
    let extent = transform_vector(&m.map(f32::abs), scale(sub(max, min), 0.5)).map(f32::abs);
    [sub(centre, extent), add(centre, extent)]
}

pub struct Operation {
    pub number: usize,
    /// How many words it takes.
    pub inputs: usize,
    pub answer: fn(&[u32]) -> Vec<u32>,
}

fn op(number: usize, inputs: usize, answer: fn(&[u32]) -> Vec<u32>) -> Operation {
    Operation { number, inputs, answer }
}

/// 0 for a NaN, else 2^31 and the magnitude's bits above or below it.
fn order_key(word: u32) -> u32 {
    let x = value(word);
    if x.is_nan() {
        0
    } else if x.is_sign_negative() {
        (1 << 31) - x.abs().to_bits()
    } else {
        (1 << 31) + x.to_bits()
    }
}

/// All of them, by number. Those from 16 hexadecimal on have no vectors: `order_key`, `abs`, `vmin`, `vmax`; of points
/// `add`, `sub`, `vmul`, `vdiv`, `vmin`, `vmax`, `neg`, `abs`; of a point and a word `scale`, `vadd_f`.
pub fn all() -> Vec<Operation> {
    vec![
        op(0x01, 1, |w| vec![made(value(w[0]))]),
        op(0x02, 2, |w| vec![value(w[0]).partial_cmp(&value(w[1])).map_or(3, order)]),
        op(0x03, 2, |w| vec![order(cmp_f32(value(w[0]), value(w[1])))]),
        // the keys' order is to be cmp_f32's
        op(0x04, 2, |w| vec![order(cmp_f32(value(w[0]), value(w[1])))]),
        op(0x05, 2, |w| vec![pick(Corner::Min, w[0], w[1])]),
        op(0x06, 2, |w| vec![pick(Corner::Max, w[0], w[1])]),
        op(0x07, 2, |w| vec![made(value(w[0]).min(value(w[1])))]),
        op(0x08, 2, |w| vec![made(value(w[0]).max(value(w[1])))]),
        op(0x09, 1, |w| vec![value(w[0]) as i32 as u32]),
        op(0x0a, 1, |w| vec![value(w[0]) as i32 as i16 as u32]),
        op(0x0b, 1, |w| vec![vertex_value(value(w[0])) as u32]),
        op(0x0c, 1, |w| vec![made(value(w[0]).sqrt())]),
        op(0x0d, 1, |w| vec![made(w[0] as u16 as f32)]),
        op(0x0e, 3, |w| vec![made(length(values(w, 0)))]),
        op(0x0f, 3, |w| made3(norm(values(w, 0)))),
        op(0x10, 6, |w| vec![made(dot(values(w, 0), values(w, 3)))]),
        op(0x11, 6, |w| made3(cross(values(w, 0), values(w, 3)))),
        op(0x12, 6, |w| {
            let [a, b]: [Point; 2] = [values(w, 0), values(w, 3)];
            vec![order((0..3).map(|axis| cmp_f32(a[axis], b[axis])).find(|o| o.is_ne()).unwrap_or(Ordering::Equal))]
        }),
        op(0x13, 19, |w| transform_point(&values(w, 0), values(w, 16)).map(made).to_vec()),
        op(0x14, 19, |w| made3(transform_vector(&values(w, 0), values(w, 16)))),
        op(0x15, 22, |w| {
            transform_box(values(w, 0), values(w, 3), &values(w, 6)).concat().into_iter().map(made).collect()
        }),
        op(0x16, 1, |w| vec![order_key(w[0])]),
        op(0x17, 1, |w| vec![made(value(w[0]).abs())]),
        op(0x18, 2, |w| vec![made(chosen(Corner::Min, value(w[0]), value(w[1])))]),
        op(0x19, 2, |w| vec![made(chosen(Corner::Max, value(w[0]), value(w[1])))]),
        op(0x1a, 6, |w| both(w, |x, y| x + y)),
        op(0x1b, 6, |w| both(w, |x, y| x - y)),
        op(0x1c, 6, |w| both(w, |x, y| x * y)),
        op(0x1d, 6, |w| both(w, |x, y| x / y)),
        op(0x1e, 6, |w| both(w, |x, y| chosen(Corner::Min, x, y))),
        op(0x1f, 6, |w| both(w, |x, y| chosen(Corner::Max, x, y))),
        op(0x20, 3, |w| made3(values(w, 0).map(|x: f32| -x))),
        op(0x21, 3, |w| made3(values(w, 0).map(f32::abs))),
        op(0x22, 4, |w| made3(scale(values(w, 0), value(w[3])))),
        op(0x23, 4, |w| made3(values(w, 0).map(|x| x + value(w[3])))),
    ]
}

/// Rust leaves open which of two zeros its own min and max give.
pub fn is_open(number: usize, w: &[u32]) -> bool {
    matches!(number, 0x07 | 0x08) && vectors::is_open(w)
}
