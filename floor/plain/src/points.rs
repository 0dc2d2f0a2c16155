//! Points in plain floats, and where vertices stand: rules V1 to V6 and K1.

use bounds::{Mat4, Vec3};

/// x, y and z.
pub type Point = [f32; 3];

pub fn point(v: Vec3) -> Point {
    [v.x, v.y, v.z]
}

pub fn vec3([x, y, z]: Point) -> Vec3 {
    Vec3 { x, y, z }
}

/// A value for each axis.
pub fn per_axis(value: impl FnMut(usize) -> f32) -> Vec3 {
    vec3(std::array::from_fn(value))
}

pub fn points(vertices: &[Vec3]) -> Vec<Point> {
    vertices.iter().map(|&v| point(v)).collect()
}

pub fn add(a: Point, b: Point) -> Point {
    std::array::from_fn(|i| a[i] + b[i])
}

pub fn sub(a: Point, b: Point) -> Point {
    std::array::from_fn(|i| a[i] - b[i])
}

pub fn scale(v: Point, by: f32) -> Point {
    v.map(|x| x * by)
}

/// V2.
pub fn dot(a: Point, b: Point) -> f32 {
    a[0] * b[0] + a[1] * b[1] + a[2] * b[2]
}

/// V3.
pub fn cross(a: Point, b: Point) -> Point {
    [a[1] * b[2] - a[2] * b[1], a[2] * b[0] - a[0] * b[2], a[0] * b[1] - a[1] * b[0]]
}

/// V4.
pub fn length(v: Point) -> f32 {
    dot(v, v).sqrt()
}

/// V6: one long, but for what is no longer than a millionth.
pub fn norm(v: Point) -> Point {
    let length = length(v);
    if length > 1e-6 {
        scale(v, 1.0 / length)
    } else {
        v
    }
}

/// K1: about the centre and through the transform, without its fourth coordinate.
pub fn placed(v: Point, center: Point, Mat4(m): &Mat4) -> Point {
    let [x, y, z] = add(v, center);
    std::array::from_fn(|i| m[i] * x + m[4 + i] * y + m[8 + i] * z + m[12 + i])
}
