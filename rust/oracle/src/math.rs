//! Points, boxes and transforms.

#[cfg(reference)]
use crate::reference::blocks::{
    bounds::inside::{self as bounds, of, v},
    bvh::inside as bvh,
};
#[cfg(reference)]
use crate::reference::math;
use crate::{Aabb, Mat4, Vec3, Vec4};
use std::cmp::Ordering;

answers! {
    fn add(a: Vec3, b: Vec3) -> Vec3 { of(v(a) + v(b)) }
    fn sub(a: Vec3, b: Vec3) -> Vec3 { of(v(a) - v(b)) }
    fn scale(a: Vec3, f: f32) -> Vec3 { of(v(a) * f) }
    fn neg(a: Vec3) -> Vec3 { of(-v(a)) }
    fn abs(a: Vec3) -> Vec3 { of(v(a).abs()) }
    fn dot(a: Vec3, b: Vec3) -> f32 { v(a).dot(v(b)) }
    fn cross(a: Vec3, b: Vec3) -> Vec3 { of(v(a).cross(v(b))) }
    fn length(a: Vec3) -> f32 { v(a).length() }
    fn norm(a: Vec3) -> Vec3 { of(bounds::norm(v(a))) }
    fn vmul(a: Vec3, b: Vec3) -> Vec3 { of(bounds::vmul(v(a), v(b))) }
    fn vdiv(a: Vec3, b: Vec3) -> Vec3 { of(bounds::vdiv(v(a), v(b))) }
    fn vadd_f(a: Vec3, f: f32) -> Vec3 { of(bounds::vadd_f(v(a), f)) }
    fn vmin(a: Vec3, b: Vec3) -> Vec3 { of(bounds::vmin(v(a), v(b))) }
    fn vmax(a: Vec3, b: Vec3) -> Vec3 { of(bounds::vmax(v(a), v(b))) }
    fn cmp_vec3(a: Vec3, b: Vec3) -> Ordering { bvh::cmp_vec3(v(a), v(b)) }
    fn transform_point(m: &Mat4, p: Vec3) -> Vec4 {
        let p = math::Mat4(*m).transform_point(v(p));
        [p.x, p.y, p.z, p.w]
    }
    fn transform_vector(m: &Mat4, d: Vec3) -> Vec3 { of(math::Mat4(*m).transform_vector(v(d))) }
    /// bounds.rs, `transform_box`.
    fn transform_box(b: Aabb, m: &Mat4) -> Aabb { bounds::transform_box(b, m) }
    /// bounds.rs, `BoundVertex::from_vec`.
    fn quantise_vertex(p: Vec3, quantum: Vec3) -> [i16; 3] { bounds::vertex(p, quantum) }
    /// bounds.rs, `BoundVertex::to_vec`.
    fn vertex_read_back(vertex: [i16; 3], quantum: Vec3) -> Vec3 { bounds::vertex_read_back(vertex, quantum) }
}
