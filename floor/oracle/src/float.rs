//! One float step each. The axis does not matter to the reference's vector functions; these ask it on the first.

#[cfg(reference)]
use crate::reference::{
    blocks::{bounds::inside as bounds, bvh::inside as bvh},
    math::Vec3,
};
use std::cmp::Ordering;

answers! {
    /// bounds.rs, `vmin`.
    fn vmin(a: f32, b: f32) -> f32 { bounds::vmin(Vec3::new(a, 0.0, 0.0), Vec3::new(b, 0.0, 0.0)).x }

    /// bounds.rs, `vmax`.
    fn vmax(a: f32, b: f32) -> f32 { bounds::vmax(Vec3::new(a, 0.0, 0.0), Vec3::new(b, 0.0, 0.0)).x }

    /// bvh.rs, `cmp_f32`.
    fn cmp_f32(a: f32, b: f32) -> Ordering { bvh::cmp_f32(a, b) }

    /// bvh.rs, `to_short`: a node value.
    fn to_short(x: f32) -> i16 { bvh::to_short(x) }

    /// bounds.rs, `BoundVertex::from_vec`: a vertex value. The quantum is 1, which divides exactly.
    fn vertex_value(x: f32) -> i16 { bounds::vertex(Vec3::new(x, 0.0, 0.0), Vec3::new(1.0, 1.0, 1.0)).0 }
}
