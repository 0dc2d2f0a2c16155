//! The reference's answers, from its own sources.
//!
//! bvh.rs, bounds.rs, math.rs and base.rs of the reference are compiled with their logic unchanged, from the folder
//! that the environment variable REFERENCE named at build time; nothing of them is kept here. Only the two calls of
//! `update_triangle_areas` in `Geometry::prepare` are taken out, because areas are outside the scope (01).
//!
//! A refusal is 01's: the reference has most of them not, and would hang, wrap or panic instead. Refusal 2 (a lent
//! buffer too short) is no concern of the oracle, whose answers are values of their own.
//!
//! Where the folder was missing, every answer panics with [`missing`]'s message; ask [`missing`] first.

/// Declares the oracle's answers: with the reference their bodies, without it functions that say what is missing.
macro_rules! answers {
    ($($(#[$about:meta])* fn $name:ident($($arg:ident: $of:ty),* $(,)?) -> $answer:ty $body:block)*) => { $(
        $(#[$about])*
        #[cfg(reference)]
        #[inline]
        pub fn $name($($arg: $of),*) -> $answer $body

        $(#[$about])*
        #[cfg(not(reference))]
        pub fn $name($(_: $of),*) -> $answer { panic!("{}", env!("ORACLE_MISSING")) }
    )* };
}

pub mod composite;
pub mod float;
pub mod geometry;
pub mod math;
pub mod polygon;
#[cfg(reference)]
mod reference;
pub mod tree;
pub mod walk;

pub type Vec3 = [f32; 3];
pub type Vec4 = [f32; 4];
/// Row-major, as the reference holds it: a point goes through as `p * M`, the translation is entries 12 to 14.
pub type Mat4 = [f32; 16];

#[derive(Clone, Copy, Debug, PartialEq)]
pub struct Aabb {
    pub min: Vec3,
    pub max: Vec3,
}

/// A refusal by its number in 01.
#[derive(Clone, Copy, Debug, PartialEq, Eq)]
pub struct Refused(pub u8);

/// Why there are no answers; `None` where the reference was found.
pub fn missing() -> Option<&'static str> {
    option_env!("ORACLE_MISSING")
}

/// Runs `f` on a stack of 1 GiB, of which only what is used is ever taken: the reference recurses by the depth of its
/// trees, and hostile boxes make them tens of thousands of levels deep.
pub fn on_large_stack<T: Send>(f: impl FnOnce() -> T + Send) -> T {
    std::thread::scope(|s| {
        let run =
            std::thread::Builder::new().stack_size(1 << 30).spawn_scoped(s, f).expect("a thread with a large stack");
        run.join().unwrap_or_else(|panic| std::panic::resume_unwind(panic))
    })
}

/// Refusal 1: a list over its limit.
#[cfg(reference)]
fn at_most(count: usize, limit: usize) -> Result<(), Refused> {
    if count > limit {
        Err(Refused(1))
    } else {
        Ok(())
    }
}
