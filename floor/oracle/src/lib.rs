//! The reference's answers, from its own sources.
//!
//! bvh.rs, bounds.rs, math.rs and base.rs of the reference are compiled with their logic unchanged, from the folder
//! that the environment variable REFERENCE named at build time; nothing of them is kept here. Only the two calls of
//! `update_triangle_areas` in `Geometry::prepare` are taken out, because areas are outside the scope (01).
//!
//! What goes in and comes out has the types of [`bounds`], so that answers are compared as they are. No function of the
//! library is called to answer: not its operators on [`Vec3`], and no method of a type that goes there.
//!
//! A refusal is 01's: the reference has most of them not, and would hang, wrap or panic instead. Refusal 2 (a lent
//! buffer too short) is no concern of the oracle, whose answers are values of their own.
//!
//! Where the folder was missing, every answer panics with [`missing`]'s message; ask [`missing`] first.

/// Declares the oracle's answers: with the reference their bodies, without it functions that say what is missing.
macro_rules! answers {
    ($($(#[$about:meta])* fn $name:ident($($arg:ident: $of:ty),* $(,)?) -> $answer:ty $body:block)*) => { $(
        $(#[$about])*
        #[cfg(reference)]
        #[inline]
        pub fn $name($($arg: $of),*) -> $answer $body

        $(#[$about])*
        #[cfg(not(reference))]
        pub fn $name($(_: $of),*) -> $answer { panic!("{}", env!("ORACLE_MISSING")) }
    )* };
}

pub mod composite;
pub mod float;
pub mod geometry;
pub mod math;
pub mod polygon;
#[cfg(reference)]
mod reference;
pub mod tree;

pub use bounds::{Mat4, Refusal, Vec3, Vec4};

/// A box: its least and its greatest corner.
#[derive(Clone, Copy, Debug, Default, PartialEq)]
pub struct Aabb {
    pub min: Vec3,
    pub max: Vec3,
}

/// Why there are no answers; `None` where the reference was found.
pub fn missing() -> Option<&'static str> {
    option_env!("ORACLE_MISSING")
}

/// Runs `f` on a stack of 1 GiB, of which only what is used is ever taken: the reference recurses by the depth of its
/// trees, and hostile boxes make them tens of thousands of levels deep.
pub fn on_large_stack<T: Send>(f: impl FnOnce() -> T + Send) -> T {
    std::thread::scope(|s| {
        let run =
            std::thread::Builder::new().stack_size(1 << 30).spawn_scoped(s, f).expect("a thread with a large stack");
        run.join().unwrap_or_else(|panic| std::panic::resume_unwind(panic))
    })
}

/// Refusal 1: a list over its limit.
#[cfg(reference)]
fn at_most(count: usize, limit: usize) -> Result<(), Refusal> {
    if count > limit {
        Err(Refusal::ListTooLong)
    } else {
        Ok(())
    }
}
