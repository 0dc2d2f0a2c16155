//! A geometry's quantum, and vertices stored in units of it and read back: operations on words.

use crate::inputs::Input::{self, Count, Float};
use crate::operation::{made, Operation, Side};
use crate::{plain::vertex as plain, proved};
use oracle::geometry::{prepare, Geometry, IDENTITY};
use oracle::{math, Aabb, Vec3};

fn point(w: &[u32]) -> Vec3 {
    std::array::from_fn(|i| f32::from_bits(w[i]))
}

fn boxed(w: &[u32]) -> Aabb {
    Aabb { min: point(w), max: point(&w[3..]) }
}

fn shorts(w: &[u32]) -> [i16; 3] {
    std::array::from_fn(|i| w[i] as u16 as i16)
}

/// The reference has it in `prepare` alone: a geometry with nothing in it keeps its box.
fn reference_quantum(b: Aabb) -> Vec3 {
    let empty = Geometry {
        kind: 8,
        box_min: b.min,
        box_max: b.max,
        box_center: [0.0; 3],
        sphere_center: [0.0; 3],
        sphere_radius: 0.0,
        margin: 0.0,
        center_geom: [0.0; 3],
        transform: IDENTITY,
        vertices: Vec::new(),
        polygons: Vec::new(),
        materials: Vec::new(),
    };
    prepare(&empty).expect("nothing to refuse").quantum
}

/// An operation's sides, with plain Rust for the library or the library itself.
fn operation(name: &'static str, shape: &'static [Input], ours: Side, theirs: Side) -> Operation {
    Operation { name, group: "geometry", number: None, shape, ours, theirs }
}

fn quantum(ours: Side) -> Operation {
    operation("quantum", &[Float; 6], ours, |w| reference_quantum(boxed(w)).map(made).into())
}

fn stored(ours: Side) -> Operation {
    operation("stored", &[Float; 6], ours, |w| math::quantise_vertex(point(w), point(&w[3..])).map(|n| n as u32).into())
}

fn read_back(ours: Side) -> Operation {
    operation("read_back", &[Count, Count, Count, Float, Float, Float], ours, |w| {
        math::vertex_read_back(shorts(w), point(&w[3..])).map(made).into()
    })
}

pub fn operations() -> Vec<Operation> {
    vec![
        quantum(|w| proved::quantum(boxed(w)).map(made).into()),
        stored(|w| proved::stored(point(w), point(&w[3..])).map(|n| n as u32).into()),
        read_back(|w| proved::read_back(shorts(w), point(&w[3..])).map(made).into()),
    ]
}

/// Plain Rust on our side.
pub fn plain_operations() -> Vec<Operation> {
    vec![
        quantum(|w| plain::quantum(boxed(w)).map(made).into()),
        stored(|w| plain::stored(point(w), point(&w[3..])).map(|n| n as u32).into()),
        read_back(|w| plain::read_back(shorts(w), point(&w[3..])).map(made).into()),
    ]
}

#[cfg(test)]
mod tests {
    use super::*;
    use crate::check;

    #[test]
    fn vertices_match() {
        if let Some(why) = oracle::missing() {
            return eprintln!("vertices_match is left out: {why}");
        }
        for operation in operations().into_iter().chain(plain_operations()) {
            let line = check::run(&operation, 1, 20_000);
            assert_eq!((line.mismatches, line.smallest), (0, None));
        }
    }
}
