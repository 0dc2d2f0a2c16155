//! A geometry's quantum, and vertices stored in units of it and read back: operations on words.

use crate::inputs::Input::{Count, Float};
use crate::operation::{made3, operations, point, Operation};
use bounds::geometry::calculate_quantum;
use bounds::{BoundVertex, Geometry, Vec3};
use oracle::geometry::prepare;
use oracle::math;
use plain::vertex as plain;

fn stored(w: &[u32]) -> BoundVertex {
    BoundVertex(w[0] as i16, w[1] as i16, w[2] as i16)
}

fn shorts(BoundVertex(x, y, z): BoundVertex) -> [u32; 3] {
    [x, y, z].map(|n| n as u32)
}

/// The reference has it in `prepare` alone: a geometry with nothing in it keeps its box.
fn reference_quantum(box_min: Vec3, box_max: Vec3) -> Vec3 {
    prepare(&Geometry { box_min, box_max, ..Geometry::new(Geometry::BVH) }).expect("nothing to refuse").quantum
}

/// The library on our side.
pub fn operations() -> [Operation; 3] {
    operations! { "geometry", w:
        "quantum" (&[Float; 6]) made3(calculate_quantum(point(w), point(&w[3..]))),
            made3(reference_quantum(point(w), point(&w[3..])));
        "stored" (&[Float; 6]) shorts(BoundVertex::from_vec(point(w), point(&w[3..]))),
            shorts(math::quantise_vertex(point(w), point(&w[3..])));
        "read_back" (&[Count, Count, Count, Float, Float, Float]) made3(stored(w).to_vec(point(&w[3..]))),
            made3(math::vertex_read_back(stored(w), point(&w[3..])));
    }
}

/// Plain Rust on our side.
pub fn plain_operations() -> [Operation; 3] {
    let [quantum, stores, read_back] = operations();
    [
        Operation { ours: |w| made3(plain::quantum(point(w), point(&w[3..]))).into(), ..quantum },
        Operation { ours: |w| shorts(plain::stored(point(w), point(&w[3..]))).into(), ..stores },
        Operation { ours: |w| made3(plain::read_back(stored(w), point(&w[3..]))).into(), ..read_back },
    ]
}

#[cfg(test)]
mod tests {
    use super::*;
    use crate::check;
    use crate::report::needs_reference;

    #[test]
    fn vertices_match() {
        needs_reference!();
        for operation in operations().into_iter().chain(plain_operations()) {
            check::run(&operation, 1, 20_000).holds();
        }
    }
}
