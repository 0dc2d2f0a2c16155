//! Rules Q2 to Q4 in words: vertices as they are stored, and what these stand for.

use super::{MeshExplainer, Step};
use crate::field::mesh::on;
use crate::number::{both, float};
use crate::rules::Rule::*;
use bounds::premises::Axis;
use bounds::prepare::Quantised;

impl MeshExplainer<'_> {
    pub fn vertex(&self, k: usize, axis: Axis) -> Vec<Step> {
        let v = on(self.trace.of.vertices[k], axis);
        let text = format!("vertex {k} {axis} as it was given: {}", both(v.to_bits()));
        let mut steps = vec![Step::new(&[Q4], text).note(self.origin.coordinate(k, axis))];
        steps.extend(self.stored_steps(v, axis, short(&self.trace.prepared.vertices, k, axis)));
        steps
    }

    pub fn vertex_float(&self, k: usize, axis: Axis) -> Vec<Step> {
        let mut steps = self.vertex(k, axis);
        steps.push(self.read_back_step(&self.trace.prepared.vertices, k, axis));
        steps
    }

    pub fn shrunk(&self, k: usize, axis: Axis) -> Vec<Step> {
        let (Some(shrinking), Some(shrunk)) = (&self.trace.shrinking, &self.trace.prepared.vertices_shrunk) else {
            return Vec::new();
        };
        let mut steps = self.shrink_steps(shrinking, k, Some(axis as usize));
        steps.extend(self.stored_steps(shrinking.points[k][axis as usize], axis, short(shrunk, k, axis)));
        steps
    }

    pub fn shrunk_float(&self, k: usize, axis: Axis) -> Vec<Step> {
        let mut steps = self.shrunk(k, axis);
        let shrunk = self.trace.prepared.vertices_shrunk.as_ref();
        steps.extend(shrunk.map(|shrunk| self.read_back_step(shrunk, k, axis)));
        steps
    }

    /// From a float to its number of quanta.
    fn stored_steps(&self, v: f32, axis: Axis, stored: i16) -> Vec<Step> {
        let quantum = on(self.trace.prepared.quantum, axis);
        let parts = v / quantum;
        let how = match parts {
            x if x.is_nan() => "a NaN becomes 0".to_string(),
            x if x.abs() > 32_767.0 => format!("outside 32767 either way, clamped: {stored}"),
            _ => format!("toward zero: {stored}"),
        };
        vec![
            self.quantum_step(axis),
            Step::new(&[Q2, F13], format!("{} / {} = {}", float(v), float(quantum), float(parts))),
            Step::new(&[F9], how),
        ]
    }

    fn read_back_step(&self, of: &Quantised, k: usize, axis: Axis) -> Step {
        let (stored, quantum) = (short(of, k, axis), on(self.trace.prepared.quantum, axis));
        let text = format!("read back: {stored} * {} = {}", float(quantum), float(on(of.floats[k], axis)));
        Step::new(&[Q3, Q4], text)
    }
}

fn short(of: &Quantised, k: usize, axis: Axis) -> i16 {
    let v = of.stored[k];
    [v.0, v.1, v.2][axis as usize]
}
