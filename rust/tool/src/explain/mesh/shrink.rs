//! Rules S1 to S9 in words: how a vertex was moved inwards.

use super::{point_words, MeshExplainer, Step};
use crate::field::AXES;
use crate::mesh::Of;
use crate::number::{counted, float, some};
use crate::rules::Rule::*;
use crate::trace::mesh::points::point;
use crate::trace::mesh::shrink::{facing, normal_of, Choice, Failed, Shrinking, Trial, Way, FLOOR, LEAST};

/// Of more trials or normals those in the middle are left out.
const SHOWN: usize = 6;

impl MeshExplainer<'_> {
    /// A vertex' way; the clamp on one axis, or on all.
    pub fn shrink_steps(&self, of: &Shrinking, vertex: usize, axis: Option<usize>) -> Vec<Step> {
        let mut steps = self.margin_steps(of);
        let given = format!("vertex {vertex} as it was given: {}", point_words(of.vertices[vertex]));
        steps.push(Step::new(&[K6], given).note(self.origin.vertex(vertex)));
        match of.passed {
            Some(margin) => {
                match of.way(vertex, margin) {
                    None => steps.push(Step::new(&[S3], "it is no triangle's corner: it stays")),
                    Some((way, to)) => {
                        steps.extend(self.way_steps(&way));
                        steps.push(Step::new(&[S5], format!("{}: to {}", chosen(&way, margin), point_words(to))));
                    }
                }
                let axes = axis.map_or(0..3, |axis| axis..axis + 1);
                steps.extend(axes.map(|axis| self.clamp_step(of, vertex, axis, margin)));
            }
            None => steps.extend(self.normal_steps(of, vertex)),
        }
        steps
    }

    /// The margin to begin with, and those that were tried.
    fn margin_steps(&self, of: &Shrinking) -> Vec<Step> {
        let halves = of.halves.map(float).join(", ");
        let text = format!(
            "the least of margin {} and half the box, {halves}, but for a NaN: {}",
            float(of.given),
            float(of.start)
        );
        let mut steps = vec![Step::new(&[S1, F5], text).note(self.origin.of(Of::Margin))];
        let failed: Vec<&Trial> = of.trials.iter().filter(|trial| trial.failed.is_some()).collect();
        for (at, trial) in failed.iter().enumerate() {
            if at < SHOWN / 2 || at + SHOWN / 2 >= failed.len() {
                steps.push(Step::new(&[S6, S7], format!("margin {} fails: {}", float(trial.margin), why(trial))));
            } else if at == SHOWN / 2 {
                steps.push(Step::new(&[S7], format!("... {} more, each half the one before", failed.len() - SHOWN)));
            }
        }
        steps.push(match of.passed {
            Some(margin) => {
                let text =
                    format!("margin {} passes: no vertex, on its way back, crosses another's triangle", float(margin));
                Step::new(&[S6, S7], text)
            }
            None if of.trials.is_empty() => {
                Step::new(&[S7], format!("it is not above {}: none is tried", float(LEAST)))
            }
            None => Step::new(&[S7], format!("the next is not above {}: none passed", float(LEAST))),
        });
        steps
    }

    fn way_steps(&self, way: &Way) -> Vec<Step> {
        let ring = match way.ring[..] {
            [] => "no polygon is linked about it".to_string(),
            ref ring => format!("about it, by the links: polygons {}", some(ring)),
        };
        let mut normals: Vec<String> = way.normals.iter().take(SHOWN).map(|&normal| point_words(normal)).collect();
        if way.normals.len() > SHOWN {
            normals.push(format!("and {} more", way.normals.len() - SHOWN));
        }
        let own = way.normals.len().min(way.ring.len() + 1);
        let third = if own < way.normals.len() { ", the last across the two" } else { "" };
        vec![
            Step::new(&[S3], format!("polygon {} has it first, as corner {}", way.polygon, way.slot))
                .note(self.origin.polygon(way.polygon)),
            Step::new(&[S4], ring),
            Step::new(&[S2, V3, V6], format!("their normals{third}: {}", normals.join(", "))),
        ]
    }

    fn clamp_step(&self, of: &Shrinking, vertex: usize, axis: usize, margin: f32) -> Step {
        let (from, to) = (of.moved[vertex][axis], of.points[vertex][axis]);
        let (low, high) = (of.low[axis], of.high[axis]);
        let (name, inset) = (AXES[axis], float(margin.max(FLOOR)));
        let how = if from.to_bits() == to.to_bits() { "stays" } else { "becomes" };
        let text = format!(
            "{name} {} {how} {}: the box less {inset}, about the centre: {}..{}",
            float(from),
            float(to),
            float(low),
            float(high)
        );
        Step::new(&[S8, F3], text).note(format!("{}; {}", self.origin.of(Of::BoxMin), self.origin.of(Of::BoxMax)))
    }

    /// S9 in words.
    fn normal_steps(&self, of: &Shrinking, vertex: usize) -> Vec<Step> {
        let whole = of.triangles.iter().filter(|triangle| triangle.whole && triangle.corners.contains(&vertex));
        let all: Vec<_> = whole.collect();
        let mut steps = Vec::new();
        for triangle in all.iter().take(SHOWN) {
            let stand = triangle.corners.map(|corner| self.stands(corner));
            let text = format!("polygon {} faces {}", triangle.polygon, point_words(facing(stand)));
            steps.push(Step::new(&[S9, K1], text).note(self.origin.polygon(triangle.polygon)));
        }
        if all.len() > SHOWN {
            steps.push(Step::new(&[S9], format!("... {} more", counted(all.len() - SHOWN, "triangle"))));
        }
        let (sum, to) = (of.sums[vertex], of.moved[vertex]);
        let normal = point_words(normal_of(sum));
        steps.push(Step::new(&[S9, V6], format!("their sum {}, one long: {normal}", point_words(sum))));
        let text = format!("against it by the given margin {}: to {}; not clamped", float(of.given), point_words(to));
        steps.push(Step::new(&[S9], text));
        steps
    }

    /// Where a vertex stands, whatever the kind.
    fn stands(&self, vertex: usize) -> [f32; 3] {
        let of = self.trace.of;
        crate::trace::mesh::points::placed(point(of.vertices[vertex]), point(of.center_geom), &of.transform)
    }
}

/// Why a margin failed.
pub fn why(trial: &Trial) -> String {
    match trial.failed {
        Some(Failed::Missing { vertex, polygon }) => {
            format!("vertex {vertex} moves, and polygon {polygon} has a corner that is missing")
        }
        Some(Failed::Hit { vertex, polygon, shrunk, at, length }) => {
            let which = if shrunk { "shrunk" } else { "as it was" };
            format!("vertex {vertex}, going back {}, meets polygon {polygon} {which} at {}", float(length), float(at))
        }
        None => String::new(),
    }
}

/// S5 in words.
fn chosen(way: &Way, margin: f32) -> String {
    let by = format!("by {}", float(-margin));
    match way.choice {
        Choice::Own => format!("one normal: along it {by}"),
        Choice::Flat(square) => format!("two nearly the same ({} < 0.1): along the first {by}", float(square)),
        Choice::Sum(sum) => format!("along the sum of all, one long: {} {by}", point_words(sum)),
        Choice::Triple([i, j, k], volume) => {
            format!("furthest by normals {i}, {j}, {k} (from 0), which span {}, {by}", float(volume))
        }
    }
}
