//! Rules O1 and O2 in words: which vertices no other one shadows in a direction.

use super::{point_words, MeshExplainer, Step};
use crate::number::counted;
use crate::rules::Rule::*;
use plain::octants::{shadow_of, turned};
use plain::points::Point;

/// Of more that are shadowed only so many are told.
const SHOWN: usize = 4;

impl MeshExplainer<'_> {
    fn shrunk_points(&self) -> &[Point] {
        self.trace.shrinking.as_ref().map_or(&[], |shrinking| &shrinking.points)
    }

    fn octant_list(&self, k: usize) -> &[u32] {
        self.trace.prepared.octants.as_ref().map_or(&[], |octants| &octants.items[k])
    }

    pub fn octant_count(&self, k: usize) -> Vec<Step> {
        let (points, list) = (self.shrunk_points(), self.octant_list(k));
        if points.is_empty() {
            return vec![direction(k), Step::new(&[K6, O2], "without vertices the list is empty")];
        }
        let shadowed = points.len() - list.len();
        let text =
            format!("of {} {shadowed} are shadowed, {} are listed", counted(points.len(), "shrunk vertex"), list.len());
        let mut steps = vec![direction(k), Step::new(&[K6, O2], text)];
        let first = (0..points.len()).filter(|&v| !list.contains(&(v as u32)));
        steps.extend(first.take(SHOWN).map(|vertex| self.shadowed(k, vertex)));
        steps
    }

    pub fn octant(&self, k: usize, i: usize) -> Vec<Step> {
        let (points, list) = (self.shrunk_points(), self.octant_list(k));
        let vertex = list[i] as usize;
        let mut steps = self.trace.shrinking.as_ref().map_or(Vec::new(), |of| self.shrink_steps(of, vertex, None));
        steps.push(direction(k));
        let at = point_words(points[vertex]);
        let text = format!("shrunk vertex {vertex}, before it is stored, is {at}: none listed shadows it");
        steps.push(Step::new(&[K6, O1, O2], text));
        let from = if i == 0 { 0 } else { list[i - 1] as usize + 1 };
        steps.extend((from..vertex).take(SHOWN).map(|other| self.shadowed(k, other)));
        if vertex - from > SHOWN {
            steps.push(Step::new(&[O2], format!("... {} more", vertex - from - SHOWN)));
        }
        steps.push(Step::new(&[O2], format!("vertices in their order: {i} are listed before it")));
        steps
    }

    /// One that is not listed, and what shadows it.
    fn shadowed(&self, k: usize, vertex: usize) -> Step {
        let (points, list) = (self.shrunk_points(), self.octant_list(k));
        let by = match shadow_of(k, points, list, vertex) {
            Some(other) => format!("by vertex {other} {}", point_words(points[other as usize])),
            None => "by one that was listed at its turn".into(),
        };
        Step::new(&[O1, O2], format!("vertex {vertex} {} is shadowed {by}", point_words(points[vertex])))
    }
}

/// O1 in words.
fn direction(k: usize) -> Step {
    let far = [0, 1, 2].map(|axis| format!("{}{}", if turned(k, axis) { "-" } else { "+" }, ["x", "y", "z"][axis]));
    Step::new(&[O1], format!("octant {k} looks along {}: b shadows a where it is at least as far", far.join(", ")))
}
