//! A tree record's fields: the box of a range, its first node and one past its last.

use super::{Explainer, Step};
use crate::field::{Field, InRecord};
use crate::number::counted;
use crate::rules::Rule::*;

impl Explainer<'_> {
    /// `nodes 0 to 10`.
    pub fn range_is(&self, k: usize) -> String {
        self.trace.ranges.get(k).map_or("none".into(), |(first, last)| format!("nodes {first} to {}", last - 1))
    }

    pub fn tree(&self, k: usize, at: InRecord) -> Vec<Step> {
        let Some(&(first, last)) = self.trace.ranges.get(k) else { return Vec::new() };
        let mut steps = self.range_steps(first);
        match at {
            InRecord::Box(corner, axis) => {
                steps.push(Step::new(&[R14], format!("its box is that of its first node, {first}")));
                steps.extend(self.value_steps(first, corner, axis));
            }
            InRecord::First => steps.push(Step::new(&[R14, R10], format!("its first node: {first}"))),
            InRecord::Second => {
                let text = format!("one past its last: {first} + {} nodes = {last}", last - first);
                steps.push(Step::new(&[R14, R10], text));
            }
        }
        steps.push(self.short_bytes(Field::Tree(k, at), R5));
        steps
    }

    /// How the range came about: the parts over 127 nodes above it.
    fn range_steps(&self, first: usize) -> Vec<Step> {
        let path = self.trace.path(first);
        let size = |k: usize| counted(self.trace.nodes[k].size, "node");
        let step = |&k: &usize| {
            let text = format!("node {k} has {}, over 127: replaced by its two children's parts", size(k));
            Step::new(&[R14], text)
        };
        let (&last, above) = path.split_last().expect("a path has its node");
        let mut steps: Vec<Step> = above.iter().map(step).collect();
        if above.len() > 6 {
            let more = format!("... {} more ...", counted(above.len() - 4, "part"));
            steps.splice(2..above.len() - 2, [Step::new(&[], more)]);
        }
        steps.push(Step::new(&[R14], format!("node {last} has {}, at most 127 or a leaf: a range", size(last))));
        steps
    }
}
