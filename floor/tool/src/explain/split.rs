//! Rules T4 to T7 in words: how a node's boxes are divided.

use super::{Explainer, Explanation, Step};
use crate::field::AXES;
use crate::number::{counted, float, some};
use crate::rules::Rule::{self, *};
use plain::split::Split;
use plain::tree::Trace;

/// Whether a node is the second child of another.
pub fn is_second(trace: &Trace, parent: usize, child: usize) -> bool {
    trace.nodes[parent].children.is_some_and(|[_, second]| second == child)
}

impl Explainer<'_> {
    /// A split in half a line, and its rules: `6 boxes by x at 5.5: 3,4,5 | 0,1,2`.
    pub fn split_in_words(&self, node: usize) -> (String, Vec<Rule>) {
        let Some(split) = self.trace.split(node) else { return ("a leaf".into(), vec![T8]) };
        (self.split_words(&split), split_rules(&split))
    }

    /// The whole of a node's split.
    pub fn split(&self, node: usize) -> Option<Explanation> {
        let split = self.trace.split(node)?;
        let n = split.one.len() + split.two.len();
        let heading = format!("the split at node {node}: {}", self.split_words(&split));
        let mut steps = self.path_steps(node);
        let average = split.average.map(float).join(", ");
        steps.push(Step::new(
            &[T4, F13],
            format!("average of {n}: sum of min and max, item after item, * (0.5 / {n}): {average}"),
        ));
        let below = split.below.map(|count| count.to_string()).join(", ");
        let axis = AXES[split.axis];
        steps.push(Step::new(&[T3, T5, F1], format!("centres below it on x, y, z: {below}; nearest to {n}/2: {axis}")));
        let nan = split.average[split.axis].is_nan();
        let why = if nan { "; no centre is above or below a NaN" } else { "" };
        let above = format!("centres above it on {axis}: {} of {n}{why}", split.above);
        steps.push(Step::new(&[T5, F1], above));
        if split.sorted {
            steps.push(Step::new(
                &[T6, F2],
                "a group is empty: all sorted by min, then max, a NaN first, and cut at half",
            ));
        }
        steps.push(Step::new(&[], format!("group one: {}", some(&split.one))));
        steps.push(Step::new(&[], format!("group two: {}", some(&split.two))));
        steps.push(Step::new(&[T7], leads(&split)));
        Some(Explanation { of: format!("node {node} split"), heading, steps, bytes: None })
    }
}

impl Explainer<'_> {
    /// The groups in the order of the children, and how they came to be.
    fn split_words(&self, split: &Split) -> String {
        let n = counted(split.one.len() + split.two.len(), self.noun());
        let axis = AXES[split.axis];
        let [first, second] = split.clone().children();
        let how = match split.sorted {
            true => format!("sorted ({} of {axis} above)", split.above),
            false => format!("by {axis} at {}", float(split.average[split.axis])),
        };
        format!("{n} {how}: {} | {}", some(&first), some(&second))
    }
}

fn leads(split: &Split) -> String {
    match split.two_leads() {
        true => format!("group two has more ({} > {}): it is the first child", split.two.len(), split.one.len()),
        false => {
            format!("group two has no more ({} <= {}): group one is the first child", split.two.len(), split.one.len())
        }
    }
}

pub fn split_rules(split: &Split) -> Vec<Rule> {
    if split.sorted {
        vec![T5, T6, T7]
    } else {
        vec![T5, T7]
    }
}
