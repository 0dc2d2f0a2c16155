//! The order list.

use super::{Explainer, Step};
use crate::number::{bytes, counted};
use crate::rules::Rule::*;

impl Explainer<'_> {
    pub fn order(&self, k: usize) -> Vec<Step> {
        let Some(&place) = self.trace.order.get(k) else { return Vec::new() };
        let mut steps = match self.trace.threshold {
            1 => vec![self.rising(k, place)],
            _ => self.leaf_after_leaf(k, place),
        };
        let word = bytes(&(place as u16).to_le_bytes());
        let origin = self.mesh.map_or_else(|| self.boxes.origin.entry(place), |mesh| mesh.origin.polygon(place));
        steps.push(Step::new(&[R1, R13], format!("bytes {word}")).note(origin));
        steps
    }

    fn rising(&self, k: usize, place: usize) -> Step {
        let absent = counted(place - k, "absent one");
        let text =
            format!("at threshold 1 the present places, rising: number {k} is place {place} ({absent} before it)");
        Step::new(&[T9, R13], text)
    }

    fn leaf_after_leaf(&self, k: usize, place: usize) -> Vec<Step> {
        let leaf = self.trace.leaves[place].expect("what is in the order list is in a leaf");
        let node = &self.trace.nodes[leaf];
        let mut steps = self.path_steps(leaf);
        let nth = k - node.first;
        let text = format!(
            "the leaves before node {leaf} hold {}; of its {} this is number {nth}: {}",
            node.first,
            node.items,
            self.named(place)
        );
        steps.push(Step::new(&[R13, R16], text));
        steps
    }
}
