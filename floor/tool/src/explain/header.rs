//! The header's fields.

use super::{Explainer, Step};
use crate::field::{InHeader, Point};
use crate::number::{both, bytes, counted, float};
use crate::rules::Rule::*;
use crate::trace::header_word;
use bounds::premises::Axis;

impl Explainer<'_> {
    pub fn header(&self, at: InHeader) -> Vec<Step> {
        match at {
            InHeader::NodeAddress => given("node", self.records.header_word(8)),
            InHeader::TreeAddress => given("tree", self.records.header_word(120) & 0xFFFF),
            InHeader::NodeCount => self.node_count(),
            InHeader::NodeCapacity => self.capacity(),
            InHeader::Zeros | InHeader::LastZeros => vec![Step::new(&[R6], "zeros of the list's form")],
            InHeader::Point(point, axis) => self.header_point(point, axis),
            InHeader::Filling(_) => vec![Step::new(&[R7], "w, always FFC00000, the source's NaN")],
            InHeader::TreeCount | InHeader::TreeCountAgain => self.tree_count(),
        }
    }

    fn node_count(&self) -> Vec<Step> {
        let leaves = self.trace.nodes.iter().filter(|node| node.children.is_none()).count();
        let (present, nodes) =
            (counted(self.trace.present.len(), &format!("present {}", self.noun())), self.trace.nodes.len());
        vec![
            Step::new(&[T9], format!("{} of {} entries", present, self.trace.items.len())),
            Step::new(&[T8], format!("leaves of at most {}: {leaves}", counted(self.trace.threshold, self.noun()))),
            Step::new(&[R10], format!("with the inner nodes, one fewer: {nodes}")),
        ]
    }

    fn capacity(&self) -> Vec<Step> {
        let (nodes, entries) = (self.trace.nodes.len(), self.trace.items.len());
        let text = match self.trace.threshold {
            1 => format!("at threshold 1 records are padded to 2 * {entries} entries + 1"),
            _ => format!("above threshold 1 nothing is padded: as many records as nodes, {nodes}"),
        };
        vec![Step::new(&[R12], text)]
    }

    fn tree_count(&self) -> Vec<Step> {
        let (nodes, trees) = (self.trace.nodes.len(), counted(self.trace.ranges.len(), "range"));
        vec![Step::new(&[R14], format!("{nodes} nodes in parts of at most 127: {trees}; written twice ({R6})"))]
    }

    fn header_point(&self, point: Point, axis: Axis) -> Vec<Step> {
        let k = axis as usize;
        let scale = &self.trace.scales[k];
        let mut steps = match point {
            Point::Min => return self.fold_point(k),
            Point::Max => return self.fold_point(k + 3),
            _ => self.centre_steps(axis),
        };
        if point != Point::Cen {
            let (below, above, q) = (float(scale.below), float(scale.above), float(scale.extent));
            steps.push(Step::new(
                &[T2, F3],
                format!("q, the larger of |min - cen| = {below} and |max - cen| = {above}: {q}"),
            ));
            steps.push(Step::new(&[T2], format!("quantum = {q} / 32767 = {}", float(scale.quantum))));
        }
        if point == Point::Inverse {
            steps.push(Step::new(&[T2], format!("inverse = 1 / {} = {}", float(scale.quantum), float(scale.inverse))));
        }
        let word = header_word(self.trace, point, k);
        steps.push(Step::new(&[R7], self.word_bytes(word)));
        steps
    }

    /// Of a NaN that arithmetic made the bits are free.
    fn word_bytes(&self, word: u32) -> String {
        match f32::from_bits(word).is_nan() {
            true => "a NaN that arithmetic made: any NaN's bytes".into(),
            false => format!("bytes {}", bytes(&word.to_le_bytes())),
        }
    }

    fn centre_steps(&self, axis: Axis) -> Vec<Step> {
        let k = axis as usize;
        let scale = &self.trace.scales[k];
        let box_of_all =
            format!("the box of all on {axis}: {} to {}", both(self.trace.all[k]), both(self.trace.all[k + 3]));
        let cen = format!("cen = ({} + {}) * 0.5 = {}", float(scale.min), float(scale.max), float(scale.cen));
        vec![Step::new(&[T1], box_of_all).note(format!("header min.{axis}, max.{axis}")), Step::new(&[T2, F13], cen)]
    }

    fn fold_point(&self, value: usize) -> Vec<Step> {
        let mut steps = self.fold_steps(&self.trace.present, value);
        let word = self.trace.all[value];
        steps.push(Step::new(&[F4, R7], format!("the word copied: bytes {}", bytes(&word.to_le_bytes()))));
        steps
    }
}

fn given(of: &str, records: u32) -> Vec<Step> {
    let text =
        format!("the address of the {records} {of} records, as who wrote the header gave it; it follows from no box");
    vec![Step::new(&[R6], text)]
}
