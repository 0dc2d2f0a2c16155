//! A node's fields: its box, its id, its count.

use super::split::is_second;
use super::{fold::value_name, Explainer, Step};
use crate::field::{Field, InRecord};
use crate::number::{counted, float, place, plural, some};
use crate::rules::Rule::*;
use bounds::premises::{Axis, Corner};
use plain::scale::Quantised;

/// Of a longer path the levels in the middle are left out.
const LEVELS_SHOWN: usize = 8;

impl Explainer<'_> {
    /// `a leaf: box 0`, `an inner node: boxes 1,3,4`, `padding`.
    pub fn node_is(&self, k: usize) -> String {
        let Some(node) = self.trace.nodes.get(k) else { return "padding".into() };
        let what = if node.children.is_some() { "an inner node" } else { "a leaf" };
        format!("{what}: {}", self.boxes_named(&self.trace.got(k)))
    }

    /// `box 0`, `boxes 1,3,4`, `no box`.
    pub fn boxes_named(&self, places: &[usize]) -> String {
        match places {
            [] => format!("no {}", self.noun()),
            [one] => self.named(*one),
            _ => format!("{} {}", plural(self.noun()), some(places)),
        }
    }

    pub fn padding(&self) -> Vec<Step> {
        let (nodes, entries) = (self.trace.nodes.len(), self.trace.items.len());
        vec![
            Step::new(&[R12], format!("padding: the {nodes} nodes are filled up to 2 * {entries} entries + 1 records")),
            Step::new(&[R12], "all zero but id 1: box 0, id 1, count 0"),
        ]
    }

    pub fn node(&self, k: usize, at: InRecord) -> Vec<Step> {
        let mut steps = self.path_steps(k);
        match at {
            InRecord::Box(corner, axis) => steps.extend(self.value_steps(k, corner, axis)),
            InRecord::First => steps.push(self.id_step(k)),
            InRecord::Second => steps.push(self.count_step(k)),
        }
        steps.push(self.short_bytes(Field::Node(k, at), R4));
        steps
    }

    /// Which boxes the node got: each split above it.
    pub fn path_steps(&self, k: usize) -> Vec<Step> {
        let path = self.trace.path(k);
        let got = self.boxes_named(&self.trace.got(k));
        let mut steps = Vec::new();
        let pairs: Vec<_> = path.windows(2).collect();
        for (level, pair) in pairs.iter().enumerate() {
            let (left, right) = (LEVELS_SHOWN / 2, pairs.len().saturating_sub(LEVELS_SHOWN / 2));
            if pairs.len() <= LEVELS_SHOWN || level < left || level >= right {
                steps.push(self.descent(pair[0], pair[1]));
            } else if level == left {
                steps.push(Step::new(&[], format!("... {} more ...", counted(right - left, "level"))));
            }
        }
        let numbered = match k {
            0 => "node 0, the root, has".to_string(),
            _ => format!("node {k} in preorder has"),
        };
        steps.push(Step::new(&[R10], format!("{numbered} {got}")));
        steps
    }

    /// From a node to one of its children.
    fn descent(&self, from: usize, to: usize) -> Step {
        let (split, rules) = self.split_in_words(from);
        let which = if is_second(self.trace, from, to) { "second" } else { "first" };
        Step::new(&rules, format!("node {from}: {split}; {which} child: node {to}"))
    }

    /// A float of the node's box, to its record.
    pub fn value_steps(&self, k: usize, corner: Corner, axis: Axis) -> Vec<Step> {
        let value = 3 * corner as usize + axis as usize;
        let mut steps = self.fold_steps(&self.trace.got(k), value);
        let word = self.trace.nodes[k].bounds[value];
        let quantised = self.trace.quantised(k, corner, axis);
        steps.extend(self.quantise_steps(axis, f32::from_bits(word), &quantised));
        let stands = self.records.stands_for(axis as usize, quantised.short);
        let is = float(f32::from_bits(word));
        let text = format!("{} stands for {}; {} is {is}", quantised.short, place(stands), value_name(value));
        steps.push(Step::new(&[T2], text).note("cen + value * quantum"));
        steps
    }

    fn quantise_steps(&self, axis: Axis, v: f32, quantised: &Quantised) -> Vec<Step> {
        let scale = &self.trace.scales[axis as usize];
        let at = |start: usize| start + 4 * axis as usize;
        let (cen, inverse) = (float(scale.cen), float(scale.inverse));
        let Quantised { away, product, whole, .. } = *quantised;
        let product = float(product);
        let away = format!("({} - {cen}) * {inverse} = {} * {inverse} = {product}", float(v), float(away));
        vec![
            Step::new(&[T2, F13], away).note(format!("cen, inverse: header bytes {}, {}", at(64), at(80))),
            Step::new(&[F6], cast(quantised.product, whole)),
            Step::new(&[F7, F8], low_bits(quantised)),
        ]
    }

    fn id_step(&self, k: usize) -> Step {
        let node = &self.trace.nodes[k];
        if let Some([first, second]) = node.children {
            let (one, two) = (self.trace.nodes[first].size, self.trace.nodes[second].size);
            let text =
                format!("an inner node's id is its number of nodes: 1 + {one} (node {first}) + {two} (node {second})");
            return Step::new(&[R11], text);
        }
        let text = match (self.trace.threshold, node.items) {
            (_, 0) => format!("a leaf without a {} has id 0", self.noun()),
            (1, _) => {
                format!("a leaf's id is its first position; at threshold 1 that is the list place: {}", node.first)
            }
            _ => {
                let before = counted(node.first, self.noun());
                format!("a leaf's id is its first position; the leaves before it hold {before}")
            }
        };
        Step::new(&[R11, R16], text)
    }

    fn count_step(&self, k: usize) -> Step {
        let node = &self.trace.nodes[k];
        let threshold = self.trace.threshold;
        let text = match node.children {
            Some(_) => {
                format!("an inner node ({} > threshold {threshold}) has count 0", counted(node.items, self.noun()))
            }
            None => {
                format!("a leaf has at most {threshold}, and its count is its {}: {}", plural(self.noun()), node.items)
            }
        };
        Step::new(&[T8, R11], text)
    }
}

/// F6 in words.
fn cast(product: f32, whole: i32) -> String {
    match product {
        x if x.is_nan() => "a NaN becomes 0".into(),
        x if !(-2147483648.0..2147483648.0).contains(&x) => format!("outside 32 bits, saturated: {whole}"),
        _ => format!("toward zero: {whole}"),
    }
}

/// F7 in words.
fn low_bits(quantised: &Quantised) -> String {
    let Quantised { whole, short, .. } = *quantised;
    if !quantised.wrapped() {
        return format!("low 16 bits, signed: {short}, the same");
    }
    let times = (short as i64 - whole as i64) / 65536;
    let sign = if times < 0 { '-' } else { '+' };
    format!("low 16 bits, signed: {whole} {sign} {} * 65536 = {short}  WRAPPED", times.abs())
}
