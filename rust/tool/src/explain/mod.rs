//! How a field came to be: the chain of rules with the values at each step, down to the input's bytes.

mod fold;
mod header;
pub mod mesh;
mod node;
mod order;
pub mod query;
mod split;
mod tree;

pub use fold::value_name;
pub use mesh::MeshExplainer;

use crate::boxes::Boxes;
use crate::dump::Records;
use crate::field::Field;
use crate::json::Json;
use crate::number;
use crate::rules::{self, Rule};
use crate::trace::Trace;

/// A step of an explanation: by which rules, what, and where its values stand.
#[derive(Clone, Debug)]
pub struct Step {
    pub rules: Vec<Rule>,
    pub text: String,
    pub note: String,
}

/// The steps that lead to a field.
#[derive(Clone, Debug)]
pub struct Explanation {
    /// What is explained: `node 9 min.x`.
    pub of: String,
    /// `19665 = bytes 0-1 of node 9, a leaf: box 0`.
    pub heading: String,
    pub steps: Vec<Step>,
    /// The bytes that the steps come to; none for what is given.
    pub bytes: Option<Vec<u8>>,
}

/// What explanations are made from: an input, its trace, and the bytes that the library made of it.
pub struct Explainer<'a> {
    pub boxes: &'a Boxes,
    pub trace: &'a Trace<'a>,
    pub records: &'a Records,
    /// Of the tree over a mesh's polygons: how these came to their boxes.
    pub mesh: Option<&'a MeshExplainer<'a>>,
}

impl Step {
    pub fn new(rules: &[Rule], text: impl Into<String>) -> Step {
        Step { rules: rules.to_vec(), text: text.into(), note: String::new() }
    }

    /// With what stands at the end of the line.
    pub fn note(self, note: impl Into<String>) -> Step {
        Step { note: note.into(), ..self }
    }
}

impl<'a> Explainer<'a> {
    /// What the tree is over. Polygons are known by their numbers in the mesh: their places in the prepared list follow from
    /// the tree.
    pub fn noun(&self) -> &'static str {
        if self.mesh.is_some() {
            "given polygon"
        } else {
            "box"
        }
    }

    /// `box 3`, `given polygon 3`.
    pub fn named(&self, place: usize) -> String {
        format!("{} {place}", self.noun())
    }

    /// The explanation of a field that the records have.
    pub fn field(&self, field: Field) -> Explanation {
        let steps = match field {
            Field::Header(at) => self.header(at),
            Field::Node(k, _) if k >= self.trace.nodes.len() => self.padding(),
            Field::Node(k, at) => self.node(k, at),
            Field::Tree(k, at) => self.tree(k, at),
            Field::Order(k) => self.order(k),
        };
        Explanation { of: field.to_string(), heading: self.heading(field), steps, bytes: self.trace.bytes(field) }
    }

    /// What the field is, and of what.
    fn heading(&self, field: Field) -> String {
        let value = match self.trace.bytes(field) {
            Some(bytes) => field.value_of(&bytes).to_string(),
            None => field.value(self.records).map_or("nothing".into(), |value| value.to_string()),
        };
        let bytes = field.bytes();
        let of = match field {
            Field::Node(k, _) => format!("node {k}, {}", self.node_is(k)),
            Field::Tree(k, _) => format!("tree {k}: {}", self.range_is(k)),
            Field::Order(_) => "the order list".into(),
            Field::Header(_) => "the header".into(),
        };
        format!("{value} = bytes {}-{} of {of}", bytes.start, bytes.end - 1)
    }

    /// The bytes of a short, as a record has them.
    fn short_bytes(&self, field: Field, record: Rule) -> Step {
        let bytes = self.trace.bytes(field).unwrap_or_default();
        Step::new(&[Rule::R2, record], format!("bytes {}", number::bytes(&bytes)))
    }
}

impl Explanation {
    /// The lines that people read.
    pub fn text(&self) -> String {
        let mut text = format!("{}\n", self.heading);
        for step in &self.steps {
            let rules = rules::list(&step.rules);
            let line = format!("  {rules:<12} {:<58} {}", step.text, step.note);
            text.push_str(line.trim_end());
            text.push('\n');
        }
        text
    }

    pub fn json(&self) -> Json {
        let step = |step: &Step| {
            Json::Object(vec![
                ("rules", Json::list(step.rules.iter().map(|rule| rule.name()))),
                ("text", step.text.as_str().into()),
                ("note", step.note.as_str().into()),
            ])
        };
        Json::Object(vec![
            ("of", self.of.as_str().into()),
            ("heading", self.heading.as_str().into()),
            ("bytes", self.bytes.as_ref().map(|bytes| number::bytes(bytes)).into()),
            ("steps", Json::list(self.steps.iter().map(step))),
        ])
    }
}

impl From<Explanation> for Json {
    fn from(explanation: Explanation) -> Json {
        explanation.json()
    }
}
