//! A polygon's record: what was given of it, and its links.

use super::{MeshExplainer, Step};
use crate::field::mesh::InPolygon;
use crate::field::KINDS;
use crate::number::both;
use crate::rules::Rule::*;
use bounds::Polygon;
use plain::links::{edge, Side};
use plain::polygon::{corners, kind, radius};

/// Of more sides on an edge the later ones are left out.
const SIDES_SHOWN: usize = 6;

impl MeshExplainer<'_> {
    pub fn polygon_heading(&self, k: usize, at: InPolygon) -> String {
        let kind = kind(self.trace.polygon(k));
        format!("{} of {}, a {}", at.place(kind), self.prepared_name(self.trace.order[k]), KINDS[kind as usize])
    }

    /// Which of the given polygons it is.
    pub fn which(&self, k: usize) -> Step {
        let given = self.trace.order[k];
        let line = self.origin.polygon(given);
        match &self.trace.tree {
            Some(tree) => {
                let leaf = tree.leaves[given].unwrap_or(0);
                let text = format!("number {k} in the order of the leaves is given polygon {given}, of node {leaf}");
                Step::new(&[K2, R13], text).note(format!("{line}; order {k}"))
            }
            None => Step::new(&[K5, G12], format!("kind 4 keeps the order: given polygon {given}")).note(line),
        }
    }

    pub fn polygon(&self, k: usize, at: InPolygon) -> Vec<Step> {
        let polygon = self.trace.polygon(k);
        let mut steps = vec![self.which(k)];
        let name = KINDS[kind(polygon) as usize];
        match at {
            InPolygon::Kind => {
                steps.push(Step::new(&[G3, G4], format!("a {name}'s kind is {}", kind(polygon))));
            }
            InPolygon::Area => steps.extend(area(polygon)),
            InPolygon::Vertex(i) => steps.extend(self.corner(polygon, i)),
            InPolygon::Radius => {
                let word = radius(polygon).unwrap_or(0.0).to_bits();
                steps.push(Step::new(&[G2, G3], format!("the radius that was given, its word copied: {}", both(word))));
            }
            InPolygon::Link(slot) => steps.extend(self.link(k, slot)),
            InPolygon::Zeros => {
                steps.push(Step::new(&[G3], format!("a {name} does not use these bits: all 0")));
            }
        }
        steps
    }

    fn corner(&self, polygon: &Polygon, i: usize) -> Vec<Step> {
        let number = match *polygon {
            Polygon::Triangle { v, .. } => v.get(i).copied().unwrap_or(0),
            Polygon::Sphere { index, .. } => index,
            Polygon::Capsule { i1, i2, .. } | Polygon::Cylinder { i1, i2, .. } => [i1, i2][i.min(1)],
            Polygon::Box { i: all, .. } => all[i.min(3)] as u16,
        };
        let source = self.origin.source_vertex(number as usize & 0x7FFF).unwrap_or_default();
        let mut steps = vec![Step::new(&[G3], format!("vertex {i} as it was given: {number}")).note(source)];
        if matches!(polygon, Polygon::Triangle { .. }) && number > 0x7FFF {
            let text = format!("{number} is vertex {} with its flag, bit 15, which stays", number & 0x7FFF);
            steps.push(Step::new(&[G6], text));
        }
        steps
    }

    fn link(&self, k: usize, slot: usize) -> Vec<Step> {
        let corners = corners(self.trace.polygon(k)).unwrap_or_default();
        let (a, b) = (corners[slot], corners[(slot + 1) % 3]);
        let edge = edge(corners, slot);
        let sides = self.trace.links.on(edge);
        let told = |side: &Side| format!("polygon {} side {}", side.polygon, side.slot);
        let mut shown: Vec<String> = sides.iter().take(SIDES_SHOWN).map(told).collect();
        if sides.len() > SIDES_SHOWN {
            shown.push(format!("and {} more", sides.len() - SIDES_SHOWN));
        }
        let at = sides.iter().position(|side| *side == Side { polygon: k, slot }).unwrap_or(0);
        let side = format!("side {slot} goes from vertex {a} to vertex {b}: the edge {}-{}", edge.0, edge.1);
        let ends: Vec<String> = [a, b].into_iter().filter_map(|end| self.origin.source_vertex(end)).collect();
        let mut steps = vec![
            Step::new(&[G6, E1], side).note(ends.join("; ")),
            Step::new(&[E1], format!("sides on that edge, as they come: {}", shown.join(", "))),
            Step::new(&[E2], linked(sides, at)),
        ];
        let to = usize::try_from(self.trace.links.links[k][slot]).ok();
        if let (Some(to), Some(_)) = (to, &self.trace.tree) {
            let text =
                format!("polygon {to} is given polygon {}: links are made again in this order", self.trace.order[to]);
            steps.push(Step::new(&[K3, K7], text).note(self.origin.polygon(self.trace.order[to])));
        }
        steps
    }
}

/// E2 in words.
fn linked(sides: &[Side], at: usize) -> String {
    match (at, sides) {
        (0, [_]) => "it is alone: -1, no link".into(),
        (0, [_, second, ..]) => {
            format!("the first of {} is linked to the second's: polygon {}", sides.len(), second.polygon)
        }
        (_, [first, ..]) => {
            format!("number {at}, from 0, of {} is linked to the first's: polygon {}", sides.len(), first.polygon)
        }
        _ => String::new(),
    }
}

fn area(polygon: &Polygon) -> Vec<Step> {
    let Polygon::Triangle { area, .. } = *polygon else { return Vec::new() };
    let word = area.to_bits();
    let mut steps = vec![Step::new(&[G2], format!("the area that was given: {}", both(word)))];
    let left = match word & 7 {
        0 => "the word copied: its low three bits, which the kind takes, are 0".into(),
        low => format!("the kind takes its low three bits, {low}: {} is left", both(word & !7)),
    };
    steps.push(Step::new(&[G3], left));
    steps
}
