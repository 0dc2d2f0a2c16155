//! The frame: box, centres, radius and quantum.

use super::{point_words, MeshExplainer, Step};
use crate::field::mesh::{on, Centre, MeshField};
use crate::field::{InHeader, Point};
use crate::mesh::Of;
use crate::number::{both, float};
use crate::rules::Rule::*;
use crate::trace::mesh::points::{point, sub};
use bounds::premises::{Axis, Corner};

impl MeshExplainer<'_> {
    pub fn frame_box(&self, corner: Corner, axis: Axis) -> Vec<Step> {
        let (of, at) = match corner {
            Corner::Min => (Of::BoxMin, Point::Min),
            Corner::Max => (Of::BoxMax, Point::Max),
        };
        self.given_or_tree(of, at, MeshField::Box(corner, axis), axis)
    }

    pub fn centre(&self, centre: Centre, axis: Axis) -> Vec<Step> {
        let of = match centre {
            Centre::Box => Of::BoxCenter,
            Centre::Sphere => Of::SphereCenter,
        };
        self.given_or_tree(of, Point::Cen, MeshField::Centre(centre, axis), axis)
    }

    /// A word of the frame: the tree's, where there is one, else as it was given.
    fn given_or_tree(&self, of: Of, at: Point, field: MeshField, axis: Axis) -> Vec<Step> {
        let Some(tree) = self.tree() else {
            let why = match self.trace.of.kind {
                8 => "without polygons there is no tree",
                _ => "kind 4",
            };
            let text = format!("{why}: the word that was given, copied: {}", self.shown(field));
            return vec![Step::new(&[K5, F4], text).note(self.origin.of(of))];
        };
        let mut steps = tree.header(InHeader::Point(at, axis));
        steps.pop(); // the header's bytes
        let text = format!("kind 8 with polygons has the tree's: {}", self.shown(field));
        steps.push(Step::new(&[K5], text).note(format!("header {at}.{axis}")));
        steps
    }

    fn shown(&self, field: MeshField) -> String {
        self.derived_value(field).map_or(String::new(), |value| value.to_string())
    }

    pub fn radius(&self) -> Vec<Step> {
        let frame = &self.trace.prepared;
        if self.trace.tree.is_none() {
            let text = format!("the word that was given, copied: {}", both(frame.sphere_radius.to_bits()));
            return vec![Step::new(&[K5, F4], text).note(self.origin.of(Of::SphereRadius))];
        }
        let (max, cen) = (point(frame.box_max), point(frame.box_center));
        let away = sub(max, cen);
        let squares = away.map(|x| format!("{} * {}", float(x), float(x))).join(" + ");
        vec![
            Step::new(&[K5], format!("the tree's box max {} and centre {}", point_words(max), point_words(cen)))
                .note("box max, center box"),
            Step::new(&[V1], format!("max - centre = {}", point_words(away))),
            Step::new(&[V4, F10], format!("its length, the root of {squares}: {}", float(frame.sphere_radius))),
        ]
    }

    pub fn quantum(&self, axis: Axis) -> Vec<Step> {
        let mut steps = self.frame_box(Corner::Min, axis);
        steps.extend(self.frame_box(Corner::Max, axis));
        steps.push(self.quantum_step(axis));
        steps
    }

    /// Q1 in a line.
    pub fn quantum_step(&self, axis: Axis) -> Step {
        let frame = &self.trace.prepared;
        let (min, max) = (on(frame.box_min, axis), on(frame.box_max, axis));
        let quantum = float(on(frame.quantum, axis));
        let text = format!("quantum = ({} - {}) * 0.5 / 32767 = {quantum}", float(max), float(min));
        Step::new(&[Q1], text).note(format!("box min.{axis}, max.{axis}"))
    }
}
