//! Rules G8, G9 and K1 in words: a value of a polygon's box, from the vertices where they stand.

use super::{point_words, MeshExplainer, Step};
use crate::explain::value_name;
use crate::field::{AXES, KINDS};
use crate::number::{float, some};
use crate::rules::Rule::*;
use bounds::premises::{Axis, Corner};
use plain::points::{add, point};
use plain::polygon::{extreme, kind, radius, stands, vertices};

impl MeshExplainer<'_> {
    /// A value of the box of a polygon of the prepared list.
    pub fn polygon_box(&self, k: usize, corner: Corner, axis: Axis) -> Vec<Step> {
        let steps = self.box_steps(self.trace.order[k], 3 * corner as usize + axis as usize);
        [self.which(k)].into_iter().chain(steps).collect()
    }

    /// One of the six values of a given polygon's box.
    pub fn box_steps(&self, given: usize, value: usize) -> Vec<Step> {
        let polygon = &self.trace.of.polygons[given];
        let (axis, greatest) = (value % 3, value >= 3);
        let numbers = vertices(polygon);
        let values: Vec<f32> = numbers.iter().map(|&v| stands(v, &self.trace.standing.points)[axis]).collect();
        let folded = extreme(&values, greatest, None);
        let list = values.iter().map(|&x| float(x)).collect::<Vec<_>>().join(", ");
        let (name, which) = (value_name(value), if greatest { "greatest" } else { "least" });
        let what = format!("a {} of vertices {}", KINDS[kind(polygon) as usize], some(&numbers));
        let text = format!("{name} of {what}: {}, the {which} of {list}", float(folded));
        let mut steps = vec![Step::new(&[G9, F3], text).note(self.origin.polygon(given))];
        if let Some(radius) = radius(polygon) {
            let sign = if greatest { '+' } else { '-' };
            let wide = float(extreme(&values, greatest, Some(radius)));
            steps.push(Step::new(&[G9], format!("{} {sign} radius {} = {wide}", float(folded), float(radius))));
        }
        steps.push(self.stands_step(numbers[winner(&values, greatest)], axis));
        steps
    }

    /// Where a vertex stands on an axis.
    fn stands_step(&self, vertex: usize, axis: usize) -> Step {
        let of = self.trace.of;
        let Some(&v) = of.vertices.get(vertex) else {
            let text = format!("vertex {vertex} is missing, there being {}: plain zero", of.vertices.len());
            return Step::new(&[G8], text);
        };
        let about = add(point(v), point(of.center_geom));
        let m = |row: usize| of.transform.0[4 * row + axis];
        let terms = (0..3).map(|row| format!("{} * {}", float(m(row)), float(about[row]))).collect::<Vec<_>>();
        let stands = float(self.trace.standing.points[vertex][axis]);
        let text = format!(
            "vertex {vertex} {}, with the centre {}: {} = {} + {} = {stands}",
            point_words(point(v)),
            point_words(about),
            AXES[axis],
            terms.join(" + "),
            float(m(3))
        );
        Step::new(&[K1], text).note(self.origin.written(vertex))
    }
}

/// The place of the value that the fold ends with.
fn winner(values: &[f32], greatest: bool) -> usize {
    let mut won = 0;
    for at in 1..values.len() {
        let (a, b) = (values[won], values[at]);
        if !(if greatest { a > b } else { a < b }) {
            won = at; // a tie is the later one's
        }
    }
    won
}
