//! The rows: a node each, with a lane for each axis.

use super::axis::tick;
use super::svg::{Rect, Svg};
use super::{Bar, Picture, Query, GREY, INK, LABELS, MARGIN, RED, ROW, WIDTH};
use crate::field::AXES;
use crate::number::{counted, some};

impl Picture<'_> {
    /// Draws the rows from `top` on, and answers where they end.
    pub fn lanes(&self, svg: &mut Svg, top: f64) -> f64 {
        let (first, bottom) = (top + 22.0, top + 22.0 + ROW * self.rows.len() as f64);
        for axis in 0..3 {
            self.grid(svg, axis, first, bottom);
        }
        if let Some(query) = self.query {
            self.bands(svg, &query, first, bottom);
        }
        for (row, &node) in self.rows.iter().enumerate() {
            let y = first + ROW * row as f64;
            self.label(svg, node, y);
            for axis in 0..3 {
                draw_bar(svg, &self.bar(node, axis), &self.rulers[axis], self.colour(node), y);
            }
        }
        bottom
    }

    /// An axis: its name, its ticks, its frame.
    fn grid(&self, svg: &mut Svg, axis: usize, top: f64, bottom: f64) {
        let ruler = self.rulers[axis];
        svg.text((ruler.left, top - 8.0), &format!("font-weight=\"bold\" fill=\"{INK}\""), &AXES[axis].to_string());
        for place in ruler.ticks(6) {
            let x = ruler.at(place, 0.0);
            svg.line((x, top), (x, bottom), "stroke=\"#e4e4e4\"");
            svg.text((x, bottom + 14.0), "text-anchor=\"middle\" font-size=\"10\" fill=\"#555555\"", &tick(place));
        }
        svg.line((ruler.left, bottom), (ruler.left + ruler.width, bottom), "stroke=\"#999999\"");
    }

    fn bands(&self, svg: &mut Svg, query: &Query, top: f64, bottom: f64) {
        let (min, max) = ([query.min.x, query.min.y, query.min.z], [query.max.x, query.max.y, query.max.z]);
        for axis in 0..3 {
            let (a, b) = self.rulers[axis].span(min[axis] as f64, max[axis] as f64);
            let band = Rect { x: a, y: top, w: (b - a).max(2.0), h: bottom - top };
            svg.rect(band, "fill=\"#1f77b4\" fill-opacity=\"0.2\"");
        }
    }

    /// `node 2: box 1,3,4, misses`, indented by its depth; with a query, whether it was read and met.
    fn label(&self, svg: &mut Svg, node: usize, y: f64) {
        let depth = self.trace.path(node).len() - 1;
        let got = self.trace.got(node);
        let boxes = match format!("{} {}", self.noun, some(&got)) {
            named if !got.is_empty() && named.len() <= 18 => named,
            _ => counted(got.len(), self.noun),
        };
        let (colour, said) = match (self.query, self.read[node]) {
            (None, _) => (INK, ""),
            (_, Some(true)) => (INK, ", meets"),
            (_, Some(false)) => (RED, ", misses"),
            (_, None) => (GREY, ", not read"),
        };
        let kind = if self.trace.nodes[node].children.is_some() { "node" } else { "leaf" };
        let text = format!("{kind} {node}: {boxes}{said}");
        // A long label is not put so far in that it runs into the lanes.
        let room = LABELS - MARGIN - 8.0 - 6.3 * text.chars().count() as f64;
        let x = MARGIN + (9.0 * depth.min(8) as f64).min(room.max(0.0));
        svg.text((x, y + 14.0), &format!("font-size=\"11\" fill=\"{colour}\""), &text);
        svg.line((MARGIN, y + ROW), (WIDTH - MARGIN, y + ROW), "stroke=\"#f2f2f2\"");
    }
}

/// What the record stands for, filled, and the floats around it, outlined.
fn draw_bar(svg: &mut Svg, bar: &Bar, ruler: &super::Ruler, colour: &str, y: f64) {
    let inside_out = bar.record.0 > bar.record.1;
    let (a, b) = ruler.span(bar.record.0, bar.record.1);
    let filled = Rect { x: a, y: y + 6.0, w: (b - a).max(1.5), h: ROW - 11.0 };
    if inside_out {
        svg.rect(filled, &format!("fill=\"none\" stroke=\"{RED}\" stroke-dasharray=\"4 3\""));
    } else if bar.agrees {
        svg.rect(filled, &format!("fill=\"{colour}\""));
    } else {
        svg.rect(filled, &format!("fill=\"{RED}\" fill-opacity=\"0.75\""));
    }
    let (a, b) = ruler.span(bar.floats.0, bar.floats.1);
    let open = if bar.floats.0.is_nan() || bar.floats.1.is_nan() { " stroke-dasharray=\"2 3\"" } else { "" };
    let outline = Rect { x: a, y: y + 3.0, w: (b - a).max(1.5), h: ROW - 5.0 };
    svg.rect(outline, &format!("fill=\"none\" stroke=\"{INK}\" stroke-width=\"1\"{open}"));
}
