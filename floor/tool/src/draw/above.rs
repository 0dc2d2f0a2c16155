//! The view from above: each box outlined, its leaf's record filled.

use super::axis::{tick, Ruler};
use super::svg::{Rect, Svg};
use super::{Picture, View, BLUE, INK, MARGIN, RED, VIOLET, WIDTH};
use bounds::Vec3;

/// Boxes have their places written in them up to so many.
const NAMED: usize = 60;

/// Above so many boxes outlines are thin, lest they hide the colours.
const MANY: usize = 1_000;

const LEAST_HEIGHT: f64 = 120.0;
const MOST_HEIGHT: f64 = 420.0;

/// Where the places of a view are on the paper.
pub struct Paper {
    view: View,
    x: Ruler,
    /// Of places as the paper has them, downwards.
    y: Ruler,
}

impl Paper {
    /// Both axes in one scale where that leaves the view a readable height, at most this one. What is too high for that is
    /// drawn as narrow as it has to be.
    pub fn of(view: View, x: Ruler, y: Ruler, top: f64, most: f64) -> Paper {
        let width = WIDTH - 2.0 * MARGIN - 30.0;
        let height = width * (y.high - y.low) / (x.high - x.low);
        let (width, height) = if !height.is_finite() {
            (width, LEAST_HEIGHT)
        } else if height > most {
            ((width * most / height).max(0.3 * width), most)
        } else {
            (width, height.max(LEAST_HEIGHT))
        };
        Paper::sized(view, x, y, top, (width, height))
    }

    fn sized(view: View, x: Ruler, y: Ruler, top: f64, (width, height): (f64, f64)) -> Paper {
        let (a, b) = (view.down(y.low), view.down(y.high));
        let y = Ruler { low: a.min(b), high: a.max(b), left: top, width: height };
        Paper { view, x: Ruler { left: MARGIN + 30.0, width, ..x }, y }
    }

    /// Where a point is on the paper.
    pub fn at(&self, v: Vec3) -> (f64, f64) {
        let (x, y) = self.view.flat(v);
        (self.x.at(x, 0.0), self.y.at(self.view.down(y), 0.0))
    }

    /// The whole view.
    pub fn frame(&self) -> Rect {
        Rect { x: self.x.left, y: self.y.left, w: self.x.width, h: self.y.width }
    }

    /// Where the view ends.
    pub fn bottom(&self) -> f64 {
        self.y.left + self.y.width
    }

    /// Spans to the right and on the axis of the height.
    pub fn rect(&self, (x, y): ((f64, f64), (f64, f64))) -> Rect {
        let (low, high) = match self.view {
            View::Z => (-y.1, -y.0),
            View::Y => y,
        };
        let ((a, b), (c, d)) = (self.x.span(x.0, x.1), self.y.span(low, high));
        Rect { x: a, y: c, w: (b - a).max(1.5), h: (d - c).max(1.5) }
    }

    /// Lines and numbers at round places.
    pub fn grid(&self, svg: &mut Svg) {
        let (x, y) = (&self.x, &self.y);
        let (left, right, top, bottom) = (x.left, x.left + x.width, y.left, y.left + y.width);
        for place in x.ticks(12) {
            let at = x.at(place, 0.0);
            svg.line((at, top), (at, bottom), "stroke=\"#e4e4e4\"");
            svg.text((at, bottom + 14.0), "text-anchor=\"middle\" font-size=\"10\" fill=\"#555555\"", &tick(place));
        }
        for place in y.ticks(5) {
            let at = y.at(place, 0.0);
            svg.line((left, at), (right, at), "stroke=\"#e4e4e4\"");
            svg.text(
                (left - 5.0, at + 4.0),
                "text-anchor=\"end\" font-size=\"10\" fill=\"#555555\"",
                &tick(self.view.down(place)),
            );
        }
    }
}

impl Picture<'_> {
    /// Draws the view from `top` on, and answers where it ends.
    pub fn above(&self, svg: &mut Svg, top: f64) -> f64 {
        svg.text((MARGIN, top), &format!("font-weight=\"bold\" fill=\"{INK}\""), self.view.words());
        let paper = self.paper(top + 10.0);
        paper.grid(svg);
        let leaves = (0..self.trace.nodes.len()).filter(|&node| self.trace.nodes[node].children.is_none());
        leaves.for_each(|leaf| self.leaf_fill(svg, &paper, leaf));
        let (missed, found): (Vec<usize>, Vec<usize>) =
            self.trace.present.iter().partition(|&&place| self.missed[place]);
        found.into_iter().for_each(|place| self.outline(svg, &paper, place));
        if let Some(query) = self.query {
            let at = paper.rect(self.view.spans(query.min, query.max));
            svg.rect(at, &format!("fill=\"{BLUE}\" fill-opacity=\"0.2\" stroke=\"{BLUE}\""));
        }
        // What is missed comes last, lest anything hide it.
        missed.into_iter().for_each(|place| self.outline(svg, &paper, place));
        paper.y.left + paper.y.width + 16.0
    }

    /// Both axes in one scale where that leaves the view a readable height.
    fn paper(&self, top: f64) -> Paper {
        let (x, y) = (self.rulers[0], self.rulers[self.view.axis()]);
        let width = WIDTH - 2.0 * MARGIN - 30.0;
        let height = width * (y.high - y.low) / (x.high - x.low);
        let height = if height.is_finite() { height.clamp(LEAST_HEIGHT, MOST_HEIGHT) } else { LEAST_HEIGHT };
        Paper::sized(self.view, x, y, top, (width, height))
    }

    /// What a leaf's record stands for.
    fn leaf_fill(&self, svg: &mut Svg, paper: &Paper, leaf: usize) {
        let (x, y) = (self.bar(leaf, 0), self.bar(leaf, self.view.axis()));
        let at = paper.rect((x.record, y.record));
        let inside_out = x.record.0 > x.record.1 || y.record.0 > y.record.1;
        if inside_out {
            svg.rect(at, &format!("fill=\"none\" stroke=\"{VIOLET}\" stroke-dasharray=\"4 3\""));
        } else if x.agrees && y.agrees {
            svg.rect(at, &format!("fill=\"{}\"", self.colour(leaf)));
        } else {
            svg.rect(at, &format!("fill=\"{VIOLET}\" fill-opacity=\"0.55\""));
        }
        let few = self.trace.present.len() <= NAMED && self.trace.nodes[leaf].items == 1;
        if few && !(x.agrees && y.agrees) {
            // Far from its box: the record says whose it is.
            let whose = format!("record of {}", self.trace.got(leaf)[0]);
            let look = format!("font-size=\"10\" fill=\"{VIOLET}\"");
            svg.text((at.x + 3.0, at.y - 4.0), &look, &whose);
        }
    }

    /// A box as floats, with its place.
    fn outline(&self, svg: &mut Svg, paper: &Paper, place: usize) {
        let v = self.trace.floats(place).map(f64::from);
        let axis = self.view.axis();
        let at = paper.rect(((v[0], v[3]), (v[axis], v[axis + 3])));
        let open = if v.iter().any(|x| x.is_nan()) { " stroke-dasharray=\"2 3\"" } else { "" };
        let thin = if self.trace.present.len() > MANY { " stroke-width=\"0.25\"" } else { "" };
        let look = match self.missed[place] {
            true => format!("fill=\"{RED}\" fill-opacity=\"0.8\" stroke=\"{RED}\" stroke-width=\"2\""),
            false => format!("fill=\"none\" stroke=\"{INK}\"{thin}{open}"),
        };
        svg.rect(at, &look);
        if self.trace.present.len() <= NAMED {
            self.name(svg, at, place, v[0].is_nan());
        }
    }

    /// A box's place, written in it; beside one that is too small. One that is open at one end has it at the other.
    fn name(&self, svg: &mut Svg, at: Rect, place: usize, open: bool) {
        let (share, middle) = (if open { 0.9 } else { 0.5 }, at.y + at.h / 2.0 + 4.0);
        if at.w < 16.0 {
            svg.text((at.x + at.w + 2.0, middle), &format!("font-size=\"8\" fill=\"{INK}\""), &place.to_string());
        } else {
            let look = format!("text-anchor=\"middle\" font-size=\"11\" fill=\"{INK}\"");
            svg.text((at.x + at.w * share, middle), &look, &place.to_string());
        }
    }
}
