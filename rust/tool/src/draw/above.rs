//! The view from above: x to the right, y up; each box outlined, its leaf's record filled.

use super::axis::{tick, Ruler};
use super::svg::{Rect, Svg};
use super::{Picture, INK, MARGIN, RED, WIDTH};

/// Boxes have their places written in them up to so many.
const NAMED: usize = 60;

/// Above so many boxes outlines are thin, lest they hide the colours.
const MANY: usize = 1_000;

const LEAST_HEIGHT: f64 = 120.0;
const MOST_HEIGHT: f64 = 420.0;

/// x and y on the paper.
pub struct Paper {
    x: Ruler,
    /// Of places turned around: the paper's y goes down.
    y: Ruler,
}

impl Paper {
    /// Both axes in one scale where that leaves the view a readable height, at most this one. What is too high for that is
    /// drawn as narrow as it has to be.
    pub fn of(x: Ruler, y: Ruler, top: f64, most: f64) -> Paper {
        let width = WIDTH - 2.0 * MARGIN - 30.0;
        let height = width * (y.high - y.low) / (x.high - x.low);
        let (width, height) = if !height.is_finite() {
            (width, LEAST_HEIGHT)
        } else if height > most {
            ((width * most / height).max(0.3 * width), most)
        } else {
            (width, height.max(LEAST_HEIGHT))
        };
        Paper {
            x: Ruler { left: MARGIN + 30.0, width, ..x },
            y: Ruler { low: -y.high, high: -y.low, left: top, width: height },
        }
    }

    /// Where a place is on the paper.
    pub fn at(&self, x: f64, y: f64) -> (f64, f64) {
        (self.x.at(x, 0.0), self.y.at(-y, 0.0))
    }

    /// Where the view ends.
    pub fn bottom(&self) -> f64 {
        self.y.left + self.y.width
    }

    pub fn rect(&self, x: (f64, f64), y: (f64, f64)) -> Rect {
        let ((a, b), (c, d)) = (self.x.span(x.0, x.1), self.y.span(-y.1, -y.0));
        Rect { x: a, y: c, w: (b - a).max(1.5), h: (d - c).max(1.5) }
    }

    /// Lines and numbers at round places.
    pub fn grid(&self, svg: &mut Svg) {
        let (x, y) = (&self.x, &self.y);
        let (left, right, top, bottom) = (x.left, x.left + x.width, y.left, y.left + y.width);
        for place in x.ticks(12) {
            let at = x.at(place, 0.0);
            svg.line((at, top), (at, bottom), "stroke=\"#e4e4e4\"");
            svg.text((at, bottom + 14.0), "text-anchor=\"middle\" font-size=\"10\" fill=\"#555555\"", &tick(place));
        }
        for place in y.ticks(5) {
            let at = y.at(place, 0.0);
            svg.line((left, at), (right, at), "stroke=\"#e4e4e4\"");
            svg.text((left - 5.0, at + 4.0), "text-anchor=\"end\" font-size=\"10\" fill=\"#555555\"", &tick(-place));
        }
    }
}

impl Picture<'_> {
    /// Draws the view from `top` on, and answers where it ends.
    pub fn above(&self, svg: &mut Svg, top: f64) -> f64 {
        svg.text((MARGIN, top), &format!("font-weight=\"bold\" fill=\"{INK}\""), "from above: x to the right, y up");
        let paper = self.paper(top + 10.0);
        paper.grid(svg);
        let leaves = (0..self.trace.nodes.len()).filter(|&node| self.trace.nodes[node].children.is_none());
        leaves.for_each(|leaf| self.leaf_fill(svg, &paper, leaf));
        for &place in &self.trace.present {
            self.outline(svg, &paper, place);
        }
        if let Some(query) = self.query {
            let at = paper.rect((query.min.x as f64, query.max.x as f64), (query.min.y as f64, query.max.y as f64));
            svg.rect(at, "fill=\"#1f77b4\" fill-opacity=\"0.2\" stroke=\"#1f77b4\"");
        }
        paper.y.left + paper.y.width + 16.0
    }

    /// Both axes in one scale where that leaves the view a readable height.
    fn paper(&self, top: f64) -> Paper {
        let (x, y) = (self.rulers[0], self.rulers[1]);
        let width = WIDTH - 2.0 * MARGIN - 30.0;
        let height = width * (y.high - y.low) / (x.high - x.low);
        let height = if height.is_finite() { height.clamp(LEAST_HEIGHT, MOST_HEIGHT) } else { LEAST_HEIGHT };
        Paper {
            x: Ruler { left: MARGIN + 30.0, width, ..x },
            y: Ruler { low: -y.high, high: -y.low, left: top, width: height },
        }
    }

    /// What a leaf's record stands for.
    fn leaf_fill(&self, svg: &mut Svg, paper: &Paper, leaf: usize) {
        let (x, y) = (self.bar(leaf, 0), self.bar(leaf, 1));
        let at = paper.rect(x.record, y.record);
        let inside_out = x.record.0 > x.record.1 || y.record.0 > y.record.1;
        if inside_out {
            svg.rect(at, &format!("fill=\"none\" stroke=\"{RED}\" stroke-dasharray=\"4 3\""));
        } else if x.agrees && y.agrees {
            svg.rect(at, &format!("fill=\"{}\"", self.colour(leaf)));
        } else {
            svg.rect(at, &format!("fill=\"{RED}\" fill-opacity=\"0.55\""));
        }
        let few = self.trace.present.len() <= NAMED && self.trace.nodes[leaf].items == 1;
        if few && !(x.agrees && y.agrees) {
            // Far from its box: the record says whose it is.
            let whose = format!("record of {}", self.trace.got(leaf)[0]);
            let look = format!("font-size=\"10\" fill=\"{RED}\"");
            svg.text((at.x + 3.0, at.y - 4.0), &look, &whose);
        }
    }

    /// A box as floats, with its place.
    fn outline(&self, svg: &mut Svg, paper: &Paper, place: usize) {
        let v = self.trace.floats(place).map(f64::from);
        let at = paper.rect((v[0], v[3]), (v[1], v[4]));
        let open = if v.iter().any(|x| x.is_nan()) { " stroke-dasharray=\"2 3\"" } else { "" };
        let thin = if self.trace.present.len() > MANY { " stroke-width=\"0.25\"" } else { "" };
        svg.rect(at, &format!("fill=\"none\" stroke=\"{INK}\"{thin}{open}"));
        if self.trace.present.len() <= NAMED {
            self.name(svg, at, place, v[0].is_nan());
        }
    }

    /// A box's place, written in it; beside one that is too small. One that is open at one end has it at the other.
    fn name(&self, svg: &mut Svg, at: Rect, place: usize, open: bool) {
        let (share, middle) = (if open { 0.9 } else { 0.5 }, at.y + at.h / 2.0 + 4.0);
        if at.w < 16.0 {
            svg.text((at.x + at.w + 2.0, middle), &format!("font-size=\"8\" fill=\"{INK}\""), &place.to_string());
        } else {
            let look = format!("text-anchor=\"middle\" font-size=\"11\" fill=\"{INK}\"");
            svg.text((at.x + at.w * share, middle), &look, &place.to_string());
        }
    }
}
