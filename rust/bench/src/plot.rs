//! What was measured as one picture: the library's time by another's over size, a panel each for preparing, builds and walks.

use crate::measure::Series;
use crate::subjects::{Kind, Side};
use crate::walks::{QUERIES, SYNTHETIC};
use std::fmt::Write;

/// Of the drawing inside a panel, with room on its right for the lines' names.
const SIZE: (f64, f64) = (330.0, 330.0);
const LEFT: f64 = 48.0;
const TOP: f64 = 58.0;
const NAMES: f64 = 182.0;
const BOTTOM: f64 = 44.0;
/// Between names, so that none covers another.
const LINE: f64 = 14.0;

/// Around words that a line may pass.
const HALO: &str = "stroke=\"white\" stroke-width=\"3\" paint-order=\"stroke\"";

struct Line {
    name: String,
    colour: &'static str,
    dashed: bool,
    /// Size and ratio.
    points: Vec<(f64, f64)>,
}

/// A ratio that is wanted.
struct Aim {
    name: &'static str,
    ratio: f64,
    colour: &'static str,
}

struct Panel {
    title: &'static str,
    below: &'static str,
    aims: Vec<Aim>,
    lines: Vec<Line>,
}

/// Sizes by powers: equal factors are equal distances.
struct Sizes {
    low: f64,
    high: f64,
}

impl Sizes {
    /// Over the values, with a little room on both ends.
    fn over(values: impl Iterator<Item = f64>) -> Sizes {
        let (mut low, mut high) = (f64::INFINITY, f64::NEG_INFINITY);
        for v in values {
            (low, high) = (low.min(v), high.max(v));
        }
        Sizes { low: low / 1.1, high: high * 1.1 }
    }

    /// Where a value stands between the ends, from 0 to 1.
    fn place(&self, value: f64) -> f64 {
        (value / self.low).ln() / (self.high / self.low).ln()
    }

    /// Round numbers on it: steps of 1, 2 and 5.
    fn marks(&self) -> Vec<f64> {
        let powers = self.low.log10().floor() as i32..=self.high.log10().floor() as i32;
        let all = powers.flat_map(|p| [1.0, 2.0, 5.0].map(|step| step * 10f64.powi(p)));
        all.filter(|v| (self.low..=self.high).contains(v)).collect()
    }
}

/// Ratios as they are, from 0 on: half the height is half the time.
struct Ratios {
    high: f64,
}

impl Ratios {
    fn over(values: impl Iterator<Item = f64>) -> Ratios {
        Ratios { high: values.fold(0.0, f64::max) * 1.08 }
    }

    fn place(&self, value: f64) -> f64 {
        value / self.high
    }

    /// Round numbers on it, at most eight.
    fn marks(&self) -> Vec<f64> {
        let step = [0.02, 0.05, 0.1, 0.2, 0.5].into_iter().find(|step| self.high / step <= 8.0).unwrap_or(1.0);
        (0..=(self.high / step) as usize).map(|i| i as f64 * step).collect()
    }
}

const BLUE: &str = "#0b62a4";
const ORANGE: &str = "#c2571a";

/// So that neighbours differ; the first is the common case.
const COLOURS: [&str; 8] = [BLUE, "#4aa3df", "#2a8f5b", "#8a6d1f", "#8e44ad", "#d1368f", "#444444", ORANGE];

fn prepares(series: &[Series]) -> Panel {
    Panel {
        title: "Prepare: library's time by the reference's",
        below: "triangles of kind 8, vertices of kind 4",
        aims: vec![
            Aim { name: "aim 0.33 of kind 8", ratio: 1.0 / 3.0, colour: "#888" },
            Aim { name: "aim 0.25 of kind 4", ratio: 0.25, colour: "#888" },
        ],
        lines: by_reference(series, Kind::Prepare),
    }
}

fn builds(series: &[Series]) -> Panel {
    Panel {
        title: "Build: library's time by the reference's",
        below: "boxes",
        aims: vec![Aim { name: "aim 0.18", ratio: 0.18, colour: "#888" }],
        lines: by_reference(series, Kind::Build),
    }
}

/// A line for each list of the kind, by its name without the kind's own.
fn by_reference(series: &[Series], kind: Kind) -> Vec<Line> {
    let of = series.iter().filter(|s| s.subject.kind == kind);
    let name = |s: &Series| s.subject.name.trim_start_matches("prepare, ").to_string();
    of.zip(COLOURS.iter().cycle()).map(|(s, colour)| line(s, name(s), Side::Reference, colour)).collect()
}

/// Solid by the plain walk, dashed by the tuned one; the darker, the more is met.
fn walks(series: &[Series]) -> Panel {
    let shades = [(Side::Plain, ["#7fb8e0", BLUE, "#06355a"]), (Side::Tuned, ["#eaa77f", ORANGE, "#6e2f0c"])];
    let mut lines = Vec::new();
    for (side, colours) in shades {
        for ((set, meeting), colour) in QUERIES.into_iter().zip(colours) {
            let name = format!("by {}, {meeting} met", side.name());
            lines.extend(series.iter().find(|s| s.subject.name == set).map(|s| line(s, name, side, colour)));
        }
        let point = series.iter().find(|s| s.subject.name == SYNTHETIC);
        lines.extend(point.map(|s| synthetic(s, side, colours[1])));
    }
    Panel {
        title: "Walk: library's time by plain and by tuned Rust",
        below: "boxes",
        aims: vec![
            Aim { name: "aim 0.8 by plain", ratio: 0.8, colour: BLUE },
            Aim { name: "aim 1.3 by tuned", ratio: 1.3, colour: ORANGE },
        ],
        lines,
    }
}

fn line(series: &Series, name: String, to: Side, colour: &'static str) -> Line {
    let points = series.rows.iter().filter_map(|r| Some((r.size as f64, r.ratio(to)?))).collect();
    Line { name, colour, dashed: to == Side::Tuned, points }
}

/// Its last size alone, which counts records: it stands where its some 20,000 items do.
fn synthetic(series: &Series, to: Side, colour: &'static str) -> Line {
    let last = series.rows.last().and_then(|r| r.ratio(to));
    let points = last.map(|ratio| (20_000.0, ratio)).into_iter().collect();
    Line { name: format!("by {}, synthetic", to.name()), colour, dashed: to == Side::Tuned, points }
}

/// The panels beside each other; one of which nothing was measured is left out.
pub fn svg(series: &[Series]) -> String {
    let all = [prepares(series), builds(series), walks(series)];
    let panels: Vec<Panel> = all.into_iter().filter(|p| p.lines.iter().any(|l| !l.points.is_empty())).collect();
    let one = LEFT + SIZE.0 + NAMES;
    let (width, height) = (one * panels.len() as f64, TOP + SIZE.1 + BOTTOM);
    let mut out = format!(
        "<svg xmlns=\"http://www.w3.org/2000/svg\" width=\"{width}\" height=\"{height}\" viewBox=\"0 0 {width} {height}\" \
         font-family=\"sans-serif\" font-size=\"11\">\n<rect width=\"100%\" height=\"100%\" fill=\"white\"/>\n"
    );
    for (i, panel) in panels.iter().enumerate() {
        drawn(&mut out, panel, LEFT + one * i as f64);
    }
    out += "</svg>\n";
    out
}

fn text(out: &mut String, (x, y): (f64, f64), anchor: &str, style: &str, words: &str) {
    let _ = writeln!(out, "<text x=\"{x:.1}\" y=\"{y:.1}\" text-anchor=\"{anchor}\" {style}>{words}</text>");
}

/// Where a panel's sizes and ratios stand.
struct Frame {
    left: f64,
    sizes: Sizes,
    ratios: Ratios,
}

impl Frame {
    fn new(panel: &Panel, left: f64) -> Frame {
        let points = || panel.lines.iter().flat_map(|l| &l.points);
        let ratios = Ratios::over(points().map(|p| p.1).chain(panel.aims.iter().map(|aim| aim.ratio)));
        Frame { left, sizes: Sizes::over(points().map(|p| p.0)), ratios }
    }

    fn x(&self, size: f64) -> f64 {
        self.left + SIZE.0 * self.sizes.place(size)
    }

    fn y(&self, ratio: f64) -> f64 {
        TOP + SIZE.1 * (1.0 - self.ratios.place(ratio))
    }

    /// A line across at a ratio.
    fn across(&self, out: &mut String, ratio: f64, style: &str) {
        let _ = writeln!(out, "<path d=\"M{} {:.1}h{}\" {style}/>", self.left, self.y(ratio), SIZE.0);
    }
}

fn drawn(out: &mut String, panel: &Panel, left: f64) {
    let frame = Frame::new(panel, left);
    text(out, (left, 22.0), "start", "font-weight=\"bold\" font-size=\"13\"", panel.title);
    text(out, (left, 40.0), "start", "fill=\"#555\"", "below 1 the library is faster; sizes by powers");
    text(out, (left + SIZE.0 / 2.0, TOP + SIZE.1 + 34.0), "middle", "fill=\"#555\"", panel.below);
    grid(out, &frame);
    panel.lines.iter().for_each(|l| line_drawn(out, &frame, l));
    for Aim { name, ratio, colour } in &panel.aims {
        frame.across(out, *ratio, &format!("stroke=\"{colour}\" stroke-dasharray=\"2 3\""));
        let at = (left + 4.0, frame.y(*ratio) - 4.0);
        text(out, at, "start", &format!("fill=\"{colour}\" font-style=\"italic\" {HALO}"), name);
    }
    named(out, &frame, &panel.lines);
}

fn grid(out: &mut String, frame: &Frame) {
    for size in frame.sizes.marks() {
        let x = frame.x(size);
        let _ = writeln!(out, "<path d=\"M{x:.1} {TOP}v{}\" stroke=\"#eee\"/>", SIZE.1);
        text(out, (x, TOP + SIZE.1 + 16.0), "middle", "", &thousands(size));
    }
    for ratio in frame.ratios.marks() {
        frame.across(out, ratio, "stroke=\"#eee\"");
        text(out, (frame.left - 6.0, frame.y(ratio) + 4.0), "end", "", &format!("{ratio:.2}"));
    }
    if frame.ratios.high > 1.0 {
        frame.across(out, 1.0, "stroke=\"black\" stroke-width=\"1.5\"");
    }
}

fn line_drawn(out: &mut String, frame: &Frame, Line { colour, dashed, points, .. }: &Line) {
    let at: Vec<(f64, f64)> = points.iter().map(|p| (frame.x(p.0), frame.y(p.1))).collect();
    let path: Vec<String> = at.iter().map(|(x, y)| format!("{x:.1},{y:.1}")).collect();
    let dashes = if *dashed { " stroke-dasharray=\"6 3\"" } else { "" };
    let style = format!("fill=\"none\" stroke=\"{colour}\" stroke-width=\"2\"{dashes}");
    let _ = writeln!(out, "<polyline points=\"{}\" {style}/>", path.join(" "));
    for (x, y) in at {
        let _ = writeln!(out, "<circle cx=\"{x:.1}\" cy=\"{y:.1}\" r=\"3\" fill=\"{colour}\"/>");
    }
}

/// The lines' names on the right, each as near to its line's end as the others let it, and a hair from one to the other.
fn named(out: &mut String, frame: &Frame, lines: &[Line]) {
    let end = |l: &Line| l.points.last().map(|p| (frame.x(p.0), frame.y(p.1)));
    let mut ends: Vec<_> = lines.iter().filter_map(|l| Some((l, end(l)?))).collect();
    ends.sort_by(|a, b| a.1 .1.total_cmp(&b.1 .1));
    let wanted: Vec<f64> = ends.iter().map(|(_, (_, y))| *y).collect();
    let edge = frame.left + SIZE.0 + 14.0;
    for ((Line { name, colour, .. }, (x, y)), at) in ends.iter().zip(apart(&wanted, TOP + 4.0, TOP + SIZE.1 - 2.0)) {
        let hair = format!("stroke=\"{colour}\" stroke-width=\"0.5\"");
        let _ = writeln!(out, "<path d=\"M{:.1} {y:.1}L{edge} {at:.1}\" {hair}/>", x + 4.0);
        text(out, (edge + 3.0, at + 4.0), "start", &format!("fill=\"{colour}\""), name);
    }
}

/// Heights in rising order, moved so that they are a line apart and within both ends where there is room for that.
fn apart(wanted: &[f64], top: f64, bottom: f64) -> Vec<f64> {
    let mut heights = wanted.to_vec();
    for i in 0..heights.len() {
        let least = if i == 0 { top } else { heights[i - 1] + LINE };
        heights[i] = heights[i].max(least);
    }
    for i in (0..heights.len()).rev() {
        let most = if i + 1 == heights.len() { bottom } else { heights[i + 1] - LINE };
        heights[i] = heights[i].min(most);
    }
    heights
}

fn thousands(size: f64) -> String {
    if size < 1_000.0 {
        return format!("{size}");
    }
    format!("{}k", size / 1_000.0)
}

#[cfg(test)]
mod tests {
    use super::*;

    #[test]
    fn an_axis_has_round_marks() {
        let sizes = Sizes { low: 800.0, high: 40_000.0 };
        assert_eq!(sizes.marks(), [1_000.0, 2_000.0, 5_000.0, 10_000.0, 20_000.0]);
        let decade = Sizes { low: 1.0, high: 100.0 };
        assert_eq!((decade.place(1.0), decade.place(10.0), decade.place(100.0)), (0.0, 0.5, 1.0));
        let ratios = Ratios { high: 1.6 };
        assert_eq!((ratios.place(0.0), ratios.place(0.8)), (0.0, 0.5));
        assert_eq!(ratios.marks(), [0, 1, 2, 3, 4, 5, 6, 7, 8].map(|i| i as f64 * 0.2));
        assert!(Ratios { high: 0.36 }.marks().len() > 3);
    }

    #[test]
    fn names_are_a_line_apart() {
        let heights = apart(&[10.0, 11.0, 12.0, 90.0, 99.0], 10.0, 100.0);
        assert!(heights.windows(2).all(|pair| pair[1] - pair[0] >= LINE - 1e-9), "{heights:?}");
        assert!(heights[0] >= 10.0 && heights[4] <= 100.0);
    }
}
