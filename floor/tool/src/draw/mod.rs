//! A dump as a picture: a row a node with a lane for each axis, and a view from above.
//!
//! The floats of a node's boxes are outlined, what its record stands for is filled: in the colour of its range, or violet
//! where the two differ. A record that is inside out is dashed. A query is a band. Red is what a query misses, and nothing
//! else.

mod above;
mod axis;
mod lanes;
mod materials;
pub mod mesh;
mod rows;
pub mod svg;
mod view;
pub mod world;

use crate::account::Account;
use crate::dump::Dump;
pub use crate::mesh::rounded::Query;
use crate::number::counted;
use crate::trace::walk;
use axis::Ruler;
use bounds::{BvhItem, Vec3};
use plain::tree::Trace;
use plain::walk::Reading;
use svg::{Rect, Svg};
pub use view::View;

const WIDTH: f64 = 1120.0;
const MARGIN: f64 = 20.0;
/// Where the lanes begin.
const LABELS: f64 = 250.0;
const GAP: f64 = 22.0;
const ROW: f64 = 20.0;

/// Height of letters.
const LETTERS: f64 = 12.0;

/// What a query misses.
const RED: &str = "#d62728";
/// What is not as it should be: a record that does not stand for its boxes. Blue to eyes that take red for green.
const VIOLET: &str = "#6a3d9a";
const BLUE: &str = "#1f77b4";
const GREY: &str = "#b8b8b8";
const INK: &str = "#222222";

/// Colours of ranges and materials, none of them a red, told apart by their lightness too.
const COLOURS: [&str; 9] =
    ["#8fb8de", "#f2c879", "#9fd3a8", "#cdb3e0", "#c2e3e5", "#b8985f", "#e6e48f", "#7f93c4", "#7fb0a0"];

/// What a picture is made from.
pub struct Picture<'a> {
    pub dump: &'a Dump,
    pub trace: &'a Trace<'a>,
    pub account: &'a Account,
    pub query: Option<Query>,
    /// From where it is seen from above.
    view: View,
    /// What a row says that a node holds: `box`, or `polygon`.
    noun: &'static str,
    /// The nodes that have a row, in preorder, and which those are.
    rows: Vec<usize>,
    shown: &'static str,
    /// The records that the query read: whether each node met, where it was read.
    read: Vec<Option<bool>>,
    /// By their places in the list: the boxes that meet the query and are not handed out.
    missed: Vec<bool>,
    rulers: [Ruler; 3],
}

/// A value of a node on an axis: the floats, and what the record stands for.
#[derive(Clone, Copy, Debug)]
struct Bar {
    floats: (f64, f64),
    record: (f64, f64),
    /// What the record stands for is the floats, but for what its units cut off.
    agrees: bool,
}

impl<'a> Picture<'a> {
    pub fn of(dump: &'a Dump, trace: &'a Trace<'a>, account: &'a Account, query: Option<Query>) -> Picture<'a> {
        let mut read = vec![None; trace.nodes.len()];
        if let Some(Query { min, max }) = query {
            for reading in walk(dump, min, max).readings {
                if let Reading::Node { node, miss, .. } = reading {
                    read.get_mut(node).into_iter().for_each(|at| *at = Some(miss.is_none()));
                }
            }
        }
        let missed = query.map_or(vec![false; trace.items.len()], |query| missed(dump, trace.items, query));
        let rulers = [Ruler { low: 0.0, high: 1.0, left: 0.0, width: 1.0 }; 3];
        let rows = Vec::new();
        let (view, noun) = (View::default(), "box");
        let mut picture = Picture { dump, trace, account, query, view, noun, rows, shown: "", read, missed, rulers };
        (picture.rows, picture.shown) = picture.choose_rows();
        picture.rulers = std::array::from_fn(|axis| picture.ruler(axis));
        picture
    }

    /// From another side.
    pub fn seen(self, view: View) -> Self {
        Picture { view, ..self }
    }

    /// How many nodes have a row.
    pub fn rows(&self) -> usize {
        self.rows.len()
    }

    /// The file.
    pub fn svg(&self) -> String {
        let mut svg = Svg::new(LETTERS);
        let mut y = self.title(&mut svg);
        y = self.lanes(&mut svg, y);
        y = self.above(&mut svg, y + 34.0);
        y = self.legend(&mut svg, y + 30.0);
        svg.finish(WIDTH, y + MARGIN)
    }

    fn title(&self, svg: &mut Svg) -> f64 {
        let (dump, trace) = (self.dump, self.trace);
        let (boxes, nodes) = (counted(trace.present.len(), "box"), counted(trace.nodes.len(), "node"));
        let title = format!(
            "{}: {boxes}, {nodes}, {}, threshold {}",
            dump.name,
            counted(trace.ranges.len(), "range"),
            dump.threshold
        );
        svg.text((MARGIN, 30.0), &format!("font-size=\"16\" font-weight=\"bold\" fill=\"{INK}\""), &title);
        let mut y = 30.0;
        let mut caption = |text: &str, colour: &str| {
            y += 18.0;
            svg.text((MARGIN, y), &format!("fill=\"{colour}\""), text);
        };
        let missed = self.missed.iter().filter(|&&missed| missed).count();
        if missed > 0 {
            caption(&format!("{} MISSED by the query", counted(missed, self.noun)), RED);
        }
        if let Err(broken) = bounds::ordinary(trace.items) {
            caption(&format!("outside the premises, {broken}: items may be missed"), VIOLET);
        }
        if !self.account.differing.is_empty() {
            caption(
                &format!("{} of the dump not as its input gives", counted(self.account.differing.len(), "field")),
                VIOLET,
            );
        }
        if self.rows.len() < trace.nodes.len() {
            caption(&format!("{} of {nodes} are drawn: {}", self.rows.len(), self.shown), INK);
        }
        y + 14.0
    }

    /// Places on an axis that are to be seen: the boxes, their records, the query.
    fn ruler(&self, axis: usize) -> Ruler {
        let items =
            self.trace.present.iter().map(|&place| self.trace.floats(place)).flat_map(|v| [v[axis], v[axis + 3]]);
        let bars = self.rows.iter().map(|&node| self.bar(node, axis)).flat_map(|bar| [bar.record.0, bar.record.1]);
        let pick = |v: Vec3| [v.x, v.y, v.z][axis] as f64;
        let query = self.query.iter().flat_map(|query| [pick(query.min), pick(query.max)]);
        let width = (WIDTH - LABELS - MARGIN - 2.0 * GAP) / 3.0;
        let left = LABELS + axis as f64 * (width + GAP);
        Ruler::over(items.map(f64::from).chain(bars).chain(query), left, width)
    }

    fn bar(&self, node: usize, axis: usize) -> Bar {
        let word = |value: usize| f32::from_bits(self.trace.nodes[node].bounds[value]) as f64;
        let floats = (word(axis), word(axis + 3));
        let records = &self.dump.records;
        let record = records.node(node).map_or((f64::NAN, f64::NAN), |found| {
            (records.stands_for(axis, found.min[axis]), records.stands_for(axis, found.max[axis]))
        });
        let quantum = [records.quantum().x, records.quantum().y, records.quantum().z][axis] as f64;
        let near = |a: f64, b: f64| (a - b).abs() <= 2.0 * quantum + 1e-6 * a.abs();
        Bar { floats, record, agrees: near(floats.0, record.0) && near(floats.1, record.1) }
    }

    /// A node's colour: its range's, or grey where it is in none.
    fn colour(&self, node: usize) -> &'static str {
        let holds = |&(first, last): &(usize, usize)| first <= node && node < last;
        self.trace.ranges.iter().position(holds).map_or(GREY, |range| COLOURS[range % COLOURS.len()])
    }

    fn legend(&self, svg: &mut Svg, y: f64) -> f64 {
        let mut entries = vec![
            (format!("fill=\"none\" stroke=\"{INK}\""), "the boxes as floats".to_string()),
            (format!("fill=\"{}\"", COLOURS[0]), "what the record stands for, a colour a range".into()),
            (format!("fill=\"{VIOLET}\" fill-opacity=\"0.75\""), "where the two differ".into()),
            (format!("fill=\"none\" stroke=\"{VIOLET}\" stroke-dasharray=\"4 3\""), "a record inside out".into()),
        ];
        if self.query.is_some() {
            entries.push((format!("fill=\"{BLUE}\" fill-opacity=\"0.2\""), "the query".into()));
        }
        if self.missed.contains(&true) {
            entries.push((format!("fill=\"{RED}\" fill-opacity=\"0.8\" stroke=\"{RED}\""), "meets it, missed".into()));
        }
        legend(svg, y, &entries)
    }
}

/// Patches with what each stands for, in lines from `y` on; answers where they end.
fn legend(svg: &mut Svg, y: f64, entries: &[(String, String)]) -> f64 {
    let (mut x, mut y) = (MARGIN, y);
    for (look, text) in entries {
        let width = 40.0 + 7.2 * text.chars().count() as f64;
        if x > MARGIN && x + width > WIDTH {
            (x, y) = (MARGIN, y + 20.0);
        }
        svg.rect(Rect { x, y: y - 10.0, w: 18.0, h: 12.0 }, look);
        svg.text((x + 24.0, y), &format!("fill=\"{INK}\""), text);
        x += width;
    }
    y
}

/// By their places in the list, which boxes a query hands out; none where its walk is refused.
fn handed(dump: &Dump, Query { min, max }: Query, n: usize) -> Vec<bool> {
    let mut handed = vec![false; n];
    for position in dump.walk(min, max).map_or(Vec::new(), |found| found.positions) {
        let place = dump.place(position as usize).unwrap_or(n);
        handed.get_mut(place).into_iter().for_each(|at| *at = true);
    }
    handed
}

/// By their places in the list, which boxes meet a query and are not handed out.
fn missed(dump: &Dump, items: &[BvhItem], query: Query) -> Vec<bool> {
    let met = items.iter().map(|item| item.present != 0 && item.meets(query.min, query.max));
    met.zip(handed(dump, query, items.len())).map(|(met, handed)| met && !handed).collect()
}
