//! A split world as a picture: from above, a colour a child, with the children's boxes and numbers, and a query as a band.

use super::above::Paper;
use super::axis::Ruler;
use super::svg::{Rect, Svg};
use super::{Query, View, COLOURS, INK, LETTERS, MARGIN, RED, WIDTH};
use crate::failure::Failure;
use crate::number::{counted, place};
use crate::parallel::each;
use crate::world::folder::WorldFolder;
use bounds::{BvhItem, Vec3};
use std::sync::atomic::AtomicUsize;

/// The side of a cell on the paper. A world's polygons are too many to be drawn each: a cell has the colour of the child that has
/// most polygons over it.
const CELL: f64 = 4.0;

/// A polygon over more cells than these is no part of the ground but a giant: its box is outlined.
const GIANT: usize = 400;

/// So many children have a row of their own below the view.
const ROWS: usize = 40;

const ORANGE: &str = "#e6550d";

/// What a world's picture is made from.
struct WorldPicture<'a> {
    world: &'a WorldFolder,
    /// Each child's box, as the composite has it, and the boxes of its polygons.
    boxes: Vec<BvhItem>,
    polygons: Vec<Vec<BvhItem>>,
    query: Option<Query>,
    view: View,
    /// Children that the query is led to.
    led: Vec<bool>,
}

/// The cells of a view: how many there are across, and for each the child that has most polygons over it.
struct Cells {
    across: usize,
    of: Vec<Option<usize>>,
    giants: Vec<BvhItem>,
}

/// Draws a split world.
pub fn draw(world: &WorldFolder, query: Option<Query>, view: View, done: &AtomicUsize) -> Result<String, Failure> {
    let polygons = each(world.children(), done, |k| Ok::<_, Failure>(world.child(k)?.input()?.geometry.items()?))?;
    let boxes = (0..world.children()).map(|k| world.child_box(k)).collect();
    let mut led = vec![false; world.children()];
    if let Some(Query { min, max }) = query {
        // Without a tree each child is asked: those are marked whose boxes meet.
        let meets = |k: &usize| world.tree.is_some() || world.child_box(*k).meets(min, max);
        world.led_to(min, max)?.0.into_iter().filter(meets).for_each(|k| led[k] = true);
    }
    Ok(WorldPicture { world, boxes, polygons, query, view, led }.svg())
}

impl WorldPicture<'_> {
    fn svg(&self) -> String {
        let mut svg = Svg::new(LETTERS);
        let world = self.world;
        let tree = world.tree.as_ref().map_or("no tree over them".into(), |tree| {
            format!("a tree of {} over them", counted(tree.records.node_count(), "node"))
        });
        let (p, n) = (counted(world.places.len(), "polygon"), counted(world.children(), "child"));
        let title = format!("{}: {} split, {p} in {n}, {tree}", world.name, world.file);
        svg.text((MARGIN, 30.0), &format!("font-size=\"16\" font-weight=\"bold\" fill=\"{INK}\""), &title);
        let words = format!("{}; a colour a child, its box outlined, its number in its middle", self.view.words());
        svg.text((MARGIN, 54.0), &format!("fill=\"{INK}\""), &words);
        let paper = self.paper(64.0);
        paper.grid(&mut svg);
        self.ground(&mut svg, &paper);
        self.children(&mut svg, &paper);
        self.band(&mut svg, &paper);
        let y = self.rows(&mut svg, paper.bottom() + 44.0);
        svg.finish(WIDTH, y + MARGIN)
    }

    fn over(&self, paper: &Paper, item: &BvhItem) -> Rect {
        paper.rect(self.view.spans(item.min, item.max))
    }

    fn paper(&self, top: f64) -> Paper {
        let rulers = [0, self.view.axis()].map(|axis| {
            let pick = move |v: Vec3| [v.x, v.y, v.z][axis] as f64;
            let boxes = self.boxes.iter().flat_map(move |item| [pick(item.min), pick(item.max)]);
            let asked = self.query.iter().flat_map(move |query| [pick(query.min), pick(query.max)]);
            Ruler::over(boxes.chain(asked), 0.0, 1.0)
        });
        Paper::of(self.view, rulers[0], rulers[1], top, 820.0)
    }

    /// The cells of each child as one shape: runs of a row.
    fn ground(&self, svg: &mut Svg, paper: &Paper) {
        let cells = self.cells(paper);
        let frame = paper.frame();
        let mut shapes = vec![String::new(); self.boxes.len()];
        for (row, line) in cells.of.chunks(cells.across).enumerate() {
            let y = frame.y + CELL * row as f64;
            let mut column = 0;
            for run in line.chunk_by(|a, b| a == b) {
                if let Some(child) = run[0] {
                    let (x, w) = (frame.x + CELL * column as f64, CELL * run.len() as f64);
                    shapes[child] += &format!("M{x:.1} {y:.1}h{w:.1}v{CELL}h-{w:.1}z");
                }
                column += run.len();
            }
        }
        for (child, shape) in shapes.iter().enumerate() {
            svg.path(shape, &format!("fill=\"{}\"", COLOURS[child % COLOURS.len()]));
        }
        for giant in &cells.giants {
            svg.rect(self.over(paper, giant), &format!("fill=\"none\" stroke=\"{INK}\" stroke-width=\"0.5\""));
        }
    }

    fn cells(&self, paper: &Paper) -> Cells {
        let frame = paper.frame();
        let (across, down) = ((frame.w / CELL).ceil() as usize, (frame.h / CELL).ceil() as usize);
        let mut most: Vec<(Option<usize>, u32)> = vec![(None, 0); across * down];
        let mut giants = Vec::new();
        for (child, polygons) in self.polygons.iter().enumerate() {
            let mut counts = vec![0u32; across * down];
            for item in polygons.iter().filter(|item| is_somewhere(item)) {
                let at = self.over(paper, item);
                let column = |x: f64| (((x - frame.x) / CELL) as usize).min(across - 1);
                let row = |y: f64| (((y - frame.y) / CELL) as usize).min(down - 1);
                let (columns, rows) = (column(at.x)..=column(at.x + at.w), row(at.y)..=row(at.y + at.h));
                if columns.clone().count() * rows.clone().count() > GIANT {
                    giants.push(*item);
                    continue;
                }
                for row in rows {
                    columns.clone().for_each(|column| counts[across * row + column] += 1);
                }
            }
            for (most, count) in most.iter_mut().zip(counts).filter(|(most, count)| *count > most.1) {
                *most = (Some(child), count);
            }
        }
        giants.truncate(ROWS);
        Cells { across, of: most.into_iter().map(|(child, _)| child).collect(), giants }
    }

    /// Boxes and numbers; those that a query is led to are thick, and drawn last.
    fn children(&self, svg: &mut Svg, paper: &Paper) {
        let mut order: Vec<usize> = (0..self.boxes.len()).collect();
        order.sort_by_key(|&child| self.led[child]);
        for child in order {
            let item = &self.boxes[child];
            let at = self.over(paper, item);
            let (colour, width) = if self.led[child] { (ORANGE, 2.5) } else { (INK, 1.0) };
            let open = if is_somewhere(item) { "" } else { " stroke-dasharray=\"4 3\"" };
            svg.rect(at, &format!("fill=\"none\" stroke=\"{colour}\" stroke-width=\"{width}\"{open}"));
            let size = (at.w.min(at.h) / 4.0).clamp(9.0, 22.0);
            let halo = "stroke=\"#ffffff\" stroke-width=\"3\" paint-order=\"stroke\"";
            let look =
                format!("text-anchor=\"middle\" font-size=\"{size:.0}\" font-weight=\"bold\" fill=\"{INK}\" {halo}");
            svg.text((at.x + at.w / 2.0, at.y + at.h / 2.0 + size / 3.0), &look, &child.to_string());
        }
    }

    /// Across the view at the query's x and y, and the query itself where the two meet.
    fn band(&self, svg: &mut Svg, paper: &Paper) {
        let Some(query) = self.query else { return };
        let (frame, item) = (paper.frame(), BvhItem { present: 1, min: query.min, max: query.max });
        let at = self.over(paper, &item);
        let look = format!("fill=\"{ORANGE}\" fill-opacity=\"0.18\"");
        svg.rect(Rect { y: frame.y, h: frame.h, ..at }, &look);
        svg.rect(Rect { x: frame.x, w: frame.w, ..at }, &look);
        svg.rect(at, &format!("fill=\"none\" stroke=\"{ORANGE}\" stroke-width=\"2\""));
    }

    /// A row a child: what it has, and where it lies.
    fn rows(&self, svg: &mut Svg, y: f64) -> f64 {
        let shown = self.boxes.len().min(ROWS);
        let mut y = y;
        if self.query.is_some() {
            let led: Vec<String> = (0..self.led.len()).filter(|&k| self.led[k]).map(|k| k.to_string()).collect();
            let words =
                format!("the query is the band; it is led to {} of {}", led.len(), counted(self.led.len(), "child"));
            svg.text((MARGIN, y), &format!("fill=\"{ORANGE}\" font-weight=\"bold\""), &words);
            y += 22.0;
        }
        for child in 0..shown {
            let item = &self.boxes[child];
            let look = format!("fill=\"{}\" stroke=\"{INK}\"", COLOURS[child % COLOURS.len()]);
            svg.rect(Rect { x: MARGIN, y: y - 10.0, w: 18.0, h: 12.0 }, &look);
            let point = |v: Vec3| [v.x, v.y, v.z].map(|x| place(x as f64)).join(", ");
            let p = counted(self.polygons[child].len(), "polygon");
            let words = format!("child {child}: {p}, from {} to {}", point(item.min), point(item.max));
            let colour = if is_somewhere(item) { INK } else { RED };
            svg.text((MARGIN + 26.0, y), &format!("fill=\"{colour}\""), &words);
            y += 18.0;
        }
        if shown < self.boxes.len() {
            let words = format!("and {} more", self.boxes.len() - shown);
            svg.text((MARGIN + 26.0, y), &format!("fill=\"{INK}\""), &words);
            y += 18.0;
        }
        y
    }
}

/// Whether a box has a place.
fn is_somewhere(item: &BvhItem) -> bool {
    [item.min, item.max].into_iter().all(|v| v.x.is_finite() && v.y.is_finite() && v.z.is_finite())
}
