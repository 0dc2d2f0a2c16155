//! A prepared mesh as a picture: its polygons from above, where they stand, in the colours of their ranges or materials; and,
//! where there is a tree, its rows.

use super::above::Paper;
use super::axis::Ruler;
use super::materials::Materials;
use super::svg::{Rect, Svg};
use super::{handed, legend, Picture, Query, View, COLOURS, GREY, INK, LETTERS, MARGIN, RED, VIOLET, WIDTH};
use crate::account::{account, traced};
use crate::dump::Dump;
use crate::explain::query::rounded_words;
use crate::failure::Failure;
use crate::mesh::rounded::Rounded;
use crate::mesh::state::{broken_words, corners, premises};
use crate::mesh::{vertices, MeshAccount, MeshFolder};
use crate::number::counted;
use bounds::{BvhItem, Geometry, Polygon, Vec3};

/// Polygons have their numbers written in them up to so many.
const NAMED: usize = 60;

/// Above so many polygons outlines are thin, lest they hide the colours.
const MANY: usize = 1_000;

/// Of what a query hands out: darker than the colours of ranges.
const BLUE: &str = "#1f4e8c";

/// The query's outline, which a white one sets off from what lies below it.
const QUERY: &str = "fill=\"none\" stroke=\"#000000\" stroke-width=\"2\"";

/// What the polygons' colours stand for.
#[derive(Clone, Copy, Debug, PartialEq, Eq)]
pub enum Colour {
    Range,
    Material,
}

/// How a mesh is to be drawn.
#[derive(Clone, Copy, Debug, Default)]
pub struct Look {
    /// Without it ranges, or materials where there is no tree.
    pub colour: Option<Colour>,
    pub view: View,
}

/// What a mesh's picture is made from.
pub struct MeshPicture<'a> {
    folder: &'a MeshFolder,
    geometry: &'a Geometry,
    /// Where the vertices stand.
    points: Vec<Vec3>,
    /// The polygons' boxes.
    items: Vec<BvhItem>,
    colour: Colour,
    view: View,
    materials: Materials,
    /// By the numbers of the input: a range's number, if there is one, or a material's.
    groups: Vec<Option<usize>>,
    /// By the numbers of the input: whether a query at a polygon's place does not hand it out.
    lost: Vec<bool>,
    /// Whether the query handed a polygon out, and whether its box meets it, by the numbers of its file.
    handed: Vec<bool>,
    meets: Vec<bool>,
    query: Option<Query>,
    /// What was walked with.
    walked: Option<Query>,
    captions: Vec<(&'static str, String)>,
    rulers: [Ruler; 2],
}

/// A mesh's picture, and how many polygons and rows it has.
pub struct Drawn {
    pub svg: String,
    pub polygons: usize,
    pub rows: usize,
    pub nodes: usize,
}

/// Draws a prepared mesh, whose bytes are held to its input.
pub fn draw(folder: &MeshFolder, accounted: &MeshAccount, query: Option<Query>, look: Look) -> Result<Drawn, Failure> {
    let tree = folder.tree()?;
    let without = if tree.is_some() { Colour::Range } else { Colour::Material };
    let colour = look.colour.unwrap_or(without);
    if colour == Colour::Range && tree.is_none() {
        return Err(Failure::Usage(format!("{} has no tree, so no ranges: leave out --colour range", folder.name)));
    }
    if query.is_some() && tree.is_none() {
        return Err(Failure::Usage(format!("{} has no tree to query: leave out --query", folder.name)));
    }
    let picture = MeshPicture::of(folder, accounted, tree.as_ref(), query, (colour, look.view))?;
    let polygons = folder.parts.polygons_count;
    let mut svg = Svg::new(LETTERS);
    let y = picture.title(&mut svg);
    let y = picture.above(&mut svg, y);
    let Some(dump) = &tree else {
        let y = picture.legend(&mut svg, y + 30.0);
        return Ok(Drawn { svg: svg.finish(WIDTH, y + MARGIN), polygons, rows: 0, nodes: 0 });
    };
    let boxes = account(dump)?;
    let trace = traced(dump, &boxes)?;
    let missed = (0..polygons).map(|k| picture.is_missed(k)).collect();
    let rows = Picture { noun: "polygon", query, missed, ..Picture::of(dump, &trace, &boxes, picture.walked) };
    let y = picture.rows_title(&mut svg, &rows, y + 40.0);
    let y = rows.lanes(&mut svg, y);
    let y = picture.legend(&mut svg, y + 44.0);
    let y = rows.legend(&mut svg, y + 22.0);
    Ok(Drawn { svg: svg.finish(WIDTH, y + MARGIN), polygons, rows: rows.rows(), nodes: trace.nodes.len() })
}

impl<'a> MeshPicture<'a> {
    fn of(
        folder: &'a MeshFolder,
        accounted: &MeshAccount,
        tree: Option<&Dump>,
        query: Option<Query>,
        (colour, view): (Colour, View),
    ) -> Result<MeshPicture<'a>, Failure> {
        let mesh = folder.input()?;
        let (geometry, materials) = (&mesh.geometry, Materials::new(mesh));
        let (points, items) = (geometry.positions(), geometry.items()?);
        let n = geometry.polygons.len();
        let rounded = if query.is_some() { Rounded::of(mesh)? } else { None };
        let walked = query.map(|query| rounded.as_ref().map_or(query, |rounded| rounded.widened(query)));
        let handed = walked.zip(tree).map_or(vec![false; n], |(query, dump)| handed(dump, query, n));
        let judged = rounded.as_ref().map_or(&items, |rounded| &rounded.boxes);
        let meets = judged.iter().map(|item| query.is_some_and(|query| item.meets(query.min, query.max))).collect();
        let broken = premises(folder)?.and_then(|premises| premises.broken);
        let differs = !accounted.differing.is_empty();
        // Within the premises, over records that are what the input gives, none is: that is proved.
        let doubtful = tree.filter(|_| broken.is_some() || differs);
        let lost = doubtful.map_or(vec![false; n], |dump| lost(dump, &items));
        let mut captions = Vec::new();
        if let (Some(rounded), true) = (&rounded, walked != query) {
            captions.push((INK, format!("the query is widened: {}", rounded_words(&rounded.by))));
        }
        if let Some(broken) = broken {
            captions.push((VIOLET, format!("outside the premises, {}: polygons may be missed", broken_words(broken))));
        }
        if differs {
            let fields = counted(accounted.differing.len(), "field");
            captions.push((VIOLET, format!("{fields} of the folder not as its input gives")));
        }
        if doubtful.is_some() {
            let many = lost.iter().filter(|&&lost| lost).count();
            let of = counted(n, "polygon");
            captions.push((RED, format!("{many} of {of} LOST: a query at their place does not hand them out")));
        }
        let rulers = [0, view.axis()].map(|axis| {
            let pick = move |v: Vec3| [v.x, v.y, v.z][axis] as f64;
            let boxes = items.iter().flat_map(|item| [pick(item.min), pick(item.max)]);
            let asked = query.iter().flat_map(|query| [pick(query.min), pick(query.max)]);
            Ruler::over(boxes.chain(asked), 0.0, 1.0)
        });
        let groups = match (colour, tree) {
            (Colour::Range, Some(dump)) => ranges(dump, n),
            _ => materials.of.iter().copied().map(Some).collect(),
        };
        Ok(MeshPicture {
            folder,
            geometry,
            points,
            items,
            colour,
            view,
            materials,
            groups,
            lost,
            handed,
            meets,
            query,
            walked,
            captions,
            rulers,
        })
    }

    fn title(&self, svg: &mut Svg) -> f64 {
        let (parts, name) = (&self.folder.parts, &self.folder.name);
        let (p, v) = (counted(parts.polygons_count, "polygon"), vertices(parts.vertices_count));
        let tree = parts.tree.as_ref().map_or(String::new(), |records| {
            let (nodes, ranges) = (counted(records.node_count(), "node"), counted(records.tree_count(), "range"));
            format!(", {nodes}, {ranges}")
        });
        let title = format!("{name}: kind {}, {p}, {v}{tree}", parts.kind);
        svg.text((MARGIN, 30.0), &format!("font-size=\"16\" font-weight=\"bold\" fill=\"{INK}\""), &title);
        let mut y = 30.0;
        for (colour, caption) in &self.captions {
            y += 18.0;
            svg.text((MARGIN, y), &format!("fill=\"{colour}\""), caption);
        }
        y + 26.0
    }

    fn rows_title(&self, svg: &mut Svg, rows: &Picture, y: f64) -> f64 {
        let drawn = match rows.rows() == rows.trace.nodes.len() {
            true => "the nodes of the tree".to_string(),
            false => format!("{} of {}: {}", rows.rows(), counted(rows.trace.nodes.len(), "node"), rows.shown),
        };
        svg.text((MARGIN, y), &format!("font-weight=\"bold\" fill=\"{INK}\""), &drawn);
        y + 14.0
    }

    /// The view from `top` on; answers where it ends.
    fn above(&self, svg: &mut Svg, top: f64) -> f64 {
        svg.text((MARGIN, top), &format!("font-weight=\"bold\" fill=\"{INK}\""), self.view.words());
        let paper = Paper::of(self.view, self.rulers[0], self.rulers[1], top + 10.0, 640.0);
        paper.grid(svg);
        self.fills(svg, &paper);
        self.marked(svg, &paper);
        if let Some(query) = self.query {
            let at = paper.rect(self.view.spans(query.min, query.max));
            svg.rect(at, "fill=\"none\" stroke=\"#ffffff\" stroke-width=\"5\"");
            svg.rect(at, QUERY);
        }
        if self.geometry.polygons.len() <= NAMED {
            self.names(svg, &paper);
        }
        paper.bottom() + 16.0
    }

    /// Each group's polygons as one shape, so that a large mesh is a small file.
    fn fills(&self, svg: &mut Svg, paper: &Paper) {
        let width = if self.items.len() > MANY { 0.25 } else { 0.7 };
        let groups = self.groups.iter().flatten().max().map_or(0, |most| most + 1);
        for group in (0..groups).map(Some).chain([None]) {
            let of = (0..self.items.len()).filter(|&k| self.groups[k] == group);
            let shape: String = of.map(|k| self.outline(paper, k)).collect();
            let colour = group.map_or(GREY, |group| self.group_colour(group));
            svg.path(&shape, &format!("fill=\"{colour}\" stroke=\"{INK}\" stroke-width=\"{width}\""));
        }
        let lost: String = (0..self.items.len()).filter(|&k| self.lost[k]).map(|k| self.outline(paper, k)).collect();
        svg.path(&lost, &format!("fill=\"{RED}\" fill-opacity=\"0.8\" stroke=\"none\""));
        let odd = (0..self.items.len()).filter(|&k| !self.is_finite(k));
        let shape: String = odd.map(|k| self.box_outline(paper, k)).collect();
        svg.path(&shape, &format!("fill=\"none\" stroke=\"{VIOLET}\" stroke-dasharray=\"4 3\""));
    }

    fn group_colour(&self, group: usize) -> &str {
        match self.colour {
            Colour::Range => COLOURS[group % COLOURS.len()],
            Colour::Material => self.materials.all.get(group).map_or(GREY, |material| &material.colour),
        }
    }

    /// What a query was handed: dark where the box meets, light where it does not; red where one that meets was missed.
    fn marked(&self, svg: &mut Svg, paper: &Paper) {
        if self.query.is_none() {
            return;
        }
        let all = 0..self.items.len();
        let shape = |meets: bool, handed: bool| -> String {
            let of = all.clone().filter(|&k| self.meets[k] == meets && self.handed[k] == handed);
            of.map(|k| self.outline(paper, k)).collect()
        };
        svg.path(&shape(false, true), &format!("fill=\"{BLUE}\" fill-opacity=\"0.25\" stroke=\"{BLUE}\""));
        svg.path(&shape(true, true), &format!("fill=\"{BLUE}\" fill-opacity=\"0.6\" stroke=\"{BLUE}\""));
        svg.path(&shape(true, false), &format!("fill=\"{RED}\" fill-opacity=\"0.9\" stroke=\"{RED}\""));
    }

    /// Whether a polygon's box meets the query and it is not handed out.
    fn is_missed(&self, k: usize) -> bool {
        self.meets[k] && !self.handed[k]
    }

    fn names(&self, svg: &mut Svg, paper: &Paper) {
        for (place, item) in self.items.iter().enumerate() {
            let ((left, right), (low, high)) = self.view.spans(item.min, item.max);
            if (left + right + low + high).is_finite() {
                let (x, y) = paper.at((item.min + item.max) * 0.5);
                let look = format!("text-anchor=\"middle\" font-size=\"10\" fill=\"{INK}\"");
                svg.text((x, y + 4.0), &look, &place.to_string());
            }
        }
    }

    /// Whether a polygon is somewhere: its box, and of a triangle each corner.
    fn is_finite(&self, k: usize) -> bool {
        let item = &self.items[k];
        let place = |v: Vec3| {
            let (x, y) = self.view.flat(v);
            x.is_finite() && y.is_finite()
        };
        let corner = |k: usize| self.points.get(k).is_none_or(|&v| place(v));
        place(item.min) && place(item.max) && corners(&self.geometry.polygons[k]).into_iter().all(corner)
    }

    /// A triangle by its corners; what is round or a box by its box. A polygon that is nowhere has none.
    fn outline(&self, paper: &Paper, k: usize) -> String {
        if !self.is_finite(k) {
            return String::new();
        }
        let polygon = &self.geometry.polygons[k];
        if !matches!(polygon, Polygon::Triangle { .. }) {
            return self.box_outline(paper, k);
        }
        let at = |k: usize| self.points.get(k).copied().unwrap_or(Vec3::ZERO);
        let corners: Vec<(f64, f64)> = corners(polygon).into_iter().map(|k| paper.at(at(k))).collect();
        shape(&corners)
    }

    fn box_outline(&self, paper: &Paper, k: usize) -> String {
        let item = &self.items[k];
        let Rect { x, y, w, h } = paper.rect(self.view.spans(item.min, item.max));
        shape(&[(x, y), (x + w, y), (x + w, y + h), (x, y + h)])
    }

    fn legend(&self, svg: &mut Svg, y: f64) -> f64 {
        let mut entries = match self.colour {
            Colour::Range => vec![(format!("fill=\"{}\"", COLOURS[0]), "a polygon, a colour a range".to_string())],
            Colour::Material => self.materials.entries(),
        };
        let mut entry = |look: String, text: &str| entries.push((look, text.into()));
        if self.lost.contains(&true) {
            entry(format!("fill=\"{RED}\" fill-opacity=\"0.8\""), "LOST: a query at its place does not find it");
        }
        if (0..self.items.len()).any(|k| !self.is_finite(k)) {
            entry(
                format!("fill=\"none\" stroke=\"{VIOLET}\" stroke-dasharray=\"4 3\""),
                "the box of one that is nowhere",
            );
        }
        if self.query.is_some() {
            entry(QUERY.into(), "the query from above");
            entry(format!("fill=\"{BLUE}\" fill-opacity=\"0.6\""), "handed out, its box meets");
            entry(format!("fill=\"{BLUE}\" fill-opacity=\"0.25\""), "handed out, does not meet");
        }
        if (0..self.items.len()).any(|k| self.is_missed(k)) {
            entry(format!("fill=\"{RED}\" fill-opacity=\"0.9\""), "meets, missed");
        }
        let y = legend(svg, y, &entries);
        if self.colour == Colour::Material || self.materials.all.is_empty() {
            return y;
        }
        let y = y + 20.0;
        svg.text((MARGIN, y), &format!("fill=\"{INK}\""), "materials, which --colour material shows:");
        let listed: Vec<(String, String)> =
            self.materials.entries().into_iter().map(|(_, words)| ("fill=\"none\"".to_string(), words)).collect();
        legend(svg, y + 20.0, &listed)
    }
}

/// For each polygon of the input whether a query at its own box, which meets it, does not hand it out, or is refused.
fn lost(dump: &Dump, items: &[BvhItem]) -> Vec<bool> {
    let found = |k: usize, item: &BvhItem| {
        let walk = dump.walk(item.min, item.max);
        walk.is_ok_and(|found| found.positions.iter().any(|&at| dump.place(at as usize) == Some(k)))
    };
    items.iter().enumerate().map(|(k, item)| item.meets(item.min, item.max) && !found(k, item)).collect()
}

/// Corners as a closed shape of a path, all turned the same way: of two shapes that turn against one another a path leaves out
/// what they share.
fn shape(corners: &[(f64, f64)]) -> String {
    let next = corners.iter().cycle().skip(1);
    let area: f64 = corners.iter().zip(next).map(|((a, b), (c, d))| a * d - b * c).sum();
    let mut points: Vec<String> = corners.iter().map(|(x, y)| format!("{x:.1} {y:.1}")).collect();
    if area < 0.0 {
        points.reverse();
    }
    format!("M{}Z", points.join("L"))
}

/// For each polygon of the input its range, by the leaf that holds it.
fn ranges(dump: &Dump, n: usize) -> Vec<Option<usize>> {
    let trees: Vec<(usize, usize)> = (0..dump.records.tree_count())
        .filter_map(|k| dump.records.tree(k))
        .map(|tree| (tree.node_index1.max(0) as usize, tree.node_index2.max(0) as usize))
        .collect();
    let range = |leaf: usize| trees.iter().position(|&(first, last)| first <= leaf && leaf < last);
    let mut groups: Vec<Option<usize>> = dump.leaves().into_iter().map(|leaf| leaf.and_then(range)).collect();
    groups.resize(n, None);
    groups
}
