//! What was measured as a page: a table of each kind, and what they were measured with.

use crate::machine;
use crate::measure::{Row, Series, FEWEST};
use crate::subjects::{Kind, Side};
use crate::walks::{A_PASS, BY_FORCE};

pub fn page(series: &[Series], samples: usize, seed: u64) -> String {
    let (option, counts) = match series.iter().any(|s| counted(series, s.subject.kind)) {
        true => (
            " --instructions",
            "Instructions are those of callgrind, counted for some sizes: unlike times they repeat.",
        ),
        false => ("", "Instructions were not counted."),
    };
    format!(
        "# Speed\n\n\
         The proved library and the reference, on the same inputs (seed {seed}), one thread, timed in turn in one run by\n\
         the time that the thread had a processor: the least of {samples} samples, of {FEWEST} or more of a side whose samples would\n\
         take over 10 seconds, and of one or two where one takes that long. A ratio is the library's time by another's: below 1 the\n\
         library is faster. {counts}\n\n\
         Made by `cargo run --release -p bench -- --write{option}` in rust/:\n\n{}\n\
         ![Ratios over size](bench.svg)\n\n\
         {}\n{}\n## Tried without gain\n\n{}\n{}",
        machine::described(),
        whole(&operations(series)),
        include_str!("../shares.md"),
        include_str!("../tried.md"),
        whole(&[steps(series)]).trim_end(),
    ) + "\n"
}

/// A heading, what stands below it, and its table.
type Part = (&'static str, &'static str, String);

/// The tables of what was measured, each under its heading.
pub fn tables(series: &[Series]) -> String {
    whole(&operations(series)) + &whole(&[steps(series)])
}

fn operations(series: &[Series]) -> [Part; 8] {
    [
        ("Prepare", PREPARE, lists(series, Kind::Prepare, "size", "triangle or vertex")),
        ("Builds", BUILDS, lists(series, Kind::Build, "boxes", "box")),
        ("Walks", WALKS, walks(series)),
        ("Queries", QUERIES, queries(series)),
        ("Polygons", POLYGONS, calls(series, Kind::Polygon, "operation", "polygons")),
        ("Shrinking", SHRINKING, lists(series, Kind::Shrink, "vertices", "vertex")),
        ("Octants", OCTANTS, lists(series, Kind::Octants, "vertices", "vertex")),
        ("Composites", COMPOSITES, lists(series, Kind::Composite, "children", "child")),
    ]
}

fn steps(series: &[Series]) -> Part {
    ("Appendix: float steps", STEPS, calls(series, Kind::Step, "step", "calls"))
}

/// Those of which something was measured.
fn whole(parts: &[Part]) -> String {
    let one = |(title, text, table): &Part| match table.is_empty() {
        true => String::new(),
        false => format!("## {title}\n\n{text}\n{table}\n"),
    };
    parts.iter().map(one).collect()
}

const BUILDS: &str = "\
Of the library a call of `bounds::build_bvh`, from floats to records in bytes; of the reference its `build_bvh`, up to
records that are not yet bytes. Random boxes are up to 10 wide and spread over 400; nested ones have one centre, each
within the next; of the hostile and the deep list the split rule takes off a few boxes at a time, thousands of levels
deep. Subnormal: every coordinate, and on the deep list those of y and z. Of lists by a seed a pass builds as many as have
32,767 boxes together, one after another, and a time is that of one: a list is built once, and of a short one that is built
again and again a processor learns the branches, of which the reference has more. The last row is such a list. Instructions
are those of one box.
";

const WALKS: &str = "\
The reference has no walk. Plain: the walk in plain Rust that the library's is compared with (rust/oracle). Tuned: one
with SSE2 intrinsics over the same bytes (rust/bench/src/tuned.rs), with the same counts, positions and refusals. The
synthetic tree was not built, and its size counts the records read; the others are queries over so many random boxes,
threshold 4. Times and instructions are those of one record.
";

const QUERIES: &str = "\
The same queries against brute force, which compares every box as floats and without a branch: cubes so wide that they
meet some 1, 10 or 100 boxes. Means of one query, and thousand queries a second. A walk reads every tree record, and
hands out all items of a leaf that meets: more than brute force finds, and who wants the exact answer compares the boxes
of what was handed out. So a small query over many boxes takes as long as its tree records, and the lead over brute
force grows with the boxes and shrinks with what is met.
";

const POLYGONS: &str = "\
Links (`update_edge_indices`) of triangles of a grid, of triangles that all have one edge in common, and of equal ones;
materials (`build_materials`) of polygons that have each one of 8 or 256. The library stores links in the records and
works in buffers that are lent again and again; the reference stores them in its structs, and makes lists and, by a
random seed, hash maps anew. Box (over 32,768 vertices), read and write are a call for each polygon, of the library into
it. Times and instructions are those of one polygon.
";

const SHRINKING: &str = "\
Of the library a call of `bounds::shrink::calculate_verts_shrunk_in`, from records to points, in buffers that are lent again
and again; of the reference `update_edge_indices` and `calculate_verts_shrunk`. A sphere, of twice as many triangles, passes
with the first margin: two rays for each vertex and triangle. The thin shell is two sheets 0.01 apart with a margin of 1,
which is halved until they do not meet. Where the last vertices fail, those of two squares beside a sphere of so many
vertices, each margin before the 14th is found too large only there. Nearly all vertices of the mesh with long rings have
rings of 63 triangles, whose normals are tried three by three; the mesh with one bad triangle has beside these one with a
corner that is not there, so that no margin passes. Instructions are those of one vertex.
";

const OCTANTS: &str = "\
All eight lists: of the library a call of `bounds::octants::calculate_octants_in`, into buffers that are lent again and
again; of the reference its `calculate_octants`. Random vertices lie in a cube; in the plane (x + y + z = 0) and on the
line (t, t, -t) few shadow one another, nor do NaN, and the reference looks through all that it has kept for each
vertex. Instructions are those of one vertex.
";

const COMPOSITES: &str = "\
Of the library `bounds::composite::child_boxes` and `composite_tree`, from children to bytes; of the reference its
`Composite::prepare`, which makes lists of flags and transforms too, and its records not yet bytes. The children are
boxes of 1 to 10, turned, and placed over 400. Instructions are those of one child.
";

const PREPARE: &str = "\
All that is derived of a geometry: of the library a call of `bounds::prepare::prepare`, from records to bytes, in buffers that
are lent again and again; of the reference its `Geometry::prepare` of a copy, into lists that are not yet bytes. The grid has
so many triangles and eight materials: a tree, links and materials in its order, vertices stored. The sphere has so many
vertices and twice as many triangles: it is shrunk with the first margin, and its octants are listed. The others are made to
be slow: triangles around one edge, equal ones, a vertex that is no number, spheres each three times as far out as the last,
and meshes that pass with a small margin or with none. Instructions are those of one triangle or vertex.
";

const STEPS: &str = "\
A step of the library is a call into it; the reference's is compiled into the loop. A processor learns the branches of
1,000 inputs, not those of 100,000. Times and instructions are those of one call.
";

/// A table's head, with a column for each name.
fn head(left: &str, columns: &[&str]) -> String {
    let names: String = columns.iter().map(|name| format!(" {name} |")).collect();
    format!("| {left} |{names}\n|---|{}\n", "---:|".repeat(columns.len()))
}

fn cell(value: Option<f64>, digits: usize) -> String {
    value.map_or("–".to_string(), |x| format!("{x:.digits$}"))
}

/// The library's time by another's; of a very small one two digits that say something.
fn ratio(r: &Row, to: Side) -> String {
    let ratio = r.ratio(to);
    cell(ratio, if ratio.is_some_and(|ratio| ratio < 0.01) { 4 } else { 2 })
}

fn row(left: &str, cells: &[String]) -> String {
    let cells: String = cells.iter().map(|cell| format!(" {cell} |")).collect();
    format!("| {left} |{cells}\n")
}

/// The rows of a kind in their order; nothing where there are none.
fn rows(series: &[Series], kind: Kind, head: String, row: impl Fn(&str, &Row) -> Option<String>) -> String {
    let of = series.iter().filter(|s| s.subject.kind == kind);
    let rows: String = of.flat_map(|s| s.rows.iter().filter_map(|r| row(s.subject.name, r))).collect();
    if rows.is_empty() {
        rows
    } else {
        head + &rows
    }
}

/// Whether any row of a kind was counted: else there is no column of instructions.
fn counted(series: &[Series], kind: Kind) -> bool {
    series.iter().any(|s| s.subject.kind == kind && s.rows.iter().any(|r| !r.instructions.is_empty()))
}

fn with_instructions<'a>(names: &[&'a str], sides: &[Side], counted: bool) -> Vec<&'a str> {
    let column = |side: &Side| match side {
        Side::Library => "instructions",
        Side::Reference => "reference's",
        Side::Plain => "plain's",
        _ => "tuned's",
    };
    names.iter().copied().chain(sides.iter().filter(|_| counted).map(column)).collect()
}

fn instructions(r: &Row, sides: &[Side], counted: bool) -> Vec<String> {
    sides.iter().filter(|_| counted).map(|&side| cell(r.instructions(side), 1)).collect()
}

const BOTH: [Side; 2] = [Side::Library, Side::Reference];
const THREE: [Side; 3] = [Side::Library, Side::Plain, Side::Tuned];

/// Times of whole lists, and of one of what they hold, beside the reference's.
fn lists(series: &[Series], kind: Kind, size: &str, one: &str) -> String {
    let counted = counted(series, kind);
    let each = format!("library, ns a {one}");
    let names = [size, "library, µs", "reference, µs", &each, "ratio"];
    let head = head("list", &with_instructions(&names, &BOTH, counted));
    rows(series, kind, head, |name, r| {
        let micros = |side| cell(r.each(side).map(|t| t * r.size as f64 / 1e3), 1);
        let mut cells = vec![r.size.to_string(), micros(Side::Library), micros(Side::Reference)];
        cells.extend([cell(r.each(Side::Library), 1), ratio(r, Side::Reference)]);
        cells.extend(instructions(r, &BOTH, counted));
        Some(row(name, &cells))
    })
}

fn walks(series: &[Series]) -> String {
    let counted = counted(series, Kind::Walk);
    let names = ["size", "library, ns", "plain, ns", "tuned, ns", "by plain", "by tuned"];
    let head = head("set", &with_instructions(&names, &THREE, counted));
    rows(series, Kind::Walk, head, |name, r| {
        let mut cells = vec![r.size.to_string()];
        cells.extend(THREE.map(|side| cell(r.each(side), 2)));
        cells.extend([Side::Plain, Side::Tuned].map(|side| ratio(r, side)));
        cells.extend(instructions(r, &THREE, counted));
        Some(row(name, &cells))
    })
}

fn queries(series: &[Series]) -> String {
    let names = ["boxes", "trees", "met", "handed out", "records read", "library, k/s", "brute force, k/s", "ratio"];
    rows(series, Kind::Walk, head("set", &names), |name, r| {
        let q = r.queries?;
        let rate = |side, queries: usize| Some(1e6 * queries as f64 / r.time(side)?);
        let (ours, force) = (rate(Side::Library, A_PASS), rate(Side::Force, BY_FORCE));
        let mut cells = vec![r.size.to_string(), q.trees.to_string()];
        cells.extend([q.met, q.handed, q.reads].map(|mean| cell(Some(mean), 1)));
        cells.extend([cell(ours, 1), cell(force, 1), cell(Some(force? / ours?), 3)]);
        Some(row(name, &cells))
    })
}

/// Times of one polygon or call beside the reference's.
fn calls(series: &[Series], kind: Kind, left: &str, size: &str) -> String {
    let counted = counted(series, kind);
    let names = [size, "library, ns", "reference, ns", "ratio"];
    let head = head(left, &with_instructions(&names, &BOTH, counted));
    rows(series, kind, head, |name, r| {
        let mut cells = vec![r.size.to_string()];
        cells.extend(BOTH.map(|side| cell(r.each(side), 2)));
        cells.push(ratio(r, Side::Reference));
        cells.extend(instructions(r, &BOTH, counted));
        Some(row(name, &cells))
    })
}
