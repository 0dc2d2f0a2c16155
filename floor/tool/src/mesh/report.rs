//! What an operator is told of a mesh beside the verdict: all that was looked for, each with its count and where its first stands.
//! None of it fails a mesh, since records of it are legal. Triangles are looked at by the numbers that their file has, before
//! anything moves them. The time is that of sorting.

use super::state::{corners, is_cut};
use super::{Mesh, Of, Origin};
use crate::failure::Failure;
use crate::json::Json;
use crate::number::plural;
use crate::rules::{list, Rule, Rule::*};
use bounds::prepare::Frame;
use bounds::{BvhItem, Geometry, Polygon, Prepared, Vec3};

/// One thing that was looked for.
#[derive(Clone, Debug, PartialEq)]
pub struct Row {
    /// For programs.
    pub name: &'static str,
    /// For people, behind the count: the noun, and the words behind it.
    pub noun: &'static str,
    pub words: &'static str,
    pub rules: &'static [Rule],
    pub count: usize,
    pub first: Option<First>,
}

/// Where the first stands: what it is, and its line in the file.
#[derive(Clone, Debug, PartialEq, Eq)]
pub struct First {
    pub what: String,
    pub line: Option<usize>,
}

/// What was found of a mesh.
#[derive(Clone, Debug, PartialEq)]
pub struct Report {
    pub empty: Row,
    pub degenerate: Row,
    pub doubled: Row,
    pub non_manifold: Row,
    pub doubled_vertices: Row,
    pub past_vertices: Row,
    pub past_materials: Row,
    pub radius: Row,
    pub inside_out: Row,
    pub cut: Row,
    pub large: Row,
}

impl Report {
    /// Of a mesh and what was prepared of it.
    pub fn of(mesh: &Mesh, prepared: &Prepared) -> Result<Report, Failure> {
        let triangles = Triangles::of(mesh);
        Ok(Report {
            empty: empty(&mesh.geometry),
            degenerate: triangles.degenerate(),
            doubled: triangles.doubled(),
            non_manifold: triangles.non_manifold(),
            doubled_vertices: triangles.doubled_vertices(),
            past_vertices: past_vertices(mesh),
            past_materials: past_materials(mesh),
            radius: radius(mesh),
            inside_out: inside_out(mesh),
            cut: cut(mesh, prepared),
            large: large(mesh, &mesh.geometry.items()?),
        })
    }

    fn rows(&self) -> impl Iterator<Item = &Row> {
        let Report { empty, degenerate, doubled, non_manifold, doubled_vertices, past_vertices, .. } = self;
        let Report { past_materials, radius, inside_out, cut, large, .. } = self;
        let first = [empty, degenerate, doubled, non_manifold, doubled_vertices, past_vertices];
        first.into_iter().chain([past_materials, radius, inside_out, cut, large])
    }

    /// A line each, those that were not found too.
    pub fn text(&self) -> String {
        self.rows().map(|row| format!("{:>7}  {}\n", row.count, row.told())).collect()
    }

    /// A line for each fault of the mesh that was found. Cut vertices and large polygons are none: what they are measured by is
    /// the box.
    pub fn notes(&self) -> Vec<String> {
        let measured = [&self.cut, &self.large].map(|row| row.name);
        let faults = self.rows().filter(|row| row.count > 0 && !measured.contains(&row.name));
        faults.map(|row| format!("{} {}", row.count, row.told())).collect()
    }

    pub fn json(&self) -> Json {
        Json::Object(self.rows().map(|row| (row.name, row.json())).collect())
    }
}

impl Row {
    /// `degenerate triangles: .. (S2); the first is polygon 4, line 12`, behind the count.
    fn told(&self) -> String {
        let noun = if self.count == 1 { self.noun.to_string() } else { plural(self.noun) };
        let first = self.first.as_ref().map_or(String::new(), |first| {
            let line = first.line.map_or(String::new(), |line| format!(", line {line}"));
            format!("; the first is {}{line}", first.what)
        });
        format!("{noun}{} ({}){first}", self.words, list(self.rules))
    }

    fn json(&self) -> Json {
        let first = self.first.as_ref();
        Json::Object(vec![
            ("count", self.count.into()),
            ("first", first.map(|first| first.what.clone()).into()),
            ("line", first.and_then(|first| first.line).into()),
        ])
    }
}

/// A polygon by its number, and its line.
fn polygon(origin: &Origin, k: usize) -> First {
    First { what: format!("polygon {k}"), line: origin.polygons.get(k).copied() }
}

/// A vertex by the number that its file gives it, and its line.
fn vertex(origin: &Origin, k: usize) -> First {
    First { what: format!("vertex {}", origin.number(k)), line: origin.vertices.get(k).copied() }
}

/// How many there are, and the first of them.
fn counted_first(mut of: impl Iterator<Item = usize>) -> (usize, Option<usize>) {
    let first = of.next();
    (usize::from(first.is_some()) + of.count(), first)
}

/// The polygons of which something holds.
fn polygons(mesh: &Mesh, holds: impl Fn(&Polygon) -> bool) -> (usize, Option<First>) {
    let all = mesh.geometry.polygons.iter().enumerate();
    let (count, first) = counted_first(all.filter(|(_, polygon)| holds(polygon)).map(|(k, _)| k));
    (count, first.map(|k| polygon(&mesh.origin, k)))
}

/// Triangles by their corners, and by the places of these.
struct Triangles<'a> {
    origin: &'a Origin,
    /// Of each vertex the first that stands where it stands.
    firsts: Vec<usize>,
    /// By polygon, the corners without their flags.
    corners: Vec<(usize, [usize; 3])>,
    /// The same by the first vertex at each place, with the numbers in order.
    places: Vec<(usize, [usize; 3])>,
}

impl Triangles<'_> {
    fn of(mesh: &Mesh) -> Triangles<'_> {
        let three = |(k, polygon): (usize, &Polygon)| match polygon {
            Polygon::Triangle { .. } => Some((k, corners(polygon).try_into().ok()?)),
            _ => None,
        };
        Triangles::new(&mesh.origin, mesh.geometry.polygons.iter().enumerate().filter_map(three).collect())
    }

    fn new(origin: &Origin, corners: Vec<(usize, [usize; 3])>) -> Triangles<'_> {
        let firsts = at_one_place(&origin.given);
        let place = |corner: usize| firsts.get(corner).copied().unwrap_or(corner);
        let sorted = |&(k, three): &(usize, [usize; 3])| {
            let mut places = three.map(place);
            places.sort_unstable();
            (k, places)
        };
        let places = corners.iter().map(sorted).collect();
        Triangles { origin, firsts, corners, places }
    }

    fn degenerate(&self) -> Row {
        let given = &self.origin.given;
        let flat = |(_, three): &&(usize, [usize; 3])| twice(*three) || without_area(given, *three);
        let (count, first) = counted_first(self.corners.iter().filter(flat).map(|&(k, _)| k));
        Row {
            name: "degenerate",
            noun: "degenerate triangle",
            words: ": a corner twice, or the cross product of two sides is 0 in f64",
            rules: &[S2],
            count,
            first: first.map(|k| polygon(self.origin, k)),
        }
    }

    fn doubled(&self) -> Row {
        let mut all = self.places.clone();
        all.sort_unstable_by_key(|&(k, places)| (places, k));
        let behind =
            all.chunk_by(|a, b| a.1 == b.1).flat_map(|same| same[1..].iter().map(|again| (again.0, same[0].0)));
        let (count, first) = (behind.clone().count(), behind.min());
        let told = |(k, before)| {
            let First { what, line } = polygon(self.origin, k);
            First { what: format!("{what}, again polygon {before}"), line }
        };
        Row {
            name: "doubled",
            noun: "doubled triangle",
            words: ": the corners of an earlier one, by number or place, in any order",
            rules: &[E2],
            count,
            first: first.map(told),
        }
    }

    fn non_manifold(&self) -> Row {
        let whole = self.places.iter().filter(|(_, places)| !twice(*places));
        let sides = |&(k, [a, b, c]): &(usize, [usize; 3])| [(a, b), (a, c), (b, c)].map(|edge| (edge, k));
        let mut all: Vec<((usize, usize), usize)> = whole.flat_map(sides).collect();
        all.sort_unstable();
        let crowded = all.chunk_by(|a, b| a.0 == b.0).filter(|sides| sides.len() > 2);
        let (count, first) = (crowded.clone().count(), crowded.map(|sides| (sides[2].1, sides[0].0)).min());
        let told = |(k, (a, b))| {
            let (First { what, line }, [a, b]) = (polygon(self.origin, k), [a, b].map(|end| self.origin.number(end)));
            First { what: format!("vertices {a} and {b}, whose third side is {what}'s"), line }
        };
        Row {
            name: "non_manifold",
            noun: "non-manifold edge",
            words: ": three sides or more of triangles, by number or place",
            rules: &[E2],
            count,
            first: first.map(told),
        }
    }

    fn doubled_vertices(&self) -> Row {
        let (count, first) = counted_first((0..self.firsts.len()).filter(|&k| self.firsts[k] != k));
        let told = |k: usize| {
            let First { what, line } = vertex(self.origin, k);
            First { what: format!("{what}, again vertex {}", self.origin.number(self.firsts[k])), line }
        };
        Row {
            name: "doubled_vertices",
            noun: "doubled vertex",
            words: ": at the place of an earlier one, so that triangles of the two are no neighbours",
            rules: &[E1],
            count,
            first: first.map(told),
        }
    }
}

/// Of each vertex the first that stands where it stands, in the file. A zero is a zero whatever its sign, and a NaN is its word.
fn at_one_place(vertices: &[Vec3]) -> Vec<usize> {
    let words = |&k: &usize| {
        let Vec3 { x, y, z } = vertices[k];
        [x, y, z].map(|x| (x + 0.0).to_bits())
    };
    let mut order: Vec<usize> = (0..vertices.len()).collect();
    order.sort_unstable_by_key(|k| (words(k), *k));
    let mut firsts = vec![0; vertices.len()];
    for same in order.chunk_by(|a, b| words(a) == words(b)) {
        same.iter().for_each(|&k| firsts[k] = same[0]);
    }
    firsts
}

fn twice([a, b, c]: [usize; 3]) -> bool {
    a == b || b == c || a == c
}

/// Whether the cross product of two sides is zero, in f64: there no product of f32 differences over- or underflows.
fn without_area(vertices: &[Vec3], corners: [usize; 3]) -> bool {
    let at = |k: usize| vertices.get(k).map(|v| [v.x, v.y, v.z].map(f64::from));
    let [Some(a), Some(b), Some(c)] = corners.map(at) else { return false };
    let side = |to: [f64; 3]| [to[0] - a[0], to[1] - a[1], to[2] - a[2]];
    let ([x, y, z], [u, v, w]) = (side(b), side(c));
    [y * w - z * v, z * u - x * w, x * v - y * u] == [0.0; 3]
}

fn empty(geometry: &Geometry) -> Row {
    let lists = [("no polygon", geometry.polygons.is_empty()), ("no vertex", geometry.vertices.is_empty())];
    let none: Vec<&str> = lists.iter().filter(|(_, is)| *is).map(|(words, _)| *words).collect();
    let first = (!none.is_empty()).then(|| First { what: none.join(" and "), line: None });
    Row { name: "empty", noun: "empty list", words: "", rules: &[K4], count: none.len(), first }
}

fn past_vertices(mesh: &Mesh) -> Row {
    let v = mesh.geometry.vertices.len();
    let (count, first) = polygons(mesh, |polygon| corners(polygon).into_iter().any(|k| k >= v));
    Row {
        name: "past_vertices",
        noun: "polygon",
        words: " with a vertex past the vertices, which is zero",
        rules: &[G8],
        count,
        first,
    }
}

fn past_materials(mesh: &Mesh) -> Row {
    let m = mesh.geometry.materials.len();
    let (count, first) = polygons(mesh, |polygon| polygon.material() as usize >= m);
    Row {
        name: "past_materials",
        noun: "polygon",
        words: " with a material past the materials, which is (0, 0)",
        rules: &[M1],
        count,
        first,
    }
}

fn radius(mesh: &Mesh) -> Row {
    let odd = |polygon: &Polygon| match *polygon {
        Polygon::Sphere { radius, .. } | Polygon::Capsule { radius, .. } | Polygon::Cylinder { radius, .. } => {
            !(radius >= 0.0 && radius.is_finite())
        }
        _ => false,
    };
    let (count, first) = polygons(mesh, odd);
    Row {
        name: "radius",
        noun: "polygon",
        words: " with a radius that is negative or not finite",
        rules: &[G9],
        count,
        first,
    }
}

fn cut(mesh: &Mesh, prepared: &Prepared) -> Row {
    let pairs = mesh.geometry.vertices.iter().zip(&prepared.vertices.floats).enumerate();
    let (count, first) =
        counted_first(pairs.filter(|(_, (v, stored))| is_cut(**v, **stored, prepared.quantum)).map(|(k, _)| k));
    Row {
        name: "cut",
        noun: "vertex",
        words: " further from center_geom than half the box, and cut to that",
        rules: &[Q2, F9],
        count,
        first: first.map(|k| vertex(&mesh.origin, k)),
    }
}

/// Of the polygons' boxes as floats, where the vertices stand.
fn large(mesh: &Mesh, items: &[BvhItem]) -> Row {
    let length = |min: Vec3, max: Vec3| {
        let [a, b] = [min, max].map(|v| [v.x, v.y, v.z].map(f64::from));
        [b[0] - a[0], b[1] - a[1], b[2] - a[2]]
    };
    let Frame { box_min, box_max, .. } = Frame::around(items.iter().flat_map(|item| [item.min, item.max]));
    let whole = length(box_min, box_max);
    let wide = |item: &BvhItem| length(item.min, item.max).iter().zip(whole).any(|(own, all)| *own > 0.5 * all);
    let (count, first) = counted_first((0..items.len()).filter(|&k| wide(&items[k])));
    Row {
        name: "large",
        noun: "polygon",
        words: " whose box is longer than half the box about all, on some axis",
        rules: &[G9],
        count,
        first: first.map(|k| polygon(&mesh.origin, k)),
    }
}

/// The given box: of kind 8 with polygons it is not looked at.
fn inside_out(mesh: &Mesh) -> Row {
    let &Geometry { kind, box_min, box_max, ref polygons, .. } = &mesh.geometry;
    let pairs = [("x", box_min.x, box_max.x), ("y", box_min.y, box_max.y), ("z", box_min.z, box_max.z)];
    let odd = |(_, min, max): &&(&str, f32, f32)| !(min <= max && (max - min).is_finite());
    let used = kind == Geometry::PLAIN || polygons.is_empty();
    let axes: Vec<&str> = pairs.iter().filter(|pair| used && odd(pair)).map(|(axis, ..)| *axis).collect();
    let line = mesh.origin.bound.iter().find(|(of, _)| matches!(of, Of::BoxMin | Of::BoxMax)).map(|&(_, line)| line);
    let first = axes.first().map(|axis| First { what: format!("along {axis}"), line });
    Row {
        name: "inside_out",
        noun: "side",
        words: " of the given box inside out or not finite",
        rules: &[Q1, S1],
        count: axes.len(),
        first,
    }
}

#[cfg(test)]
mod tests {
    use super::*;
    use crate::mesh::Given;

    /// Counts and lines of the rows, in their order, of those that were found; polygons without materials are left out.
    fn found(name: &str, text: &str, kind: u8) -> Vec<(&'static str, usize, Option<usize>)> {
        let given = Given { kind: Some(kind), ..Given::default() };
        let mesh = Mesh::of_bytes(name, text.as_bytes(), given).expect("a mesh");
        let prepared = mesh.geometry.prepare().expect("prepared");
        let report = Report::of(&mesh, &prepared).expect("a report");
        let rows = report.rows().filter(|row| row.count > 0 && row.name != "past_materials");
        rows.map(|row| (row.name, row.count, row.first.as_ref().and_then(|first| first.line))).collect()
    }

    /// The rows but for what is measured by the box, of which a small mesh has much.
    fn faults(text: &str) -> Vec<(&'static str, usize, Option<usize>)> {
        let mut rows = found("a.obj", text, Geometry::BVH);
        rows.retain(|row| row.0 != "large" && row.0 != "cut");
        rows
    }

    /// Lines 1 to 5: a square from 0 to 4 and a point above it.
    const CORNERS: &str = "v 0 0 0\nv 4 0 0\nv 4 4 0\nv 0 4 0\nv 2 2 3\n";

    fn with(faces: &str) -> String {
        CORNERS.to_string() + faces
    }

    #[test]
    fn a_pyramid_has_no_fault() {
        assert_eq!(faults(&with("f 4 3 2 1\nf 1 2 5\nf 2 3 5\nf 3 4 5\nf 4 1 5\n")), []);
    }

    #[test]
    fn triangles_without_area() {
        // Line 8 names a corner twice, and line 9 lies along the diagonal.
        assert_eq!(faults(&with("v 8 8 0\nf 1 2 5\nf 2 2 4\nf 1 3 6\n")), [("degenerate", 2, Some(8))]);
        // Two corners at one place.
        let one_place = [("degenerate", 1, Some(7)), ("doubled_vertices", 1, Some(6))];
        assert_eq!(faults(&with("v 4 4 -0.0\nf 1 3 6\n")), one_place);
        // The least sides there are: their product is lost in f32.
        assert_eq!(faults("v 0 0 0\nv 1e-45 0 0\nv 0 1e-45 0\nf 1 2 3\n"), []);
        // In f32 the products of these sides are infinite, and their difference is no number.
        assert_eq!(faults("v 0 0 0\nv 1e30 1e30 0\nv 3e30 3e30 0\nf 1 2 3\n"), [("degenerate", 1, Some(4))]);
    }

    #[test]
    fn triangles_twice() {
        assert_eq!(
            faults(&with("f 1 2 5\nf 2 3 5\nf 5 1 2\nf 2 1 5\n")),
            [
                ("doubled", 2, Some(8)),
                // Each side of the first triangle; the one from 2 to 5 has its third side by line 8.
                ("non_manifold", 3, Some(8)),
            ]
        );
        // Line 9 has its own three vertices, where the first triangle has its.
        let again = "v 0 -0.0 0\nv 4 0 0\nf 1 2 5\nf 6 7 5\n";
        assert_eq!(faults(&with(again)), [("doubled", 1, Some(9)), ("doubled_vertices", 2, Some(6))]);
    }

    #[test]
    fn edges_of_three_sides() {
        // A fin on the diagonal from vertex 1 to 3, of which line 7 is the third side.
        assert_eq!(faults(&with("f 1 2 3 4\nf 1 3 5\n")), [("non_manifold", 1, Some(7))]);
        // The same by a vertex of its own at the place of vertex 3.
        let apart = [("non_manifold", 1, Some(8)), ("doubled_vertices", 1, Some(6))];
        assert_eq!(faults(&with("v 4 4 0\nf 1 2 3 4\nf 1 6 5\n")), apart);
        // One that names a corner twice has no edges.
        assert_eq!(faults(&with("f 1 2 3 4\nf 1 3 1\n")), [("degenerate", 1, Some(7))]);
    }

    #[test]
    fn what_is_not_there() {
        let head = "bounds mesh 1\nvertex 0 0 0\nvertex 1 0 0\nvertex 0 1 1\n";
        let text =
            head.to_string() + "triangle 0 0 1 2\ntriangle 0 0 1 3\nbox 0 0 1 2 -1\nsphere 0 2 nan\nsphere 0 0 -1\n";
        let all = found("a.txt", &text, Geometry::PLAIN);
        assert_eq!(all[..2], [("past_vertices", 2, Some(6)), ("radius", 2, Some(8))]);
        assert_eq!(found("a.obj", "# nothing\n", Geometry::BVH), [("empty", 2, None)]);
        assert_eq!(found("a.obj", "v 1 2 3\n", Geometry::BVH), [("empty", 1, None)]);
    }

    #[test]
    fn boxes_inside_out_and_cut_vertices() {
        let head =
            "bounds mesh 1\nbox_max 1 1 1\nbox_min 0 2 0\nvertex 0.25 0.25 0.25\nvertex 0 9 0\ntriangle 0 0 1 1\n";
        let told = |kind: u8| found("a.txt", head, kind);
        assert_eq!(
            told(4),
            [("degenerate", 1, Some(6)), ("inside_out", 1, Some(2)), ("cut", 1, Some(5)), ("large", 1, Some(6))]
        );
        let endless = head.replace("vertex 0 9 0", "vertex 0 inf 0");
        assert!(found("a.txt", &endless, Geometry::PLAIN).contains(&("cut", 1, Some(5))), "an infinity is cut too");
        // Of kind 8 the box is the tree's: 0 to 0.25 and 0.25 to 9, and the vertices lie to one side of it.
        assert_eq!(told(8), [("degenerate", 1, Some(6)), ("cut", 2, Some(4)), ("large", 1, Some(6))]);
    }

    #[test]
    fn polygons_larger_than_half() {
        // Along x the box about all is 10 long: line 10 is 6 of it, line 9 is 5, which is not more than half.
        let points = "v 0 0 0\nv 5 0 0\nv 0 1 0\nv 4 9 0\nv 10 9 0\nv 4 8 0\nv 10 0 0\nv 9 1 0\n";
        let text = format!("{points}f 1 2 3\nf 4 5 6\nf 7 8 7\n");
        assert_eq!(found("a.obj", &text, Geometry::BVH), [("degenerate", 1, Some(11)), ("large", 1, Some(10))]);
    }

    /// 200,000 triangles in the time of sorting: what compares each with each takes minutes.
    #[test]
    fn many_triangles_take_no_time() {
        let wide = 317;
        let given: Vec<Vec3> = (0..wide * wide).map(|k| Vec3::new((k % wide) as f32, (k / wide) as f32, 0.0)).collect();
        let cell = |k: usize| {
            let low = k / (wide - 1) * wide + k % (wide - 1);
            [[low, low + 1, low + wide], [low + 1, low + wide + 1, low + wide]]
        };
        let corners: Vec<(usize, [usize; 3])> = (0..100_000).flat_map(cell).enumerate().collect();
        let mut origin = Origin::new("a.obj", super::super::Form::Obj);
        origin.given = given;
        let start = std::time::Instant::now();
        let triangles = Triangles::new(&origin, corners);
        let rows = [triangles.degenerate(), triangles.doubled(), triangles.non_manifold()];
        let took = start.elapsed();
        assert!(rows.iter().all(|row| row.count == 0), "{rows:?}");
        assert!(took.as_secs_f64() < 20.0, "{took:?}");
    }
}
