//! A mesh as a Wavefront .obj: `v` and `f`. A face of more than three corners becomes a fan of triangles about its first. Its
//! material is the last `usemtl` before it, else the last `g`, else the last `o`; materials are numbered by first appearance,
//! from 1 on, and have the words (number, 0). The vertices are put about the middle of their box, which becomes the centre, so
//! that a stored vertex has all 16 bits. Areas are 0: they are not computed. Where y is up in the file, z is made so.
//!
//! [`read`] gives what the file says, of any size; [`Soup::mesh`] makes a mesh of it.

use super::computed::{centre, complete};
use super::parse::{lines, number, shown, text, wrong, Said};
use super::{Form, Mesh, Origin, Up, MARGIN};
use crate::failure::Failure;
use bounds::{BoundMaterial, Geometry, Polygon, Vec3};
use std::collections::HashMap;

/// Words that say nothing of polygons.
const PASSED: [&str; 14] = [
    "vt",
    "vn",
    "vp",
    "s",
    "l",
    "p",
    "mtllib",
    "lod",
    "bevel",
    "c_interp",
    "d_interp",
    "shadow_obj",
    "trace_obj",
    "maplib",
];

const EXPECTED: &str = "v, f, o, g, usemtl, or one of those that are passed over (vt, vn, s, mtllib, ..)";

/// Whether a file that begins with this word looks like an .obj.
pub fn begins(word: &[u8]) -> bool {
    ["v", "f", "o", "g", "usemtl"].iter().chain(&PASSED).any(|name| name.as_bytes() == word)
}

/// What an .obj says, with numbers of any size: whether a geometry may have so many is not asked here.
#[derive(Clone, Debug, Default)]
pub struct Soup {
    /// Each vertex' line, and where it lies.
    pub vertices: Vec<(usize, Vec3)>,
    /// Those of a fan have their face's line.
    pub triangles: Vec<Triangle>,
    /// Names by first appearance, with the line of the first face.
    pub materials: Vec<(String, usize)>,
    /// The file is no UTF-8.
    pub latin_1: bool,
}

/// A triangle: its face's line, the numbers of its vertices and of its material, each from 0.
#[derive(Clone, Copy, Debug, PartialEq, Eq)]
pub struct Triangle {
    pub line: usize,
    pub corners: [usize; 3],
    pub material: usize,
}

/// What was read so far.
#[derive(Default)]
struct Reading {
    soup: Soup,
    /// The number of each name that a face had.
    numbers: HashMap<String, usize>,
    /// The last usemtl, g, o.
    names: [Option<String>; 3],
    /// The number of what these come to, until one of them changes.
    material: Option<usize>,
}

/// The vertices, triangles and materials of an .obj.
pub fn read(path: &str, bytes: &[u8]) -> Result<Soup, Failure> {
    let mut reading = Reading::default();
    let read = text(path, bytes)?;
    reading.soup.latin_1 = read.latin_1;
    for line in joined(lines(&read.letters)) {
        reading.put(&line).map_err(|words| wrong(path, line.line, words))?;
    }
    let soup = reading.soup;
    let n = soup.vertices.len();
    let past = |triangle: &Triangle| triangle.corners.iter().copied().find(|&corner| corner >= n);
    match soup.triangles.iter().find_map(|triangle| Some((triangle.line, past(triangle)?))) {
        None => Ok(soup),
        Some((line, corner)) => {
            let words = format!("vertex {} of {n}; expected 1 to {n}, or counted back from -1", corner + 1);
            Err(wrong(path, line, words))
        }
    }
}

/// Lines that end with `\` go on in the next one.
fn joined(lines: Vec<Said>) -> Vec<Said> {
    let mut whole: Vec<Said> = Vec::new();
    let mut open = false;
    for line in lines {
        match whole.last_mut() {
            Some(last) if open => {
                last.rest.push(line.word);
                last.rest.extend(line.rest);
            }
            _ => whole.push(line),
        }
        let last = whole.last_mut().expect("one was put");
        open = last.rest.last() == Some(&"\\");
        if open {
            last.rest.pop();
        }
    }
    whole
}

impl Reading {
    fn put(&mut self, line: &Said) -> Result<(), String> {
        match line.word {
            "v" => self.soup.vertices.push((line.line, vertex(line)?)),
            "f" => self.face(line)?,
            "usemtl" => self.name(0, line),
            "g" => self.name(1, line),
            "o" => self.name(2, line),
            word if PASSED.contains(&word) => (),
            word => return Err(format!("'{}'; expected {EXPECTED}", shown(word))),
        }
        Ok(())
    }

    fn name(&mut self, of: usize, line: &Said) {
        self.names[of] = Some(line.rest.join(" "));
        self.material = None;
    }

    fn face(&mut self, line: &Said) -> Result<(), String> {
        if line.rest.len() < 3 {
            return Err(format!("{} corners; expected three or more", line.rest.len()));
        }
        let vertices = self.soup.vertices.len();
        let corners: Vec<usize> = line.rest.iter().map(|word| corner(word, vertices)).collect::<Result<_, _>>()?;
        let material = self.material(line.line);
        let fan = |pair: &[usize]| Triangle { line: line.line, corners: [corners[0], pair[0], pair[1]], material };
        self.soup.triangles.extend(corners[1..].windows(2).map(fan));
        Ok(())
    }

    /// The number of the material that a face on this line has.
    fn material(&mut self, line: usize) -> usize {
        if let Some(number) = self.material {
            return number;
        }
        let name = self.names.iter().flatten().next().cloned().unwrap_or_default();
        let materials = &mut self.soup.materials;
        let number = *self.numbers.entry(name).or_insert_with_key(|name| {
            materials.push((name.clone(), line));
            materials.len() - 1
        });
        self.material = Some(number);
        number
    }
}

impl Soup {
    /// Where all of it stands in its file.
    pub fn origin(&self, path: &str, up: Up) -> Origin {
        let (vertices, given) = self.vertices.iter().copied().unzip();
        Origin {
            up,
            latin_1: self.latin_1,
            numbers: (1..=self.vertices.len()).collect(),
            vertices,
            given,
            polygons: self.triangles.iter().map(|triangle| triangle.line).collect(),
            materials: self.materials.iter().map(|&(_, line)| line).collect(),
            ..Origin::new(path, Form::Obj)
        }
    }

    /// The mesh of it, its vertices turned so that z is up, and put about the middle of their box.
    pub fn mesh(self, path: &str, up: Up) -> Mesh {
        let origin = self.origin(path, up);
        let mut geometry = Geometry::new(Geometry::BVH);
        geometry.margin = MARGIN;
        let turned: Vec<Vec3> = origin.given.iter().map(|&v| up.turned(v)).collect();
        centre(&mut geometry, &turned);
        let word = |k: usize| BoundMaterial { data1: k as u32 + 1, data2: 0 };
        geometry.materials = (0..self.materials.len()).map(word).collect();
        geometry.polygons = self.triangles.iter().map(Triangle::polygon).collect();
        complete(&mut geometry, &origin);
        Mesh { geometry, origin, names: self.materials.into_iter().map(|(name, _)| name).collect() }
    }
}

impl Triangle {
    /// Numbers that 16 bits, or 8 of a material, do not hold come only with more vertices or materials than a geometry may
    /// have, which preparing refuses.
    fn polygon(&self) -> Polygon {
        let (v, material) = (self.corners.map(|k| k as u16), self.material as u8);
        Polygon::Triangle { material, area: 0.0, v, edges: [-1; 3] }
    }
}

/// Three numbers; a fourth (w) or three more (a colour) say nothing of the place.
fn vertex(line: &Said) -> Result<Vec3, String> {
    let n = line.rest.len();
    if !(3..=7).contains(&n) {
        return Err(format!("{n} numbers behind v; expected three: x y z"));
    }
    let [x, y, z] = [number(line.rest[0])?, number(line.rest[1])?, number(line.rest[2])?];
    Ok(Vec3::new(x, y, z))
}

/// A corner `a`, `a/b`, `a/b/c` or `a//c`: its vertex from 0. Below zero it counts back from the last one so far.
fn corner(word: &str, vertices: usize) -> Result<usize, String> {
    let wrong = || format!("corner '{}'; expected a vertex's number, or a/b/c, from 1 on or back from -1", shown(word));
    let mut parts = word.split('/');
    let number: i64 = parts.next().and_then(|first| first.parse().ok()).ok_or_else(wrong)?;
    let others: Vec<&str> = parts.collect();
    let fine = |part: &&str| part.is_empty() || part.parse::<i64>().is_ok();
    if others.len() > 2 || !others.iter().all(fine) {
        return Err(wrong());
    }
    match number {
        1.. => usize::try_from(number - 1).map_err(|_| wrong()),
        0 => Err(wrong()),
        _ => usize::try_from(number + vertices as i64)
            .map_err(|_| format!("corner '{}' counts back past the {vertices} vertices before it", shown(word))),
    }
}

#[cfg(test)]
mod tests {
    use super::*;
    use std::time::{Duration, Instant};

    fn soup(text: &str) -> Soup {
        read("a.obj", text.as_bytes()).expect("an .obj")
    }

    /// Each face has a name of its own, and a second face the first one's again: a search through the names before it would
    /// compare 10^10 pairs and take minutes.
    #[test]
    fn a_hundred_thousand_names_are_read_at_once() {
        const N: usize = 100_000;
        let face = |k: usize| format!("usemtl a name of some length {k}\nf 1 2 3\n");
        let text = "v 0 0 0\nv 1 0 0\nv 0 1 0\n".to_string() + &(0..2 * N).map(|k| face(k % N)).collect::<String>();
        let start = Instant::now();
        let soup = soup(&text);
        let took = start.elapsed();
        assert_eq!((soup.materials.len(), soup.triangles.len()), (N, 2 * N));
        assert_eq!((soup.triangles[N + 7].material, soup.materials[7].1), (7, 3 + 2 * 8));
        assert!(took < Duration::from_secs(30), "{took:?}");
    }

    #[test]
    fn numbers_are_not_cut() {
        let vertices: String = (0..70_000).map(|k| format!("v {k} 0 0\n")).collect();
        let soup = soup(&format!("{vertices}{}f 1 70000 -2\n", "f 1 2 3\n".repeat(40_000)));
        assert_eq!((soup.vertices.len(), soup.triangles.len()), (70_000, 40_001));
        assert_eq!(soup.triangles[40_000], Triangle { line: 110_001, corners: [0, 69_999, 69_998], material: 0 });
        assert_eq!(soup.vertices[69_999], (70_000, Vec3::new(69_999.0, 0.0, 0.0)));
        let mesh = soup.mesh("a.obj", Up::Z);
        assert_eq!((mesh.geometry.vertices.len(), mesh.geometry.polygons.len()), (70_000, 40_001));
    }

    /// One value that is no number or none that is finite takes nothing from the others: they are put about their middle.
    #[test]
    fn what_is_not_finite_has_no_part_in_the_centre() {
        let mesh = soup("v 10 0 0\nv inf nan -3\nv 14 2 -inf\nv 12 8 -5\n").mesh("a.obj", Up::Z);
        let geometry = &mesh.geometry;
        assert_eq!(geometry.center_geom, Vec3::new(12.0, 4.0, -2.5));
        assert_eq!((geometry.box_min, geometry.box_max), (Vec3::new(10.0, 0.0, -5.0), Vec3::new(14.0, 8.0, 0.0)));
        assert_eq!(
            (geometry.vertices[0], geometry.vertices[3]),
            (Vec3::new(-2.0, -4.0, 2.5), Vec3::new(0.0, 4.0, -2.5))
        );
        assert_eq!(geometry.vertices[1].x, f32::INFINITY);
        assert!(geometry.vertices[1].y.is_nan() && geometry.vertices[2].z == f32::NEG_INFINITY);
        assert_eq!((mesh.origin.given[2].z, mesh.origin.given[3].y), (f32::NEG_INFINITY, 8.0));
        assert_eq!(soup("v nan inf 1\n").mesh("a.obj", Up::Z).geometry.center_geom, Vec3::new(0.0, 0.0, 1.0));
    }
}
