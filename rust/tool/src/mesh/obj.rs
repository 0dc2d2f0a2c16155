//! A mesh as a Wavefront .obj: `v` and `f`. A face of more than three corners becomes a fan of triangles about its first. Its
//! material is the last `usemtl` before it, else the last `g`, else the last `o`; materials are numbered by first appearance,
//! from 1 on, and have the words (number, 0). The vertices are put about the middle of their box, which becomes the centre, so
//! that a stored vertex has all 16 bits. Areas are 0: they are not computed.

use super::computed::{around, complete};
use super::parse::{lines, number, shown, wrong, Said};
use super::{Form, Mesh, Origin, MARGIN};
use crate::failure::Failure;
use bounds::{BoundMaterial, Geometry, Polygon, Vec3};

/// Words that say nothing of polygons.
const PASSED: [&str; 14] = [
    "vt",
    "vn",
    "vp",
    "s",
    "l",
    "p",
    "mtllib",
    "lod",
    "bevel",
    "c_interp",
    "d_interp",
    "shadow_obj",
    "trace_obj",
    "maplib",
];

const EXPECTED: &str = "v, f, o, g, usemtl, or one of those that are passed over (vt, vn, s, mtllib, ..)";

/// Whether a file that begins with this word looks like an .obj.
pub fn begins(word: &[u8]) -> bool {
    ["v", "f", "o", "g", "usemtl"].iter().chain(&PASSED).any(|name| name.as_bytes() == word)
}

/// A face's corners by their vertices' numbers from 0, its line and its material's number.
struct Face {
    line: usize,
    corners: Vec<usize>,
    material: usize,
}

/// What was read so far.
#[derive(Default)]
struct Reading {
    vertices: Vec<(usize, Vec3)>,
    faces: Vec<Face>,
    /// Names by first appearance, with the line of the first face.
    materials: Vec<(String, usize)>,
    /// The last usemtl, g, o.
    names: [Option<String>; 3],
}

/// The mesh of an .obj.
pub fn mesh(path: &str, bytes: &[u8]) -> Result<Mesh, Failure> {
    let mut reading = Reading::default();
    for line in joined(lines(path, bytes)?) {
        reading.put(&line).map_err(|words| wrong(path, line.line, words))?;
    }
    let n = reading.vertices.len();
    for face in &reading.faces {
        if let Some(corner) = face.corners.iter().find(|&&corner| corner >= n) {
            let words = format!("vertex {} of {n}; expected 1 to {n}, or counted back from -1", corner + 1);
            return Err(wrong(path, face.line, words));
        }
    }
    Ok(reading.mesh(path))
}

/// Lines that end with `\` go on in the next one.
fn joined(lines: Vec<Said>) -> Vec<Said> {
    let mut whole: Vec<Said> = Vec::new();
    let mut open = false;
    for line in lines {
        match whole.last_mut() {
            Some(last) if open => {
                last.rest.push(line.word);
                last.rest.extend(line.rest);
            }
            _ => whole.push(line),
        }
        let last = whole.last_mut().expect("one was put");
        open = last.rest.last() == Some(&"\\");
        if open {
            last.rest.pop();
        }
    }
    whole
}

impl Reading {
    fn put(&mut self, line: &Said) -> Result<(), String> {
        let name = || Some(line.rest.join(" "));
        match line.word {
            "v" => self.vertices.push((line.line, vertex(line)?)),
            "f" => self.face(line)?,
            "usemtl" => self.names[0] = name(),
            "g" => self.names[1] = name(),
            "o" => self.names[2] = name(),
            word if PASSED.contains(&word) => (),
            word => return Err(format!("'{}'; expected {EXPECTED}", shown(word))),
        }
        Ok(())
    }

    fn face(&mut self, line: &Said) -> Result<(), String> {
        if line.rest.len() < 3 {
            return Err(format!("{} corners; expected three or more", line.rest.len()));
        }
        let corners = line.rest.iter().map(|word| corner(word, self.vertices.len())).collect::<Result<_, _>>()?;
        let name = self.names.iter().flatten().next().cloned().unwrap_or_default();
        let known = self.materials.iter().position(|(known, _)| *known == name);
        let material = known.unwrap_or_else(|| {
            self.materials.push((name, line.line));
            self.materials.len() - 1
        });
        self.faces.push(Face { line: line.line, corners, material });
        Ok(())
    }

    fn mesh(self, path: &str) -> Mesh {
        let (lines, raw): (Vec<usize>, Vec<Vec3>) = self.vertices.into_iter().unzip();
        let mut geometry = Geometry::new(Geometry::BVH);
        geometry.margin = MARGIN;
        let (min, max) = around(raw.iter().copied());
        geometry.center_geom = (min + max) * 0.5;
        geometry.vertices = raw.iter().map(|&v| v - geometry.center_geom).collect();
        let mut origin = Origin::new(path, Form::Obj);
        origin.vertices = lines;
        origin.materials = self.materials.iter().map(|&(_, line)| line).collect();
        let word = |k: usize| BoundMaterial { data1: k as u32 + 1, data2: 0 };
        geometry.materials = (0..self.materials.len()).map(word).collect();
        for face in &self.faces {
            // Numbers above 16 bits come only with more vertices than a geometry may have, which preparing refuses.
            let [first, ref rest @ ..] = face.corners[..] else { continue };
            for pair in rest.windows(2) {
                let (v, material) = ([first, pair[0], pair[1]].map(|k| k as u16), face.material as u8);
                geometry.polygons.push(Polygon::Triangle { material, area: 0.0, v, edges: [-1; 3] });
                origin.polygons.push(face.line);
            }
        }
        complete(&mut geometry, &origin);
        Mesh { geometry, origin, names: self.materials.into_iter().map(|(name, _)| name).collect() }
    }
}

/// Three numbers; a fourth (w) or three more (a colour) say nothing of the place.
fn vertex(line: &Said) -> Result<Vec3, String> {
    let n = line.rest.len();
    if !(3..=7).contains(&n) {
        return Err(format!("{n} numbers behind v; expected three: x y z"));
    }
    let [x, y, z] = [number(line.rest[0])?, number(line.rest[1])?, number(line.rest[2])?];
    Ok(Vec3::new(x, y, z))
}

/// A corner `a`, `a/b`, `a/b/c` or `a//c`: its vertex from 0. Below zero it counts back from the last one so far.
fn corner(word: &str, vertices: usize) -> Result<usize, String> {
    let wrong = || format!("corner '{}'; expected a vertex's number, or a/b/c, from 1 on or back from -1", shown(word));
    let mut parts = word.split('/');
    let number: i64 = parts.next().and_then(|first| first.parse().ok()).ok_or_else(wrong)?;
    let others: Vec<&str> = parts.collect();
    let fine = |part: &&str| part.is_empty() || part.parse::<i64>().is_ok();
    if others.len() > 2 || !others.iter().all(fine) {
        return Err(wrong());
    }
    match number {
        1.. => usize::try_from(number - 1).map_err(|_| wrong()),
        0 => Err(wrong()),
        _ => usize::try_from(number + vertices as i64)
            .map_err(|_| format!("corner '{}' counts back past the {vertices} vertices before it", shown(word))),
    }
}
