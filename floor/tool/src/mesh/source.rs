//! Where the numbers of our own text came from. The text of a mesh that was an .obj says so, and its lines, vertices and numbers
//! can be named:
//!
//! ```text
//! source terrain.obj
//! up y                                                  where the file had y up
//! material 0x00000001 0x00000000 from 1645              the line of the first face that has it
//! vertex -50 -47.5 -15.3 from 20 18 102.5 -200 -4.9     its line, its number, and its own x, y, z
//! triangle 0 0 2 1 from 1702                            its face's line
//! ```
//!
//! With a source all of them say where they are from. A vertex is then what the file's numbers give, turned so that z is up,
//! less the centre; where it is not, the text was changed and its source is no longer true.

use super::parse::{number, shown, whole, wrong, Said};
use super::{Form, Mesh, Origin, Up};
use crate::failure::Failure;
use crate::number::float;
use bounds::Vec3;

/// The words before what a source gives.
pub const FROM: &str = "from";

/// What a text said of its source so far.
#[derive(Default)]
pub struct Source {
    file: Option<String>,
    up: Option<(Up, usize)>,
    vertices: Vec<Option<(usize, usize, Vec3)>>,
    polygons: Vec<Option<usize>>,
    materials: Vec<Option<usize>>,
}

impl Source {
    /// The line `source` or `up`.
    pub fn put(&mut self, line: &Said) -> Result<(), String> {
        match (line.word, &line.rest[..]) {
            ("source", &[name]) if self.file.is_none() => self.file = Some(decoded(name)?),
            ("up", &["y"]) if self.up.is_none() => self.up = Some((Up::Y, line.line)),
            ("up", &["z"]) if self.up.is_none() => self.up = Some((Up::Z, line.line)),
            ("source", [_]) | ("up", ["y" | "z"]) => {
                return Err(format!("{} is said a second time; expected it once", line.word))
            }
            ("source", _) => return Err("expected source FILE, a space in its name as %20".into()),
            _ => return Err("expected up y or up z".into()),
        }
        Ok(())
    }

    /// What stands behind `from` in a material's, a vertex' or a polygon's line; None where nothing does.
    pub fn from(&mut self, word: &str, from: Option<&[&str]>) -> Result<(), String> {
        let line = |word: &str| whole(word, "line", 1, i64::from(u32::MAX)).map(|line| line as usize);
        match (word, from) {
            ("vertex", None) => self.vertices.push(None),
            ("vertex", Some(&[at, k, x, y, z])) => {
                let k = whole(k, "vertex", 0, i64::from(u32::MAX))? as usize;
                let v = Vec3::new(number(x)?, number(y)?, number(z)?);
                self.vertices.push(Some((line(at)?, k, v)));
            }
            ("vertex", Some(_)) => return Err("expected from LINE VERTEX X Y Z".into()),
            (_, Some(&[at])) if word == "material" => self.materials.push(Some(line(at)?)),
            (_, Some(&[at])) => self.polygons.push(Some(line(at)?)),
            (_, Some(_)) => return Err("expected from LINE".into()),
            ("material", None) => self.materials.push(None),
            (_, None) => self.polygons.push(None),
        }
        Ok(())
    }

    /// Puts the source's lines and numbers in the place of the text's.
    pub fn complete(self, mesh: &mut Mesh) -> Result<(), Failure> {
        let path = mesh.origin.file.clone();
        let at = &mesh.origin;
        let lists = [(&at.materials, &self.materials), (&at.polygons, &self.polygons)];
        let vertices = self.vertices.iter().map(|from| from.map(|(line, ..)| line)).collect();
        let lists = [(&at.vertices, &vertices), lists[0], lists[1]];
        let first = |said: bool| {
            let of = |(lines, froms): (&Vec<usize>, &Vec<Option<usize>>)| {
                lines.iter().zip(froms).find(|(_, from)| from.is_some() == said).map(|(&line, _)| line)
            };
            lists.into_iter().filter_map(of).min()
        };
        let Some(file) = self.file.clone() else {
            let line = first(true).or(self.up.map(|(_, line)| line));
            let words = "says where it is from, and no line says `source FILE`";
            return line.map_or(Ok(()), |line| Err(wrong(&path, line, words)));
        };
        if let Some(line) = first(false) {
            let words =
                format!("has no `{FROM}`: with a source each material, vertex and polygon says where it is from");
            return Err(wrong(&path, line, words));
        }
        self.agrees(mesh)?;
        let up = self.up.map_or(Up::Z, |(up, _)| up);
        let froms: Vec<(usize, usize, Vec3)> = self.vertices.into_iter().flatten().collect();
        mesh.origin = Origin {
            up,
            vertices: froms.iter().map(|&(line, ..)| line).collect(),
            numbers: froms.iter().map(|&(_, k, _)| k).collect(),
            given: froms.iter().map(|&(.., v)| v).collect(),
            polygons: self.polygons.into_iter().flatten().collect(),
            materials: self.materials.into_iter().flatten().collect(),
            bound: mesh.origin.bound.clone(),
            latin_1: mesh.origin.latin_1,
            text: Some(path),
            ..Origin::new(&file, Form::Obj)
        };
        Ok(())
    }

    /// Every vertex is what its source's numbers give.
    fn agrees(&self, mesh: &Mesh) -> Result<(), Failure> {
        let up = self.up.map_or(Up::Z, |(up, _)| up);
        let same = |a: Vec3, b: Vec3| {
            let axes = [(a.x, b.x), (a.y, b.y), (a.z, b.z)];
            axes.into_iter().all(|(a, b)| a.to_bits() == b.to_bits() || a.is_nan() && b.is_nan())
        };
        let vertices = mesh.geometry.vertices.iter().zip(self.vertices.iter().flatten());
        for (k, (&v, &(.., given))) in vertices.enumerate() {
            let made = up.turned(given) - mesh.geometry.center_geom;
            if !same(v, made) {
                let made = [made.x, made.y, made.z].map(float).join(" ");
                let words =
                    format!("its `{FROM}` gives vertex {made}; change both, or take out `source` and every `{FROM}`");
                return Err(wrong(&mesh.origin.file, mesh.origin.vertices[k], words));
            }
        }
        Ok(())
    }
}

/// The lines `source` and `up` of a mesh that has a source.
pub fn heading(origin: &Origin) -> String {
    let file = std::path::Path::new(&origin.file).file_name();
    let name = file.map_or_else(|| origin.file.clone(), |name| name.to_string_lossy().into_owned());
    let up = if origin.up == Up::Y { "up y\n" } else { "" };
    format!("source {}\n{up}", encoded(&name))
}

/// Letters that a word of a text cannot have, as `%` and the two digits of each byte.
fn encoded(name: &str) -> String {
    let odd = |c: char| c.is_whitespace() || c.is_control() || matches!(c, '#' | '%');
    let letter = |c: char| match odd(c) {
        true => c.to_string().bytes().map(|byte| format!("%{byte:02X}")).collect(),
        false => c.to_string(),
    };
    name.chars().map(letter).collect()
}

fn decoded(name: &str) -> Result<String, String> {
    let mut parts = name.split('%');
    let mut bytes = parts.next().unwrap_or_default().as_bytes().to_vec();
    for part in parts {
        let byte = part.get(..2).and_then(|digits| u8::from_str_radix(digits, 16).ok());
        bytes.push(byte.ok_or_else(|| format!("'{}': expected % and two digits", shown(name)))?);
        bytes.extend(&part.as_bytes()[2..]);
    }
    String::from_utf8(bytes).map_err(|_| format!("'{}' is no name in UTF-8", shown(name)))
}

#[cfg(test)]
mod tests {
    use super::super::{text, Given};
    use super::*;

    /// A house far from the origin, one value of it endless and one no number.
    const OBJ: &str =
        "# a house\nv 1e7 0.1 -3\nusemtl a wall\nv 10000002.5 8 0.3\nv 9.5 inf 0.7\nf 1 2 3\nv 1 nan 2\nv 3 4 5\n\
                       usemtl roof\nf 2 3 4 5\n";

    fn read(path: &str, text: &str, up: Option<Up>) -> Result<Mesh, Failure> {
        Mesh::of_bytes(path, text.as_bytes(), Given { up, ..Given::default() })
    }

    /// What a folder keeps of an .obj: its name without where it lay, which axis was up, every line and every number, by its bits.
    #[test]
    fn a_source_is_kept_and_read_again() {
        for up in [Up::Z, Up::Y] {
            let mesh = read("somewhere/my house #2 (100%).obj", OBJ, Some(up)).expect("an .obj");
            let kept = text::write(&mesh);
            let again = read("house/mesh.txt", &kept, None).expect("our own text");
            assert_eq!(text::write(&again), kept, "and once more");
            let (was, is) = (&mesh.origin, &again.origin);
            assert_eq!((is.file.as_str(), is.form, is.up), ("my house #2 (100%).obj", Form::Obj, up));
            assert_eq!((&is.vertices, &is.numbers), (&vec![2, 4, 5, 7, 8], &vec![1, 2, 3, 4, 5]));
            assert_eq!((&is.polygons, &is.materials), (&vec![6, 10, 10], &vec![6, 10]));
            let bits = |of: &[Vec3]| of.iter().map(|v| [v.x, v.y, v.z].map(f32::to_bits)).collect::<Vec<_>>();
            assert_eq!(bits(&is.given), bits(&was.given));
            assert_eq!(bits(&again.geometry.vertices), bits(&mesh.geometry.vertices));
            assert_eq!(
                is.of(super::super::Of::Margin),
                "house/mesh.txt line 4".replace('4', if up == Up::Y { "5" } else { "4" })
            );
        }
    }

    #[test]
    fn a_vertex_is_told_as_its_file_has_it() {
        let z = read("a.obj", OBJ, None).expect("an .obj").origin;
        assert_eq!(z.written(1), "a.obj line 4, v 2: 10000002.0 8.0 0.3");
        let axis = bounds::premises::Axis::Z;
        assert_eq!(z.coordinate(1, axis), "a.obj line 4, v 2, number 3: 0.3, less the centre");
        assert_eq!(z.source_polygon(1, &[1, 2, 3]).as_deref(), Some("a.obj line 10, v 2 3 4"));
        let y = read("a.obj", OBJ, Some(Up::Y)).expect("an .obj").origin;
        assert_eq!(
            y.coordinate(1, axis),
            "a.obj line 4, v 2, number 2: 8.0, which --up y makes z 8.0, less the centre"
        );
        let axis = bounds::premises::Axis::Y;
        assert_eq!(
            y.coordinate(1, axis),
            "a.obj line 4, v 2, number 3: 0.3, which --up y makes y -0.3, less the centre"
        );
    }

    /// A text whose source is not true of it, or is said in part, is refused by its line.
    #[test]
    fn a_source_that_is_not_true_is_refused() {
        let kept = text::write(&read("a.obj", OBJ, None).expect("an .obj"));
        let refused = |from: &str, to: &str| {
            assert!(kept.contains(from), "{from} is not in {kept}");
            match read("a.txt", &kept.replacen(from, to, 1), None) {
                Err(Failure::File(words)) => words,
                other => panic!("{from}, {to}: {other:?}"),
            }
        };
        let cases = [
            ("source a.obj\n", "", "line 11: says where it is from, and no line says `source FILE`"),
            (
                "source a.obj\n",
                "source a.obj\nsource b.obj\n",
                "line 3: source is said a second time; expected it once",
            ),
            ("source a.obj\n", "source\n", "line 2: expected source FILE, a space in its name as %20"),
            ("source a.obj\n", "source a%2.obj\n", "line 2: 'a%2.obj': expected % and two digits"),
            ("source a.obj\n", "source a.obj\nup x\n", "line 3: expected up y or up z"),
            (
                " from 4 2 ",
                " # ",
                "line 15: has no `from`: with a source each material, vertex and polygon says where it is from",
            ),
            (" from 4 2 ", " from ", "line 15: expected from LINE VERTEX X Y Z"),
            (" from 4 2 ", " from 0 2 ", "line 15: line '0': expected a number from 1 to 4294967295"),
            ("triangle 0 0 1 2 from 6", "triangle 0 0 1 2", "line 19: has no `from`"),
            ("triangle 0 0 1 2 from 6", "triangle 0 0 1 2 from 6 7", "line 19: expected from LINE"),
            ("8.0 0.3\n", "8.0 0.25\n", "line 15: its `from` gives vertex 5000000.5 "),
        ];
        for (from, to, words) in cases {
            let said = refused(from, to);
            assert!(said.starts_with(&format!("a.txt, {words}")), "{said}");
        }
        let words = refused("source a.obj\n", "source a.obj\nup y\n");
        assert!(words.starts_with("a.txt, line 15: its `from` gives vertex"), "{words}");
    }
}
