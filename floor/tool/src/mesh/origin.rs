//! Where a mesh's values stand in its file.

use super::Form;
use crate::field::mesh::on;
use crate::number::float;
use bounds::premises::Axis;
use bounds::Vec3;

/// A value of a bound beside its lists, by its name.
#[derive(Clone, Copy, Debug, PartialEq, Eq)]
pub enum Of {
    Kind,
    Margin,
    CenterGeom,
    Transform,
    BoxMin,
    BoxMax,
    BoxCenter,
    SphereCenter,
    SphereRadius,
}

impl Of {
    /// Every one, in the order in which a text is written.
    pub const ALL: [Of; 9] = [
        Of::Kind,
        Of::Margin,
        Of::CenterGeom,
        Of::Transform,
        Of::BoxMin,
        Of::BoxMax,
        Of::BoxCenter,
        Of::SphereCenter,
        Of::SphereRadius,
    ];

    /// Its word in a text.
    pub fn name(self) -> &'static str {
        match self {
            Of::Kind => "kind",
            Of::Margin => "margin",
            Of::CenterGeom => "center_geom",
            Of::Transform => "transform",
            Of::BoxMin => "box_min",
            Of::BoxMax => "box_max",
            Of::BoxCenter => "box_center",
            Of::SphereCenter => "sphere_center",
            Of::SphereRadius => "sphere_radius",
        }
    }
}

/// Which axis of a file points up. In a mesh it is z.
#[derive(Clone, Copy, Debug, Default, PartialEq, Eq)]
pub enum Up {
    #[default]
    Z,
    Y,
}

impl Up {
    /// A file's point with z up: what was forward, against z, is then y.
    pub fn turned(self, v: Vec3) -> Vec3 {
        match self {
            Up::Z => v,
            Up::Y => Vec3::new(v.x, -v.z, v.y),
        }
    }

    /// Which of a file's three numbers an axis of the mesh has, from 1.
    fn number(self, axis: Axis) -> usize {
        match (self, axis) {
            (Up::Y, Axis::Y) => 3,
            (Up::Y, Axis::Z) => 2,
            _ => axis as usize + 1,
        }
    }

    /// Its word on the command line.
    pub fn name(self) -> &'static str {
        match self {
            Up::Z => "z",
            Up::Y => "y",
        }
    }
}

/// Lines, from 1, of all that a file says, and its vertices' own numbers.
#[derive(Clone, Debug)]
pub struct Origin {
    pub file: String,
    pub form: Form,
    pub up: Up,
    /// The file is no UTF-8, and was read as Latin-1.
    pub latin_1: bool,
    /// One a vertex, a polygon, a material.
    pub vertices: Vec<usize>,
    pub polygons: Vec<usize>,
    pub materials: Vec<usize>,
    /// The vertices as the file has them, before anything moves them, and the numbers that it names them by.
    pub given: Vec<Vec3>,
    pub numbers: Vec<usize>,
    /// What is not here was not said.
    pub bound: Vec<(Of, usize)>,
    /// The text that has the lines of `bound`, where it names the file as its source.
    pub text: Option<String>,
}

impl Origin {
    pub fn new(file: &str, form: Form) -> Origin {
        let none = Vec::new;
        Origin {
            file: file.into(),
            form,
            up: Up::Z,
            latin_1: false,
            vertices: none(),
            polygons: none(),
            materials: none(),
            given: Vec::new(),
            numbers: Vec::new(),
            bound: Vec::new(),
            text: None,
        }
    }

    /// `terrain.obj, y up`: the .obj; none of our own text.
    pub fn source(&self) -> Option<String> {
        (self.form == Form::Obj).then(|| format!("{}, {} up", self.file, self.up.name()))
    }

    /// What a user should know of how the file was read.
    pub fn note(&self) -> Option<String> {
        self.latin_1.then(|| format!("{} is no UTF-8: it was read as Latin-1, each byte a letter", self.file))
    }

    fn line(&self, lines: &[usize], k: usize) -> String {
        lines.get(k).map_or_else(|| format!("not in {}", self.file), |line| format!("{} line {line}", self.file))
    }

    /// `mesh.txt line 12`.
    pub fn vertex(&self, k: usize) -> String {
        self.line(&self.vertices, k)
    }

    /// The number by which the file names a vertex: an .obj counts from 1, our own text from 0.
    pub fn number(&self, k: usize) -> usize {
        self.numbers.get(k).copied().unwrap_or(k)
    }

    /// `terrain.obj line 20, v 18: 102.5 -200.0 -4.9`: a vertex as an .obj has it. Of our own text, whose numbers are the
    /// mesh's, the line alone.
    pub fn written(&self, k: usize) -> String {
        self.source_vertex(k).unwrap_or_else(|| self.vertex(k))
    }

    /// A vertex as the .obj has it; none of our own text.
    pub fn source_vertex(&self, k: usize) -> Option<String> {
        let v = *self.given.get(k).filter(|_| self.form == Form::Obj)?;
        let place = [v.x, v.y, v.z].map(float).join(" ");
        Some(format!("{}, v {}: {place}", self.vertex(k), self.number(k)))
    }

    /// `terrain.obj line 1702, v 590 591 632`: a polygon as the .obj has it; none of our own text.
    pub fn source_polygon(&self, k: usize, corners: &[usize]) -> Option<String> {
        self.polygons.get(k).filter(|_| self.form == Form::Obj)?;
        let numbers: String = corners.iter().map(|&corner| format!(" {}", self.number(corner))).collect();
        Some(format!("{}, v{numbers}", self.polygon(k)))
    }

    /// `mesh.txt line 12, number 2`. An .obj's vertices are turned so that z is up, and put about the middle of their box:
    /// `terrain.obj line 20, v 18, number 2: -200.0, less the centre`.
    pub fn coordinate(&self, k: usize, axis: Axis) -> String {
        match self.source_coordinate(k, axis) {
            Some(source) => format!("{source}, less the centre"),
            None if k < self.vertices.len() => format!("{}, number {}", self.vertex(k), axis as usize + 1),
            None => self.vertex(k),
        }
    }

    /// A vertex' number on an axis as the .obj has it; none of our own text.
    pub fn source_coordinate(&self, k: usize, axis: Axis) -> Option<String> {
        let v = *self.given.get(k).filter(|_| self.form == Form::Obj)?;
        let nth = self.up.number(axis);
        let was = float([v.x, v.y, v.z][nth - 1]);
        let turned = match self.up {
            Up::Y if axis != Axis::X => format!(", which --up y makes {axis} {}", float(on(self.up.turned(v), axis))),
            _ => String::new(),
        };
        Some(format!("{}, v {}, number {nth}: {was}{turned}", self.vertex(k), self.number(k)))
    }

    /// `mesh.txt line 40`.
    pub fn polygon(&self, k: usize) -> String {
        self.line(&self.polygons, k)
    }

    /// `mesh.txt line 5`.
    pub fn material(&self, k: usize) -> String {
        self.line(&self.materials, k)
    }

    /// `mesh.txt line 3`, or that the file does not say it.
    pub fn of(&self, of: Of) -> String {
        let file = self.text.as_ref().unwrap_or(&self.file);
        match self.bound.iter().rev().find(|(name, _)| *name == of) {
            Some((_, line)) => format!("{file} line {line}"),
            None => format!("not in {file}"),
        }
    }
}
