//! Where a mesh's values stand in its file.

use super::Form;
use crate::field::AXES;
use bounds::premises::Axis;

/// A value of a bound beside its lists, by its name.
#[derive(Clone, Copy, Debug, PartialEq, Eq)]
pub enum Of {
    Kind,
    Margin,
    CenterGeom,
    Transform,
    BoxMin,
    BoxMax,
    BoxCenter,
    SphereCenter,
    SphereRadius,
}

impl Of {
    /// Every one, in the order in which a text is written.
    pub const ALL: [Of; 9] = [
        Of::Kind,
        Of::Margin,
        Of::CenterGeom,
        Of::Transform,
        Of::BoxMin,
        Of::BoxMax,
        Of::BoxCenter,
        Of::SphereCenter,
        Of::SphereRadius,
    ];

    /// Its word in a text.
    pub fn name(self) -> &'static str {
        match self {
            Of::Kind => "kind",
            Of::Margin => "margin",
            Of::CenterGeom => "center_geom",
            Of::Transform => "transform",
            Of::BoxMin => "box_min",
            Of::BoxMax => "box_max",
            Of::BoxCenter => "box_center",
            Of::SphereCenter => "sphere_center",
            Of::SphereRadius => "sphere_radius",
        }
    }
}

/// Lines, from 1, of all that a file says.
#[derive(Clone, Debug)]
pub struct Origin {
    pub file: String,
    pub form: Form,
    /// One a vertex, a polygon, a material.
    pub vertices: Vec<usize>,
    pub polygons: Vec<usize>,
    pub materials: Vec<usize>,
    /// What is not here was not said.
    pub bound: Vec<(Of, usize)>,
}

impl Origin {
    pub fn new(file: &str, form: Form) -> Origin {
        let none = Vec::new;
        Origin { file: file.into(), form, vertices: none(), polygons: none(), materials: none(), bound: Vec::new() }
    }

    fn line(&self, lines: &[usize], k: usize) -> String {
        lines.get(k).map_or_else(|| format!("not in {}", self.file), |line| format!("{} line {line}", self.file))
    }

    /// `mesh.txt line 12`.
    pub fn vertex(&self, k: usize) -> String {
        self.line(&self.vertices, k)
    }

    /// `mesh.txt line 12, number 2`. An .obj's vertices are put about the middle of their box.
    pub fn coordinate(&self, k: usize, axis: Axis) -> String {
        let nth = AXES.iter().position(|&a| a == axis).unwrap_or(0) + 1;
        let moved = if self.form == Form::Obj { ", less the centre" } else { "" };
        match self.vertices.get(k) {
            Some(_) => format!("{}, number {nth}{moved}", self.vertex(k)),
            None => self.vertex(k),
        }
    }

    /// `mesh.txt line 40`.
    pub fn polygon(&self, k: usize) -> String {
        self.line(&self.polygons, k)
    }

    /// `mesh.txt line 5`.
    pub fn material(&self, k: usize) -> String {
        self.line(&self.materials, k)
    }

    /// `mesh.txt line 3`, or that the file does not say it.
    pub fn of(&self, of: Of) -> String {
        match self.bound.iter().rev().find(|(name, _)| *name == of) {
            Some((_, line)) => format!("{} line {line}", self.file),
            None => format!("not in {}", self.file),
        }
    }
}
