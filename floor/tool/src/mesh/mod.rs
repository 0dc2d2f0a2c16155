//! A mesh: its polygons, vertices and materials as a file has them, and what the library prepares of them as a folder.

mod account;
mod bytes;
pub(crate) mod computed;
mod finite;
mod folder;
mod listing;
pub(crate) mod obj;
mod origin;
pub(crate) mod parse;
mod place;
mod report;
pub mod rounded;
mod shrunk;
mod source;
pub mod state;
pub mod text;

pub use account::{account, MeshAccount};
pub use bytes::Parts;
pub use finite::NotFinite;
pub use folder::{vertices, MeshFolder};
pub use origin::{Of, Origin, Up};
pub use place::{place_of, rules_of};
pub use report::Report;
pub use shrunk::Shrunk;

use crate::boxes::read_file;
use crate::failure::Failure;
use crate::world::source::Source;
use bounds::{polygon_items, BvhItem, Geometry, Polygon, Refusal, Vec3};

/// The margin of an .obj, and of a text that gives none.
pub const MARGIN: f32 = 0.04;

/// A mesh as a file has it. The polygons' links, which no file gives, are -1: preparing makes them.
#[derive(Clone, Debug)]
pub struct Mesh {
    pub geometry: Geometry,
    pub origin: Origin,
    /// The materials' names; empty for one that has none.
    pub names: Vec<String>,
}

/// How a file's mesh is written.
#[derive(Clone, Copy, Debug, PartialEq, Eq)]
pub enum Form {
    /// Wavefront .obj.
    Obj,
    /// Our own, see [`text`].
    Text,
}

/// What the command line says of a mesh: it goes before what its file says.
#[derive(Clone, Copy, Debug, Default, PartialEq)]
pub struct Given {
    pub kind: Option<u8>,
    pub margin: Option<f32>,
    /// Of an .obj; our own text has z up.
    pub up: Option<Up>,
}

impl Given {
    /// Which axis is up in a file that is written so.
    pub fn up(&self, path: &str, form: Form) -> Result<Up, Failure> {
        match (form, self.up.unwrap_or_default()) {
            (Form::Text, Up::Y) => {
                let words = format!("{path} is our own text, in which z is up: leave out --up y, which is for an .obj");
                Err(Failure::Usage(words))
            }
            (_, up) => Ok(up),
        }
    }
}

impl Mesh {
    /// Whether it came from an .obj, whose vertices are put about a centre: then or before, in the text of its folder.
    pub fn is_obj(&self) -> bool {
        self.origin.form == Form::Obj
    }

    /// The mesh of a file, or of standard input for `-`.
    pub fn read(path: &str, given: Given) -> Result<Mesh, Failure> {
        Mesh::of_bytes(path, &read_file(path)?, given)
    }

    /// The mesh of a file's bytes. One that is neither begun as our own nor looks like an .obj is taken for our own.
    pub fn of_bytes(path: &str, bytes: &[u8], given: Given) -> Result<Mesh, Failure> {
        Source::of_bytes(path, bytes, None)?.0.mesh(path, given)
    }
}

/// Whether a file holds a mesh, and how it is written: by its name, or by the first word that it says.
pub fn form(path: &str, bytes: &[u8]) -> Option<Form> {
    let first = parse::unmarked(bytes)
        .split(|&b| b == b'\n')
        .map(|line| line.trim_ascii())
        .find(|line| !line.is_empty() && line[0] != b'#');
    let word = |line: &[u8]| line.split(u8::is_ascii_whitespace).next().map(<[u8]>::to_vec).unwrap_or_default();
    match first {
        Some(line) if line.starts_with(text::FIRST_LINE.as_bytes()) => Some(Form::Text),
        _ if path.to_ascii_lowercase().ends_with(".obj") => Some(Form::Obj),
        Some(line) if obj::begins(&word(line)) => Some(Form::Obj),
        _ => None,
    }
}

/// The boxes of a geometry's polygons (G9), over vertices that stand elsewhere.
pub fn items_over(geometry: &Geometry, vertices: &[Vec3]) -> Result<Vec<BvhItem>, Refusal> {
    let records: Vec<u8> = geometry.polygons.iter().flat_map(Polygon::to_bytes).collect();
    let mut items = vec![BvhItem::ABSENT; geometry.polygons.len()];
    polygon_items(&records, items.len(), vertices, &mut items)?;
    Ok(items)
}

#[cfg(test)]
mod tests {
    use super::*;
    use bounds::{Polygon, Vec3};

    fn read(path: &str, text: &str) -> Mesh {
        Mesh::of_bytes(path, text.as_bytes(), Given::default()).expect("a mesh")
    }

    #[test]
    fn an_obj_becomes_triangles_about_a_centre() {
        let text = "o house\nv 10 0 0\nv 12 0 0 1.0\nv 12 2 0 0.5 0.5 0.5\nv 10 2 4\nvn 0 0 1\n\
                    f 1//1 2//1 3//1 4//1\nusemtl roof\nf -4/1 -1/2 \\\n-2/3\ng wall\nf 1 2 4\n";
        let Mesh { geometry, origin, names } = read("a.obj", text);
        assert_eq!((geometry.kind, geometry.margin), (Geometry::BVH, MARGIN));
        assert_eq!(
            (geometry.center_geom, geometry.vertices[0]),
            (Vec3::new(11.0, 1.0, 2.0), Vec3::new(-1.0, -1.0, -2.0))
        );
        assert_eq!((geometry.box_min, geometry.box_max), (Vec3::new(10.0, 0.0, 0.0), Vec3::new(12.0, 2.0, 4.0)));
        let corners: Vec<(u8, [u16; 3])> = geometry
            .polygons
            .iter()
            .map(|polygon| match polygon {
                Polygon::Triangle { material, v, .. } => (*material, *v),
                _ => panic!("a triangle"),
            })
            .collect();
        assert_eq!(corners, [(0, [0, 1, 2]), (0, [0, 2, 3]), (1, [0, 3, 2]), (1, [0, 1, 3])]);
        assert_eq!((names, geometry.materials[1].data1), (vec!["house".to_string(), "roof".into()], 2));
        assert_eq!((origin.polygons, origin.vertices[2]), (vec![7, 7, 9, 12], 4));
        assert_eq!((origin.given.len(), origin.given[3]), (4, Vec3::new(10.0, 2.0, 4.0)));
    }

    #[test]
    fn a_text_is_read_again_whole() {
        let text = "bounds mesh 1\nkind 4\nmargin -0.0\nmaterial 1 2 # rock\nmaterial 0xFFFFFFFF 3\n\
                    vertex 0x7FA00001 -inf 1e-45\nvertex 1 2 3\nbox_max nan inf 3\nsphere_radius 0xFFC00002\n\
                    triangle 1 0 65535 1 area 0x7F800001\nsphere 0 1 nan\ncapsule 255 0 1 -1\nbox 0 -1 -32768 65535 0\ncylinder 0 1 1 inf\n";
        let mesh = read("a.txt", text);
        let again = read("b.txt", &text::write(&mesh));
        assert_eq!(text::write(&mesh), text::write(&again));
        assert_eq!(
            (again.geometry.vertices[0].x.to_bits(), again.names),
            (0x7FA0_0001, vec!["rock".to_string(), String::new()])
        );
        assert_eq!(again.geometry.sphere_radius.to_bits(), 0xFFC0_0002);
        assert_eq!((mesh.origin.given.len(), mesh.origin.given[1]), (2, Vec3::new(1.0, 2.0, 3.0)));
        assert!(matches!(again.geometry.polygons[3], Polygon::Box { i: [-1, -32_768, -1, 0], .. }));
    }

    #[test]
    fn meshes_are_told_from_boxes() {
        assert_eq!(form("a.txt", b"# x\n\n  bounds mesh 1\n"), Some(Form::Text));
        assert_eq!(form("a.OBJ", b""), Some(Form::Obj));
        assert_eq!(form("-", b"# x\nv 1 2 3\n"), Some(Form::Obj));
        assert_eq!(form("a.txt", b"0 0 0 1 1 1\n"), None);
        assert_eq!(form("a.bin", &[0; 64]), None);
    }
}
