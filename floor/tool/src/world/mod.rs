//! A world: a mesh of any size, cut by place into children that are each within the limits of one mesh, and prepared as a
//! composite.
//!
//! In the order in which it passes: [`source`] takes a file whole, [`merge`] makes one of materials that are to be one, [`cut`] says which polygon goes into which child, [`child`] makes each child's mesh, [`split`] prepares and writes them on
//! all processors, and [`folder`] is what lies on the disk, read again by the other commands.

pub mod child;
pub mod cut;
pub mod folder;
pub mod merge;
pub mod source;
pub mod split;

use crate::mesh::state::corners;
use crate::mesh::{obj, Mesh, Origin, Up, MARGIN};
use bounds::{BoundMaterial, Geometry, Mat4, Polygon, Vec3};

/// A polygon of a world, by numbers of any size.
#[derive(Clone, Copy, Debug)]
pub struct Piece {
    /// Its vertices; one that has fewer than four names its last again.
    pub corners: [u32; 4],
    /// Its material; the number behind the last for one that is not there.
    pub material: u32,
    /// Its kind, radius or area, and a triangle's flags; the numbers in it are cut, and not looked at.
    pub shape: Polygon,
}

/// A mesh of any size, as a file has it.
#[derive(Clone, Debug)]
pub struct World {
    pub kind: u8,
    pub margin: f32,
    pub transform: Mat4,
    /// Where the vertices lie before the transform: about no centre.
    pub vertices: Vec<Vec3>,
    pub pieces: Vec<Piece>,
    pub materials: Vec<BoundMaterial>,
    /// The materials' names; empty for one that has none.
    pub names: Vec<String>,
    pub origin: Origin,
}

impl World {
    fn of_soup(path: &str, soup: obj::Soup, up: Up) -> World {
        let origin = soup.origin(path, up);
        let shape = Polygon::Triangle { material: 0, area: 0.0, v: [0; 3], edges: [-1; 3] };
        let piece = |triangle: &obj::Triangle| {
            let [a, b, c] = triangle.corners.map(|corner| corner as u32);
            Piece { corners: [a, b, c, c], material: triangle.material as u32, shape }
        };
        World {
            kind: Geometry::BVH,
            margin: MARGIN,
            transform: Mat4::identity(),
            vertices: origin.given.iter().map(|&v| up.turned(v)).collect(),
            pieces: soup.triangles.iter().map(piece).collect(),
            materials: (1..=soup.materials.len() as u32).map(|data1| BoundMaterial { data1, data2: 0 }).collect(),
            names: soup.materials.into_iter().map(|(name, _)| name).collect(),
            origin,
        }
    }

    fn of_mesh(mesh: Mesh) -> World {
        let obj = mesh.is_obj();
        let Mesh { geometry, origin, names } = mesh;
        // Of an .obj the file's own numbers: about the centre and back some are rounded.
        let vertices = match obj {
            true => origin.given.iter().map(|&v| origin.up.turned(v)).collect(),
            false => geometry.vertices.iter().map(|&v| v + geometry.center_geom).collect(),
        };
        let materials = geometry.materials.len() as u32;
        let piece = |polygon: &Polygon| {
            let named = corners(polygon);
            let corner = |k: usize| named[k.min(named.len() - 1)] as u32;
            let material = (polygon.material() as u32).min(materials);
            Piece { corners: [0, 1, 2, 3].map(corner), material, shape: *polygon }
        };
        World {
            kind: geometry.kind,
            margin: geometry.margin,
            transform: geometry.transform,
            vertices,
            pieces: geometry.polygons.iter().map(piece).collect(),
            materials: geometry.materials,
            names,
            origin,
        }
    }
}
