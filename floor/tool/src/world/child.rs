//! A child of a world: the polygons of a part as a mesh of its own, with the vertices that they name, each once, the materials
//! that they use, and a centre of its own.

use super::{Piece, World};
use crate::mesh::computed::{centre, complete};
use crate::mesh::{Mesh, Of, Origin};
use bounds::{Geometry, Polygon};

/// The mesh of a part. Vertices and materials keep the order that they have in the world, and materials their words.
pub fn child(world: &World, part: &[u32]) -> Mesh {
    let pieces: Vec<&Piece> = part.iter().map(|&k| &world.pieces[k as usize]).collect();
    let vertices = named(pieces.iter().flat_map(|piece| piece.corners), world.vertices.len());
    let materials = named(pieces.iter().map(|piece| piece.material), world.materials.len());
    let mut geometry = Geometry::new(world.kind);
    geometry.margin = world.margin;
    geometry.transform = world.transform;
    geometry.materials = picked(&world.materials, &materials);
    geometry.polygons = pieces.iter().map(|piece| polygon(piece, &vertices, &materials)).collect();
    centre(&mut geometry, &picked(&world.vertices, &vertices));
    let origin = origin(&world.origin, part, &vertices, &materials);
    complete(&mut geometry, &origin);
    Mesh { geometry, origin, names: picked(&world.names, &materials) }
}

/// The numbers that are there, rising, each once.
fn named(numbers: impl Iterator<Item = u32>, count: usize) -> Vec<u32> {
    let mut named: Vec<u32> = numbers.filter(|&number| (number as usize) < count).collect();
    named.sort_unstable();
    named.dedup();
    named
}

fn picked<T: Clone>(from: &[T], numbers: &[u32]) -> Vec<T> {
    numbers.iter().map(|&number| from[number as usize].clone()).collect()
}

/// A piece by its child's numbers. What is not there in the world gets the number behind the child's last.
fn polygon(piece: &Piece, vertices: &[u32], materials: &[u32]) -> Polygon {
    let place = |list: &[u32], number: u32| list.binary_search(&number).unwrap_or(list.len());
    let corners @ [a, b, ..] = piece.corners.map(|corner| place(vertices, corner) as u16);
    let material = place(materials, piece.material) as u8;
    match piece.shape {
        Polygon::Triangle { area, v, edges, .. } => {
            let flagged = |k: usize| corners[k] | v[k] & 0x8000;
            Polygon::Triangle { material, area, v: [0, 1, 2].map(flagged), edges }
        }
        Polygon::Sphere { radius, .. } => Polygon::Sphere { material, index: a, radius },
        Polygon::Capsule { radius, .. } => Polygon::Capsule { material, i1: a, i2: b, radius },
        Polygon::Cylinder { radius, .. } => Polygon::Cylinder { material, i1: a, i2: b, radius },
        Polygon::Box { .. } => Polygon::Box { material, i: corners.map(|corner| corner as i16) },
    }
}

/// The lines of the world's file. Box, centres and radius are the child's own, whatever the file says of them.
fn origin(of: &Origin, part: &[u32], vertices: &[u32], materials: &[u32]) -> Origin {
    let bound =
        of.bound.iter().filter(|(of, _)| matches!(of, Of::Kind | Of::Margin | Of::Transform)).copied().collect();
    Origin {
        up: of.up,
        latin_1: of.latin_1,
        vertices: picked(&of.vertices, vertices),
        given: picked(&of.given, vertices),
        numbers: vertices.iter().map(|&k| of.number(k as usize)).collect(),
        polygons: picked(&of.polygons, part),
        materials: picked(&of.materials, materials),
        bound,
        text: of.text.clone(),
        ..Origin::new(&of.file, of.form)
    }
}

#[cfg(test)]
mod tests {
    use super::*;
    use crate::mesh::state::corners;
    use crate::mesh::{Form, Given};
    use crate::world::cut::{parts, Limits};
    use crate::world::source::Source;
    use bounds::{BoundMaterial, Vec3};

    fn world(path: &str, text: &str) -> World {
        Source::of_bytes(path, text.as_bytes(), None).expect("a mesh").0.world(path, Given::default()).expect("a world")
    }

    /// What a polygon is beside its numbers: its kind, radius or area as words, and a triangle's flags.
    fn shape(polygon: &Polygon) -> (u8, u32, [u16; 3]) {
        match *polygon {
            Polygon::Triangle { area, v, .. } => (0, area.to_bits(), v.map(|v| v & 0x8000)),
            Polygon::Sphere { radius, .. } => (1, radius.to_bits(), [0; 3]),
            Polygon::Capsule { radius, .. } => (2, radius.to_bits(), [0; 3]),
            Polygon::Box { .. } => (3, 0, [0; 3]),
            Polygon::Cylinder { radius, .. } => (4, radius.to_bits(), [0; 3]),
        }
    }

    /// Every kind of polygon, with flags, radii, areas, a vertex and a material that are not there, a centre and a transform.
    fn every_kind(n: usize) -> String {
        let mut text = String::from("bounds mesh 1\nkind 4\nmargin 0.5\ncenter_geom 100 -50 2\nbox_min 0 0 0\n");
        text += "transform 0 1 0 0 -1 0 0 0 0 0 1 0 5 6 7 1\n";
        text.extend((0..9).map(|k| format!("material {} {}\n", 100 + k, k)));
        for k in 0..n {
            let (a, b, c) = (k % 90, (k + 1) % 90, (k + 2) % 90);
            text += &format!("vertex {} {} {}\n", k % 10, k / 10, 0.25 * (k % 7) as f32);
            text += &match k % 6 {
                0 => format!("triangle {} {} {b} {c} area {k}\n", k % 9, a + 32_768),
                1 => format!("sphere {} {a} {k}.5\n", k % 9),
                2 => format!("capsule {} {a} {b} {k}.25\n", k % 9),
                3 => format!("box {} {a} {b} {c} {}\n", k % 9, (k + 3) % 90),
                4 => format!("cylinder {} {a} {b} {k}.125\n", k % 11),
                _ => format!("triangle {} {a} {b} 30000\n", k % 9),
            };
        }
        text
    }

    #[test]
    fn children_have_the_polygons_that_the_world_has() {
        let text = every_kind(90);
        let whole = world("a.txt", &text);
        let limits = Limits { polygons: 20, vertices: 40, materials: 255 };
        let parts = parts(&whole.pieces, &whole.vertices, limits);
        assert!(parts.len() > 4);
        for part in &parts {
            let Mesh { geometry, origin, .. } = child(&whole, part);
            assert_eq!((geometry.kind, geometry.margin, geometry.transform), (4, 0.5, whole.transform));
            assert_eq!((geometry.polygons.len(), origin.form), (part.len(), Form::Text));
            assert!(geometry.vertices.len() <= limits.vertices);
            let mut named: Vec<usize> = geometry.polygons.iter().flat_map(corners).collect();
            named.sort_unstable();
            named.dedup();
            named.retain(|&k| k < geometry.vertices.len());
            assert!(named.into_iter().eq(0..geometry.vertices.len()), "a vertex that no polygon names");
            for (polygon, &k) in geometry.polygons.iter().zip(part) {
                let piece = &whole.pieces[k as usize];
                assert_eq!(shape(polygon), shape(&piece.shape));
                assert_eq!(origin.polygons[0], whole.origin.polygons[part[0] as usize]);
                for (mine, theirs) in corners(polygon).into_iter().zip(piece.corners) {
                    let stands = geometry.vertices.get(mine).map(|&v| v + geometry.center_geom);
                    assert_eq!(stands, whole.vertices.get(theirs as usize).copied(), "polygon {k}");
                }
                let mine = geometry.materials.get(polygon.material() as usize).copied();
                assert_eq!(mine, whole.materials.get(piece.material as usize).copied());
            }
        }
    }

    /// The box is the child's own, about its middle, though the file says another; lines and names are the world's.
    #[test]
    fn a_child_has_a_centre_of_its_own() {
        let whole = world("a.txt", &every_kind(90));
        let Mesh { geometry, origin, .. } = child(&whole, &[1]); // a sphere at vertex 1, which is 1 0 0.25
        let place = Vec3::new(101.0, -50.0, 2.25);
        assert_eq!((geometry.center_geom, geometry.vertices[0]), (place, Vec3::ZERO));
        assert_eq!((geometry.box_min, geometry.box_max), (place, place));
        assert_eq!(geometry.materials, [BoundMaterial { data1: 101, data2: 1 }]);
        assert_eq!((origin.vertices, origin.given[0]), (vec![18], Vec3::new(1.0, 0.0, 0.25)));

        let whole = world("a.obj", "v 0 0 0\nv 4 0 0\nv 0 4 0\nv 9 9 9\nusemtl a\nf 1 2 3\nusemtl b\nf 2 3 4\n");
        let Mesh { geometry, origin, names } = child(&whole, &[1]);
        assert_eq!((geometry.center_geom, geometry.vertices.len()), (Vec3::new(4.5, 4.5, 4.5), 3));
        assert_eq!((geometry.materials[0].data1, names), (2, vec!["b".to_string()]));
        assert_eq!((origin.vertices, origin.polygons, origin.materials), (vec![2, 3, 4], vec![8], vec![8]));
    }

    /// A child's text names the world's lines and numbers, and is read again with a centre of its own.
    #[test]
    fn a_child_keeps_where_it_came_from() {
        let text =
            "v 1e7 0.1 0\nv 1e7 1.1 0\nv 10000001 0.1 0\nf 1 2 3\nv 0.3 0.7 5\nv 0.5 0.7 5\nv 0.3 0.9 5\nf 4 5 6\n";
        for path in ["far.obj", "far/mesh.txt"] {
            let world = match path {
                "far.obj" => world(path, text),
                _ => {
                    let whole = Mesh::of_bytes("far.obj", text.as_bytes(), Given::default()).expect("an .obj");
                    world(path, &crate::mesh::text::write(&whole))
                }
            };
            let kept = crate::mesh::text::write(&child(&world, &[1]));
            let again = Mesh::of_bytes("far/1/mesh.txt", kept.as_bytes(), Given::default()).expect("our own text");
            let origin = &again.origin;
            assert_eq!((origin.file.as_str(), &origin.numbers), ("far.obj", &vec![4, 5, 6]), "{path}");
            assert_eq!((&origin.vertices, &origin.polygons), (&vec![5, 6, 7], &vec![8]), "{path}");
            assert_eq!((origin.given[0], again.geometry.center_geom.x), (Vec3::new(0.3, 0.7, 5.0), 0.4), "{path}");
        }
    }
}
