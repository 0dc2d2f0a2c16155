//! A mesh as our own text. The first line is `bounds mesh 1`; then, in any order, a line each:
//!
//! ```text
//! kind 8                        4 or 8; 8 where it is not said
//! margin 0.04                   0.04 where it is not said
//! center_geom 0 0 0             added to each vertex; zero where it is not said
//! transform 1 0 0 0  0 1 0 0  0 0 1 0  0 0 0 1      the identity where it is not said
//! box_min -1 -1 0               where they are not said: the box about the vertices and the centre,
//! box_max 1 1 1                 its middle, twice, and the distance from there to box_max
//! box_center 0 0 0.5
//! sphere_center 0 0 0.5
//! sphere_radius 1.5
//! material 7 0                  two words
//! vertex 0 0 1
//! triangle 0 2 1 3              its material's number, three vertices; `area 0.5` may stand behind
//! sphere 0 2 0.5                its material's number, a vertex, the radius
//! capsule 0 2 3 0.5             its material's number, two vertices, the radius
//! box 0 1 2 3 4                 its material's number, four vertices
//! cylinder 0 2 3 0.5            as a capsule
//! ```
//!
//! `#` begins a comment; a material's is its name. Numbers count from 0 in the order of the lines. Floats are decimals, `inf`, `nan`, or `0x` and the
//! eight digits of a word, so that a NaN keeps its bits; words are decimals or `0x` and digits. A number that no vertex or
//! material has is welcome: it stands for zero.

use super::computed::complete;
use super::origin::{Of, Origin};
use super::parse::{bits, lines, number, shown, whole, wrong, Said};
use super::{Form, Mesh, MARGIN};
use crate::failure::Failure;
use crate::number::{counted, float as decimal};
use bounds::{BoundMaterial, Geometry, Mat4, Polygon, Vec3};

/// The first line.
pub const FIRST_LINE: &str = "bounds mesh 1";

const EXPECTED: &str =
    "kind, margin, center_geom, transform, box_min, box_max, box_center, sphere_center, sphere_radius, \
                        material, vertex, triangle, sphere, capsule, box or cylinder";

/// The mesh of a text.
pub fn mesh(path: &str, bytes: &[u8]) -> Result<Mesh, Failure> {
    let lines = lines(path, bytes)?;
    let (first, rest) = match lines.split_first() {
        Some((first, rest)) if said(first) == FIRST_LINE => (first, rest),
        Some((first, _)) => {
            let words = format!("'{}'; expected `{FIRST_LINE}`, or an .obj with its v and f", shown(&said(first)));
            return Err(wrong(path, first.line, words));
        }
        None => {
            return Err(Failure::File(format!(
                "{path}: is empty; expected `{FIRST_LINE}`, or an .obj with its v and f"
            )))
        }
    };
    let mut geometry = Geometry::new(Geometry::BVH);
    geometry.margin = MARGIN;
    let mut mesh = Mesh { geometry, origin: Origin::new(path, Form::Text), names: Vec::new() };
    debug_assert!(first.line > 0);
    for line in rest {
        put(&mut mesh, line).map_err(|words| wrong(path, line.line, words))?;
    }
    complete(&mut mesh.geometry, &mesh.origin);
    Ok(mesh)
}

fn said(line: &Said) -> String {
    std::iter::once(line.word).chain(line.rest.iter().copied()).collect::<Vec<_>>().join(" ")
}

/// What a line says.
fn put(mesh: &mut Mesh, line: &Said) -> Result<(), String> {
    let geometry = &mut mesh.geometry;
    if let Some(of) = Of::ALL.into_iter().find(|of| of.name() == line.word) {
        if mesh.origin.bound.iter().any(|&(said, _)| said == of) {
            return Err(format!("{} is said a second time; expected it once", line.word));
        }
        mesh.origin.bound.push((of, line.line));
        return put_value(geometry, of, line);
    }
    match line.word {
        "material" => {
            let [data1, data2] = line.rest[..] else {
                return Err(format!("{} behind material; expected two", counted(line.rest.len(), "word")));
            };
            geometry.materials.push(BoundMaterial { data1: bits(data1)?, data2: bits(data2)? });
            mesh.origin.materials.push(line.line);
            mesh.names.push(line.comment.into());
        }
        "vertex" => {
            geometry.vertices.push(line.point()?);
            mesh.origin.vertices.push(line.line);
        }
        _ => {
            geometry.polygons.push(polygon(line)?);
            mesh.origin.polygons.push(line.line);
        }
    }
    Ok(())
}

fn put_value(geometry: &mut Geometry, of: Of, line: &Said) -> Result<(), String> {
    match of {
        Of::Kind => match line.rest[..] {
            [kind] => geometry.kind = whole(kind, "kind", 0, 255)? as u8,
            _ => return Err("expected kind 4 or kind 8".into()),
        },
        Of::Margin => [geometry.margin] = line.floats("one")?,
        Of::CenterGeom => geometry.center_geom = line.point()?,
        Of::Transform => geometry.transform = Mat4(line.floats("16, row by row")?),
        Of::BoxMin => geometry.box_min = line.point()?,
        Of::BoxMax => geometry.box_max = line.point()?,
        Of::BoxCenter => geometry.box_center = line.point()?,
        Of::SphereCenter => geometry.sphere_center = line.point()?,
        Of::SphereRadius => [geometry.sphere_radius] = line.floats("one")?,
    }
    Ok(())
}

/// The polygon of a line.
fn polygon(line: &Said) -> Result<Polygon, String> {
    let material = |word: &str| whole(word, "material", 0, 255).map(|n| n as u8);
    let vertex = |word: &str| whole(word, "vertex", 0, 65_535).map(|n| n as u16);
    let corner = |word: &str| whole(word, "vertex", -32_768, 65_535).map(|n| n as i16);
    let triangle = |m: &str, v: [&str; 3], area: f32| {
        Ok(Polygon::Triangle {
            material: material(m)?,
            area,
            v: [vertex(v[0])?, vertex(v[1])?, vertex(v[2])?],
            edges: [-1; 3],
        })
    };
    match (line.word, &line.rest[..]) {
        ("triangle", &[m, a, b, c]) => triangle(m, [a, b, c], 0.0),
        ("triangle", &[m, a, b, c, "area", area]) => triangle(m, [a, b, c], number(area)?),
        ("sphere", &[m, a, r]) => Ok(Polygon::Sphere { material: material(m)?, index: vertex(a)?, radius: number(r)? }),
        ("capsule", &[m, a, b, r]) => {
            Ok(Polygon::Capsule { material: material(m)?, i1: vertex(a)?, i2: vertex(b)?, radius: number(r)? })
        }
        ("cylinder", &[m, a, b, r]) => {
            Ok(Polygon::Cylinder { material: material(m)?, i1: vertex(a)?, i2: vertex(b)?, radius: number(r)? })
        }
        ("box", &[m, a, b, c, d]) => {
            Ok(Polygon::Box { material: material(m)?, i: [corner(a)?, corner(b)?, corner(c)?, corner(d)?] })
        }
        ("triangle", _) => Err("expected triangle MATERIAL A B C, and maybe area AREA".into()),
        ("sphere", _) => Err("expected sphere MATERIAL VERTEX RADIUS".into()),
        ("capsule" | "cylinder", _) => Err(format!("expected {} MATERIAL VERTEX VERTEX RADIUS", line.word)),
        ("box", _) => Err("expected box MATERIAL A B C D".into()),
        (word, _) => Err(format!("'{}'; expected {EXPECTED}", shown(word))),
    }
}

/// A float that leads back to its word: a NaN by its bits.
fn exact(x: f32) -> String {
    if x.is_nan() {
        format!("0x{:08X}", x.to_bits())
    } else {
        decimal(x)
    }
}

fn point(v: Vec3) -> String {
    [v.x, v.y, v.z].map(exact).join(" ")
}

/// The text of a geometry, from which it is read again whole. Materials that have names get them as comments.
pub fn write(geometry: &Geometry, names: &[String]) -> String {
    let value = |of: Of| match of {
        Of::Kind => geometry.kind.to_string(),
        Of::Margin => exact(geometry.margin),
        Of::CenterGeom => point(geometry.center_geom),
        Of::Transform => geometry.transform.0.map(exact).join(" "),
        Of::BoxMin => point(geometry.box_min),
        Of::BoxMax => point(geometry.box_max),
        Of::BoxCenter => point(geometry.box_center),
        Of::SphereCenter => point(geometry.sphere_center),
        Of::SphereRadius => exact(geometry.sphere_radius),
    };
    let mut text = format!("{FIRST_LINE}\n");
    text.extend(Of::ALL.map(|of| format!("{} {}\n", of.name(), value(of))));
    for (k, material) in geometry.materials.iter().enumerate() {
        let named = names.get(k).filter(|name| !name.is_empty());
        let name = named.map_or(String::new(), |name| format!(" # {}", shown(name)));
        text += &format!("material 0x{:08X} 0x{:08X}{name}\n", material.data1, material.data2);
    }
    text.extend(geometry.vertices.iter().map(|&v| format!("vertex {}\n", point(v))));
    text.extend(geometry.polygons.iter().map(|polygon| format!("{}\n", polygon_line(polygon))));
    text
}

fn polygon_line(polygon: &Polygon) -> String {
    match *polygon {
        Polygon::Triangle { material, area, v: [a, b, c], .. } => {
            let area = if area.to_bits() == 0 { String::new() } else { format!(" area {}", exact(area)) };
            format!("triangle {material} {a} {b} {c}{area}")
        }
        Polygon::Sphere { material, index, radius } => format!("sphere {material} {index} {}", exact(radius)),
        Polygon::Capsule { material, i1, i2, radius } => format!("capsule {material} {i1} {i2} {}", exact(radius)),
        Polygon::Cylinder { material, i1, i2, radius } => format!("cylinder {material} {i1} {i2} {}", exact(radius)),
        Polygon::Box { material, i: [a, b, c, d] } => format!("box {material} {a} {b} {c} {d}"),
    }
}
