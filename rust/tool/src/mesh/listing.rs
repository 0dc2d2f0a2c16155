//! A prepared mesh as text, a line a record: what people compare.

use super::folder::MeshFolder;
use crate::number::float;
use bounds::{BoundVertex, Polygon, Vec3};

fn point(v: Vec3) -> String {
    [v.x, v.y, v.z].map(float).join(" ")
}

impl MeshFolder {
    /// The listing.
    pub fn listing(&self) -> String {
        let p = &self.prepared;
        let mut text = format!("bound {}\n", self.parts.kind);
        let points = [
            ("quantum", p.quantum),
            ("box_min", p.box_min),
            ("box_max", p.box_max),
            ("box_center", p.box_center),
            ("sphere_center", p.sphere_center),
        ];
        text.extend(points.map(|(name, v)| format!("{name} {}\n", point(v))));
        text += &format!("sphere_radius {}\nmaterials {}\n", float(p.sphere_radius), p.materials_count);
        for (k, m) in p.materials.iter().enumerate() {
            text += &format!("material {k} 0x{:08X} 0x{:08X}\n", m.data1, m.data2);
        }
        for (k, (record, index)) in p.polygons.chunks_exact(16).zip(&p.polygon_material_indices).enumerate() {
            text += &format!("polygon {k} {} material {index}\n", polygon(record));
        }
        let vertices = |name: &str, of: &bounds::prepare::Quantised| -> String {
            let line = |(k, (&BoundVertex(x, y, z), &v)): (usize, (&BoundVertex, &Vec3))| {
                format!("{name} {k} {x} {y} {z} stands for {}\n", point(v))
            };
            of.stored.iter().zip(&of.floats).enumerate().map(line).collect()
        };
        text += &vertices("vertex", &p.vertices);
        text += &p.vertices_shrunk.as_ref().map_or(String::new(), |of| vertices("shrunk", of));
        for (k, list) in p.octants.iter().flat_map(|octants| octants.items.iter().enumerate()) {
            let indices: String = list.iter().map(|index| format!(" {index}")).collect();
            text += &format!("octant {k}:{indices}\n");
        }
        if let Ok(Some(tree)) = self.tree() {
            text += &tree.listing();
            let places: String = tree.records.order.iter().map(|place| format!(" {place}")).collect();
            text += &format!("order:{places}\n");
        }
        text
    }
}

/// `triangle area 0.0 vertices 1 2 3 links -1 4 -1`.
pub fn polygon(record: &[u8]) -> String {
    let numbers = |of: &[i32]| of.iter().map(i32::to_string).collect::<Vec<_>>().join(" ");
    match Polygon::read(record) {
        Ok(Polygon::Triangle { area, v, edges, .. }) => {
            let (v, links) = (numbers(&v.map(i32::from)), numbers(&edges.map(i32::from)));
            format!("triangle area {} vertices {v} links {links}", float(area))
        }
        Ok(Polygon::Sphere { index, radius, .. }) => format!("sphere vertex {index} radius {}", float(radius)),
        Ok(Polygon::Capsule { i1, i2, radius, .. }) => format!("capsule vertices {i1} {i2} radius {}", float(radius)),
        Ok(Polygon::Cylinder { i1, i2, radius, .. }) => format!("cylinder vertices {i1} {i2} radius {}", float(radius)),
        Ok(Polygon::Box { i, .. }) => format!("box vertices {}", numbers(&i.map(i32::from))),
        Err(refusal) => format!("{refusal}"),
    }
}
