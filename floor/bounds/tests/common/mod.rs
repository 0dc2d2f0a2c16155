//! Meshes, trees and composites to load, and folders of them, written by docs/FILES.md.
#![allow(dead_code)] // each test file uses its part

use bounds::tree::{Addresses, TreeRecords};
use bounds::{BvhItem, Child, Composite, Geometry, Prepared, Tree, Vec3};
use std::fs;
use std::path::{Path, PathBuf};

/// A strip of triangles along x, hilly.
pub fn strip(kind: u8, triangles: u16) -> Geometry {
    let at = |i: u16| Vec3::new(100.0 + i as f32, (i % 2) as f32, (i % 5) as f32);
    let vertices: Vec<Vec3> = (0..triangles + 2).map(at).collect();
    let corners: Vec<[u16; 3]> = (0..triangles).map(|i| [i, i + 1, i + 2]).collect();
    Geometry { kind, margin: 0.04, ..Geometry::from_triangles(&vertices, &corners) }
}

/// A row of boxes along x, 1 wide and 2 apart; every fifth is absent.
pub fn row(n: usize) -> Vec<BvhItem> {
    let at = |i: usize| BvhItem::new(Vec3::new(2.0 * i as f32, 0.0, 0.0), Vec3::new(2.0 * i as f32 + 1.0, 1.0, 1.0));
    (0..n).map(|i| if i % 5 == 4 { BvhItem::ABSENT } else { at(i) }).collect()
}

/// The same as children that stand where their boxes do.
pub fn children(n: usize) -> Vec<Child> {
    let child = |item: BvhItem| match item.present {
        0 => Child::ABSENT,
        _ => Child::new(item.min, item.max, 0.04, bounds::Mat4::identity()),
    };
    row(n).into_iter().map(child).collect()
}

/// A folder of its own below the target's.
pub fn folder(name: &str) -> PathBuf {
    let path = Path::new(env!("CARGO_TARGET_TMPDIR")).join(name);
    let _ = fs::remove_dir_all(&path); // of a run before
    fs::create_dir_all(&path).expect("a folder");
    path
}

fn write(folder: &Path, name: &str, bytes: impl AsRef<[u8]>) {
    fs::write(folder.join(name), bytes).expect("a file");
}

pub fn point_bytes(points: &[Vec3]) -> Vec<u8> {
    points.iter().flat_map(|v| [v.x, v.y, v.z]).flat_map(f32::to_le_bytes).collect()
}

pub fn order_bytes(tree: &TreeRecords) -> Vec<u8> {
    tree.order.iter().flat_map(|place| place.to_le_bytes()).collect()
}

fn write_tree(folder: &Path, tree: &TreeRecords) {
    write(folder, "header.bin", tree.header(Addresses { nodes: 1 << 40, trees: 7 }).expect("few trees"));
    write(folder, "nodes.bin", &tree.node_bytes);
    write(folder, "trees.bin", &tree.tree_bytes);
    write(folder, "order.bin", order_bytes(tree));
}

fn box_bytes(item: &BvhItem) -> Vec<u8> {
    [item.present.to_le_bytes().to_vec(), point_bytes(&[item.min, item.max])].concat()
}

pub fn write_boxes(folder: &Path, tree: &Tree) {
    let (threshold, entries) = (tree.threshold(), tree.items().len());
    write(folder, "dump.txt", format!("bounds dump 1\nkind boxes\nthreshold {threshold}\nentries {entries}\n"));
    write(folder, "boxes.bin", tree.items().iter().flat_map(box_bytes).collect::<Vec<_>>());
    write_tree(folder, tree);
}

pub fn write_composite(folder: &Path, composite: &Composite) {
    write(folder, "dump.txt", "bounds dump 1\nkind composite\n");
    write(folder, "child_boxes.bin", &composite.child_boxes);
    if let Some(tree) = &composite.tree {
        write_tree(folder, tree);
    }
}

pub fn write_mesh(folder: &Path, kind: u8, made: &Prepared) {
    let (p, v, m) = (made.polygon_material_indices.len(), made.vertices.stored.len(), made.materials_count);
    let counts = format!("bound {kind}\npolygons {p}\nvertices {v}\nmaterials {m}\n");
    write(folder, "dump.txt", format!("bounds dump 1\nkind mesh\n{counts}"));
    let points = [made.quantum, made.box_min, made.box_max, made.box_center, made.sphere_center];
    let radius = made.sphere_radius.to_le_bytes().to_vec();
    write(folder, "frame.bin", [point_bytes(&points), radius, point_bytes(&[made.center_geom])].concat());
    write(folder, "polygons.bin", &made.polygons);
    let words = made.materials.iter().flat_map(|m| [m.data1, m.data2]).flat_map(u32::to_le_bytes);
    write(folder, "materials.bin", words.collect::<Vec<_>>());
    write(folder, "indices.bin", &made.polygon_material_indices);
    let quantised = |of: &bounds::prepare::Quantised, names: [&str; 2]| {
        let stored = of.stored.iter().flat_map(|v| [v.0, v.1, v.2]).flat_map(i16::to_le_bytes);
        write(folder, names[0], stored.collect::<Vec<_>>());
        write(folder, names[1], point_bytes(&of.floats));
    };
    quantised(&made.vertices, ["vertices.bin", "floats.bin"]);
    if let Some(shrunk) = &made.vertices_shrunk {
        quantised(shrunk, ["shrunk.bin", "shrunk_floats.bin"]);
    }
    if let Some(octants) = &made.octants {
        let counts = octants.items.iter().map(|list| list.len() as u32);
        let words = counts.chain(octants.items.iter().flatten().copied()).flat_map(u32::to_le_bytes);
        write(folder, "octants.bin", words.collect::<Vec<_>>());
    }
    if let Some(tree) = &made.bvh {
        write_tree(folder, tree);
        write(folder, "boxes.bin", tree.boxes().iter().flat_map(box_bytes).collect::<Vec<_>>());
    }
}

/// Numbers from a seed.
pub struct Random(pub u64);

impl Random {
    pub fn below(&mut self, n: usize) -> usize {
        self.0 ^= self.0 << 13;
        self.0 ^= self.0 >> 7;
        self.0 ^= self.0 << 17;
        (self.0 >> 16) as usize % n.max(1)
    }
}
