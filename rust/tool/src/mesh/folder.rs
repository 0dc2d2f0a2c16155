//! A prepared mesh as a folder:
//!
//! ```text
//! dump.txt           bounds dump 1
//!                    kind mesh
//!                    bound 8             4 or 8
//!                    polygons 3042
//!                    vertices 1600
//!                    materials 3         before they were filled up to four
//! mesh.txt           the input, as our own text
//! frame.bin          quantum, box_min, box_max, box_center, sphere_center, sphere_radius: 16 floats
//! polygons.bin       16 bytes a polygon, linked; of kind 8 in the order of the leaves
//! materials.bin      8 bytes a material, filled up to four
//! indices.bin        a byte a polygon: its material's place in materials.bin
//! vertices.bin       6 bytes a vertex
//! floats.bin         12 bytes a vertex: what these stand for
//! shrunk.bin, shrunk_floats.bin                      kind 4 with vertices: the same of the shrunk ones
//! octants.bin        kind 4: eight counts, then the eight lists one behind the other, four bytes each
//! header.bin, nodes.bin, trees.bin, order.bin        kind 8 with polygons: as of boxes
//! listing.txt        all of it as text, a line a record
//! ```
//!
//! All numbers are little-endian. mesh.txt may be missing, where only a builder's records are at hand; listing.txt is for
//! people and is not read.

use super::bytes::{word, Parts, COUNTS, FRAME};
use super::{items, text, Given, Mesh};
use crate::boxes::{self, read_file, Boxes};
use crate::dump::{exactly, manifest, tree_files, tree_records, Dump, Kind};
use crate::failure::Failure;
use crate::field::mesh::Derived;
use crate::number::counted;
use crate::output::write_folder;
use bounds::octants::VERTICES;
use bounds::prepare::MATERIALS;
use bounds::shrink::POLYGONS;
use bounds::{Geometry, Prepared, Refusal};
use std::path::Path;

/// The most items of a leaf of a prepared mesh's tree.
pub const LEAF_LIMIT: u32 = 4;

/// A prepared mesh: the bytes as they were found, their values, and the input where it is at hand.
#[derive(Clone, Debug)]
pub struct MeshFolder {
    /// As the user named it.
    pub name: String,
    pub mesh: Option<Mesh>,
    pub parts: Parts,
    /// The values that the bytes stand for.
    pub prepared: Prepared,
}

impl MeshFolder {
    /// What the library makes of a mesh.
    pub fn prepare(name: &str, mesh: Mesh) -> Result<MeshFolder, Failure> {
        let geometry = &mesh.geometry;
        let prepared = geometry.prepare().map_err(|refusal| refused(name, geometry, refusal))?;
        let parts = Parts::of(geometry.kind, &prepared)?;
        Ok(MeshFolder { name: name.into(), mesh: Some(mesh), parts, prepared })
    }

    /// Its input, without which nothing can be explained.
    pub fn input(&self) -> Result<&Mesh, Failure> {
        self.mesh.as_ref().ok_or_else(|| {
            let words = format!("{}: mesh.txt is missing; the records alone cannot be explained or drawn", self.name);
            Failure::File(words)
        })
    }

    /// The geometry that was given, where it is at hand.
    pub fn geometry(&self) -> Option<&Geometry> {
        self.mesh.as_ref().map(|mesh| &mesh.geometry)
    }

    /// What was derived, as its fields are read.
    pub fn derived(&self) -> Derived<'_> {
        Derived { prepared: &self.prepared, tree: self.parts.tree.as_ref() }
    }

    /// The tree over its polygons as a dump of boxes: list places are those of the given polygons, positions those of the
    /// prepared ones. None for kind 4 and where there is no polygon.
    pub fn tree(&self) -> Result<Option<Dump>, Failure> {
        let Some(records) = &self.parts.tree else { return Ok(None) };
        let boxes = |mesh: &Mesh| -> Result<Boxes, Failure> {
            let origin =
                boxes::Origin::Polygons { file: mesh.origin.file.clone(), lines: mesh.origin.polygons.clone() };
            Ok(Boxes { items: items(&mesh.geometry)?, origin })
        };
        Ok(Some(Dump {
            name: self.name.clone(),
            threshold: LEAF_LIMIT,
            entries: self.parts.polygons_count,
            boxes: self.mesh.as_ref().map(boxes).transpose()?,
            records: records.clone(),
        }))
    }

    /// Writes it as a folder, whole or not at all.
    pub fn write(&self, path: &str) -> Result<(), Failure> {
        let parts = &self.parts;
        let mut files: Vec<(&str, Vec<u8>)> = vec![
            ("dump.txt", first_file(parts).into_bytes()),
            ("frame.bin", parts.frame.clone()),
            ("polygons.bin", parts.polygons.clone()),
            ("materials.bin", parts.materials.clone()),
            ("indices.bin", parts.indices.clone()),
            ("vertices.bin", parts.vertices.clone()),
            ("floats.bin", parts.floats.clone()),
            ("listing.txt", self.listing().into_bytes()),
        ];
        if parts.kind == Geometry::PLAIN {
            files.push(("octants.bin", parts.octants.clone()));
            if parts.vertices_count > 0 {
                files.push(("shrunk.bin", parts.shrunk.clone()));
                files.push(("shrunk_floats.bin", parts.shrunk_floats.clone()));
            }
        }
        if let Some(records) = &parts.tree {
            files.extend(tree_files(records));
        }
        if let Some(mesh) = &self.mesh {
            files.push(("mesh.txt", text::write(&mesh.geometry, &mesh.names).into_bytes()));
        }
        write_folder(path, &files)
    }

    /// Reads a folder.
    pub fn read(path: &str) -> Result<MeshFolder, Failure> {
        let file = |name: &str| Path::new(path).join(name).to_string_lossy().into_owned();
        let first = first_lines(&file("dump.txt"))?;
        let mesh = match Path::new(&file("mesh.txt")).exists() {
            true => Some(Mesh::of_bytes(&file("mesh.txt"), &read_file(&file("mesh.txt"))?, Given::default())?),
            false => None,
        };
        let parts = read_parts(path, &first)?;
        let found = MeshFolder { name: path.into(), mesh, prepared: parts.prepared(), parts };
        found.belongs_together(&file("dump.txt"))?;
        Ok(found)
    }

    /// The input has to be one of these numbers of polygons and vertices, and of this kind.
    fn belongs_together(&self, path: &str) -> Result<(), Failure> {
        let Some(geometry) = self.geometry() else { return Ok(()) };
        let found = (geometry.kind, geometry.polygons.len(), geometry.vertices.len());
        let said = (self.parts.kind, self.parts.polygons_count, self.parts.vertices_count);
        if found == said {
            return Ok(());
        }
        let words =
            |(kind, p, v): (u8, usize, usize)| format!("kind {kind}, {}, {}", counted(p, "polygon"), vertices(v));
        let words = format!("{path}: {}, but mesh.txt has {}; expected one mesh", words(said), words(found));
        Err(Failure::File(words))
    }
}

/// The files of a folder that has what its first one says.
fn read_parts(path: &str, first: &First) -> Result<Parts, Failure> {
    let file = |name: &str| Path::new(path).join(name).to_string_lossy().into_owned();
    let part = |name: &str, size: usize, count: usize, of: &str| {
        exactly(&file(name), size, count, &format!("{of}, by dump.txt"))
    };
    let &First { bound, polygons: p, vertices: v, materials } = first;
    let plain = bound == Geometry::PLAIN;
    let shrunk = |name: &str, size: usize| match plain && v > 0 {
        true => part(name, size, v, "vertices"),
        false => Ok(Vec::new()),
    };
    let parts = Parts {
        kind: bound,
        polygons_count: p,
        vertices_count: v,
        materials_count: materials,
        frame: exactly(&file("frame.bin"), 4, FRAME / 4, "floats")?,
        polygons: part("polygons.bin", 16, p, "polygons")?,
        materials: part("materials.bin", 8, materials.max(4), "materials, filled up to four")?,
        indices: part("indices.bin", 1, p, "polygons")?,
        vertices: part("vertices.bin", 6, v, "vertices")?,
        floats: part("floats.bin", 12, v, "vertices")?,
        shrunk: shrunk("shrunk.bin", 6)?,
        shrunk_floats: shrunk("shrunk_floats.bin", 12)?,
        octants: if plain { read_octants(&file("octants.bin"))? } else { Vec::new() },
        tree: if !plain && p > 0 { Some(tree_records(path, p)?) } else { None },
    };
    match &parts.tree {
        Some(records) if records.order.len() != p => {
            let (n, expected) = (2 * records.order.len(), 2 * p);
            let words = format!("{}: {n} bytes; expected {expected}: {p} polygons, by dump.txt", file("order.bin"));
            Err(Failure::File(words))
        }
        _ => Ok(parts),
    }
}

/// Octants whose counts are those of as many bytes as there are.
fn read_octants(path: &str) -> Result<Vec<u8>, Failure> {
    let bytes = read_file(path)?;
    let n = bytes.len();
    let Some(counts) = bytes.get(..COUNTS) else {
        return Err(Failure::File(format!("{path}: {n} bytes; expected {COUNTS} at least: eight counts")));
    };
    let all: u64 = counts.chunks_exact(4).map(|count| word(count, 0) as u64).sum();
    let expected = COUNTS as u64 + 4 * all;
    if n as u64 != expected {
        let words = format!("{path}: {n} bytes; expected {expected}: {all} indices by the counts in bytes 0-31");
        return Err(Failure::File(words));
    }
    Ok(bytes)
}

/// A refusal, what the mesh is, and what of it is to be changed.
fn refused(name: &str, geometry: &Geometry, refusal: Refusal) -> Failure {
    let (p, v, m) = (geometry.polygons.len(), geometry.vertices.len(), geometry.materials.len());
    let (polygons, materials) = (counted(p, "polygon"), counted(m, "material"));
    let mesh = format!("kind {}, {polygons}, {}, {materials}", geometry.kind, vertices(v));
    let change = match refusal {
        Refusal::UnknownKind => "; expected kind 4 or kind 8".into(),
        Refusal::ListTooLong => {
            let over = [(p, POLYGONS, "polygons"), (v, VERTICES, "vertices"), (m, MATERIALS, "materials")];
            let over = over.iter().filter(|(n, most, _)| n > most);
            over.map(|(n, most, of)| format!("; {} {of} too many", n - most)).collect()
        }
        Refusal::InfiniteMargin => format!("; margin {}", crate::number::float(geometry.margin)),
        Refusal::TooManyMaterials => "; its polygons may use 255".into(),
        Refusal::TooManyNodes => "; split it: of a mesh the threshold is four".into(),
        _ => String::new(),
    };
    Failure::Refused(format!("{refusal}\n{name}: {mesh}{change}"))
}

/// `1 vertex`, `2 vertices`.
pub fn vertices(n: usize) -> String {
    format!("{n} {}", if n == 1 { "vertex" } else { "vertices" })
}

/// What dump.txt says.
struct First {
    bound: u8,
    polygons: usize,
    vertices: usize,
    materials: usize,
}

fn first_file(parts: &Parts) -> String {
    let &Parts { kind, polygons_count, vertices_count, materials_count, .. } = parts;
    let head = format!("{}\nkind {}\n", crate::dump::FIRST_LINE, Kind::Mesh.name());
    head + &format!("bound {kind}\npolygons {polygons_count}\nvertices {vertices_count}\nmaterials {materials_count}\n")
}

fn first_lines(path: &str) -> Result<First, Failure> {
    let limits = [("bound", 8), ("polygons", 32_767), ("vertices", 32_768), ("materials", 255)];
    let [bound, polygons, vertices, materials] = manifest(path, Kind::Mesh, limits)?;
    if bound != Geometry::PLAIN as usize && bound != Geometry::BVH as usize {
        return Err(Failure::File(format!("{path}, line 3: 'bound {bound}'; expected `bound 4` or `bound 8`")));
    }
    Ok(First { bound: bound as u8, polygons, vertices, materials })
}
