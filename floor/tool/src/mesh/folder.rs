//! A prepared mesh as a folder. docs/FILES.md has its files, byte by byte. mesh.txt, the input as our own text, may be missing,
//! where only a builder's records are at hand; listing.txt is for people and is not read.

use super::bytes::{word, Parts, COUNTS, FRAME};
use super::{shrunk, text, Given, Mesh};
use crate::boxes::{self, number, read_file, Boxes};
use crate::dump::{exactly, manifest, tree_files, tree_records, Dump, Kind, ENTRY};
use crate::failure::Failure;
use crate::field::mesh::Derived;
use crate::number::{counted, float};
use crate::output::{write_folder, Target};
use crate::world::cut::Limits;
use bounds::octants::VERTICES;
use bounds::prepare::MATERIALS;
use bounds::shrink::POLYGONS;
use bounds::{Geometry, Polygon, Prepared, Refusal, ShrunkBy};
use std::collections::HashSet;
use std::path::Path;

/// The most items of a leaf of a prepared mesh's tree.
pub const LEAF_LIMIT: u32 = 4;

/// A prepared mesh: the bytes as they were found, their values, and the input where it is at hand.
#[derive(Clone, Debug)]
pub struct MeshFolder {
    /// As the user named it.
    pub name: String,
    pub mesh: Option<Mesh>,
    pub parts: Parts,
    /// The values that the bytes stand for.
    pub prepared: Prepared,
    /// How the vertices were shrunk, where that is known: of kind 4 with vertices.
    pub shrunk_by: Option<ShrunkBy>,
}

impl MeshFolder {
    /// What the library makes of a mesh.
    pub fn prepare(name: &str, mesh: Mesh) -> Result<MeshFolder, Failure> {
        let geometry = &mesh.geometry;
        let (prepared, shrunk_by) = shrunk::prepare(geometry).map_err(|refusal| refused(name, geometry, refusal))?;
        let parts = Parts::of(geometry.kind, &prepared)?;
        Ok(MeshFolder { name: name.into(), mesh: Some(mesh), parts, prepared, shrunk_by })
    }

    /// Its input, without which nothing can be explained.
    pub fn input(&self) -> Result<&Mesh, Failure> {
        self.mesh.as_ref().ok_or_else(|| {
            let words = format!("{}: mesh.txt is missing; the records alone cannot be explained or drawn", self.name);
            Failure::File(words)
        })
    }

    /// The geometry that was given, where it is at hand.
    pub fn geometry(&self) -> Option<&Geometry> {
        self.mesh.as_ref().map(|mesh| &mesh.geometry)
    }

    /// What was derived, as its fields are read.
    pub fn derived(&self) -> Derived<'_> {
        let Parts { tree, boxes, .. } = &self.parts;
        Derived { prepared: &self.prepared, tree: tree.as_ref(), boxes }
    }

    /// The tree over its polygons as a dump of boxes: list places are those of the given polygons, positions those of the
    /// prepared ones. None for kind 4 and where there is no polygon.
    pub fn tree(&self) -> Result<Option<Dump>, Failure> {
        let Some(records) = &self.parts.tree else { return Ok(None) };
        let boxes = |mesh: &Mesh| -> Result<Boxes, Failure> {
            let origin =
                boxes::Origin::Polygons { file: mesh.origin.file.clone(), lines: mesh.origin.polygons.clone() };
            Ok(Boxes { items: mesh.geometry.items()?, origin })
        };
        Ok(Some(Dump {
            name: self.name.clone(),
            threshold: LEAF_LIMIT,
            entries: self.parts.polygons_count,
            boxes: self.mesh.as_ref().map(boxes).transpose()?,
            records: records.clone(),
        }))
    }

    /// Writes it as a folder, whole or not at all.
    pub fn write(&self, target: &Target) -> Result<(), Failure> {
        write_folder(target, &self.files())
    }

    /// The files of its folder.
    pub fn files(&self) -> Vec<(&'static str, Vec<u8>)> {
        let parts = &self.parts;
        let mut files: Vec<(&str, Vec<u8>)> = vec![
            ("dump.txt", first_file(parts, self.shrunk_by).into_bytes()),
            ("frame.bin", parts.frame.clone()),
            ("polygons.bin", parts.polygons.clone()),
            ("materials.bin", parts.materials.clone()),
            ("indices.bin", parts.indices.clone()),
            ("vertices.bin", parts.vertices.clone()),
            ("floats.bin", parts.floats.clone()),
            ("listing.txt", self.listing().into_bytes()),
        ];
        if parts.kind == Geometry::PLAIN {
            files.push(("octants.bin", parts.octants.clone()));
            if parts.vertices_count > 0 {
                files.push(("shrunk.bin", parts.shrunk.clone()));
                files.push(("shrunk_floats.bin", parts.shrunk_floats.clone()));
            }
        }
        if let Some(records) = &parts.tree {
            files.push(("boxes.bin", parts.boxes.clone()));
            files.extend(tree_files(records));
        }
        if let Some(mesh) = &self.mesh {
            files.push(("mesh.txt", text::write(mesh).into_bytes()));
        }
        files
    }

    /// Reads a folder.
    pub fn read(path: &str) -> Result<MeshFolder, Failure> {
        let file = |name: &str| Path::new(path).join(name).to_string_lossy().into_owned();
        let first = first_lines(&file("dump.txt"))?;
        let mesh = match Path::new(&file("mesh.txt")).exists() {
            true => Some(Mesh::of_bytes(&file("mesh.txt"), &read_file(&file("mesh.txt"))?, Given::default())?),
            false => None,
        };
        let parts = read_parts(path, &first)?;
        let (prepared, shrunk_by) = (parts.prepared(), first.shrunk_by);
        let found = MeshFolder { name: path.into(), mesh, prepared, parts, shrunk_by };
        found.belongs_together(&file("dump.txt"))?;
        Ok(found)
    }

    /// The input has to be one of these numbers of polygons and vertices, and of this kind.
    fn belongs_together(&self, path: &str) -> Result<(), Failure> {
        let Some(geometry) = self.geometry() else { return Ok(()) };
        let found = (geometry.kind, geometry.polygons.len(), geometry.vertices.len());
        let said = (self.parts.kind, self.parts.polygons_count, self.parts.vertices_count);
        if found == said {
            return Ok(());
        }
        let words =
            |(kind, p, v): (u8, usize, usize)| format!("kind {kind}, {}, {}", counted(p, "polygon"), vertices(v));
        let words = format!("{path}: {}, but mesh.txt has {}; expected one mesh", words(said), words(found));
        Err(Failure::File(words))
    }
}

/// The files of a folder that has what its first one says.
fn read_parts(path: &str, first: &First) -> Result<Parts, Failure> {
    let file = |name: &str| Path::new(path).join(name).to_string_lossy().into_owned();
    let part = |name: &str, size: usize, count: usize, of: &str| {
        exactly(&file(name), size, count, &format!("{of}, by dump.txt"))
    };
    let &First { bound, polygons: p, vertices: v, materials, .. } = first;
    let plain = bound == Geometry::PLAIN;
    let shrunk = |name: &str, size: usize| match plain && v > 0 {
        true => part(name, size, v, "vertices"),
        false => Ok(Vec::new()),
    };
    let parts = Parts {
        kind: bound,
        polygons_count: p,
        vertices_count: v,
        materials_count: materials,
        frame: exactly(&file("frame.bin"), 4, FRAME / 4, "floats")?,
        polygons: part("polygons.bin", 16, p, "polygons")?,
        materials: part("materials.bin", 8, materials.max(4), "materials, filled up to four")?,
        indices: part("indices.bin", 1, p, "polygons")?,
        vertices: part("vertices.bin", 6, v, "vertices")?,
        floats: part("floats.bin", 12, v, "vertices")?,
        shrunk: shrunk("shrunk.bin", 6)?,
        shrunk_floats: shrunk("shrunk_floats.bin", 12)?,
        octants: if plain { read_octants(&file("octants.bin"))? } else { Vec::new() },
        boxes: if !plain && p > 0 { read_boxes(&file("boxes.bin"), p)? } else { Vec::new() },
        tree: if !plain && p > 0 { Some(tree_records(path, p)?) } else { None },
    };
    match &parts.tree {
        Some(records) if records.order.len() != p => {
            let (n, expected) = (2 * records.order.len(), 2 * p);
            let words = format!("{}: {n} bytes; expected {expected}: {p} polygons, by dump.txt", file("order.bin"));
            Err(Failure::File(words))
        }
        _ => Ok(parts),
    }
}

/// The boxes of so many polygons, each of which is marked as present.
fn read_boxes(path: &str, polygons: usize) -> Result<Vec<u8>, Failure> {
    let bytes = exactly(path, ENTRY, polygons, "polygons, by dump.txt")?;
    match bytes.chunks_exact(ENTRY).position(|entry| word(entry, 0) != 1) {
        None => Ok(bytes),
        Some(k) => {
            let (at, mark) = (ENTRY * k, word(&bytes, ENTRY * k));
            let words = format!("{path}, bytes {at}-{}: mark {mark}; expected 1: polygon {k} has a box", at + 3);
            Err(Failure::File(words))
        }
    }
}

/// Octants whose counts are those of as many bytes as there are.
fn read_octants(path: &str) -> Result<Vec<u8>, Failure> {
    let bytes = read_file(path)?;
    let n = bytes.len();
    let Some(counts) = bytes.get(..COUNTS) else {
        return Err(Failure::File(format!("{path}: {n} bytes; expected {COUNTS} at least: eight counts")));
    };
    let all: u64 = counts.chunks_exact(4).map(|count| word(count, 0) as u64).sum();
    let expected = COUNTS as u64 + 4 * all;
    if n as u64 != expected {
        let words = format!("{path}: {n} bytes; expected {expected}: {all} indices by the counts in bytes 0-31");
        return Err(Failure::File(words));
    }
    Ok(bytes)
}

/// What helps a mesh over the limits.
const SPLIT: &str = ": --split cuts it into children within the limits";
const MERGE: &str = ": --merge-materials makes fewer of them, --split cuts it into children within the limits";

/// How many different materials the polygons of a geometry use.
fn materials_used(geometry: &Geometry) -> usize {
    let value =
        |polygon: &Polygon| geometry.materials.get(polygon.material() as usize).map_or((0, 0), |m| (m.data1, m.data2));
    geometry.polygons.iter().map(value).collect::<HashSet<_>>().len()
}

/// A refusal, what the mesh is, and what of it is to be changed.
fn refused(name: &str, geometry: &Geometry, refusal: Refusal) -> Failure {
    let (p, v, m) = (geometry.polygons.len(), geometry.vertices.len(), geometry.materials.len());
    let (polygons, materials) = (counted(p, "polygon"), counted(m, "material"));
    let mesh = format!("kind {}, {polygons}, {}, {materials}", geometry.kind, vertices(v));
    let change = match refusal {
        Refusal::UnknownKind => "; expected kind 4 or kind 8".into(),
        Refusal::ListTooLong => {
            let over = [(p, POLYGONS, "polygons"), (v, VERTICES, "vertices"), (m, MATERIALS, "materials")];
            let over = over.iter().filter(|(n, most, _)| n > most);
            let many: String = over.map(|(n, most, of)| format!("; {} {of} too many", n - most)).collect();
            many + if m > MATERIALS { MERGE } else { SPLIT }
        }
        Refusal::InfiniteMargin => format!("; margin {}", crate::number::float(geometry.margin)),
        Refusal::TooManyMaterials => {
            let used = materials_used(geometry);
            format!("; its polygons use {used}, {} too many{MERGE}", used.saturating_sub(Limits::MESH.materials))
        }
        Refusal::TooManyNodes => SPLIT.into(),
        _ => String::new(),
    };
    Failure::library(refusal, format!("{refusal}\n{name}: {mesh}{change}"))
}

/// `1 vertex`, `2 vertices`.
pub fn vertices(n: usize) -> String {
    format!("{n} {}", if n == 1 { "vertex" } else { "vertices" })
}

/// What dump.txt says.
struct First {
    bound: u8,
    polygons: usize,
    vertices: usize,
    materials: usize,
    /// Where it is said.
    shrunk_by: Option<ShrunkBy>,
}

fn first_file(parts: &Parts, shrunk_by: Option<ShrunkBy>) -> String {
    let &Parts { kind, polygons_count, vertices_count, materials_count, .. } = parts;
    let head = format!("{}\nkind {}\n", crate::dump::FIRST_LINE, Kind::Mesh.name());
    let counts =
        format!("bound {kind}\npolygons {polygons_count}\nvertices {vertices_count}\nmaterials {materials_count}\n");
    let shrunk = match shrunk_by {
        Some(ShrunkBy::Margin(margin)) => format!("shrunk margin {}\n", float(margin)),
        Some(ShrunkBy::Normals) => "shrunk normals\n".into(),
        Some(ShrunkBy::NoVertices) | None => String::new(),
    };
    head + &counts + &shrunk
}

fn first_lines(path: &str) -> Result<First, Failure> {
    let limits = [("bound", 8), ("polygons", 32_767), ("vertices", 32_768), ("materials", 255)];
    let [bound, polygons, vertices, materials] = manifest(path, Kind::Mesh, limits)?;
    if bound != Geometry::PLAIN as usize && bound != Geometry::BVH as usize {
        return Err(Failure::File(format!("{path}, line 3: 'bound {bound}'; expected `bound 4` or `bound 8`")));
    }
    let shrinks = bound == Geometry::PLAIN as usize && vertices > 0;
    Ok(First { bound: bound as u8, polygons, vertices, materials, shrunk_by: shrunk_line(path, shrinks)? })
}

/// The seventh line of dump.txt, where there is one: how the vertices of kind 4 were shrunk.
fn shrunk_line(path: &str, shrinks: bool) -> Result<Option<ShrunkBy>, Failure> {
    let bytes = read_file(path)?;
    let text = String::from_utf8_lossy(&bytes);
    let Some(line) = text.lines().nth(6) else { return Ok(None) };
    let by = match line.split(' ').collect::<Vec<_>>()[..] {
        ["shrunk", "margin", margin] => number(margin).ok().map(ShrunkBy::Margin),
        ["shrunk", "normals"] => Some(ShrunkBy::Normals),
        _ => None,
    };
    let expected = if shrinks { "`shrunk margin N` or `shrunk normals`" } else { "no line: nothing is shrunk" };
    let wrong = || format!("{path}, line 7: '{}'; expected {expected}", line.escape_debug());
    by.filter(|_| shrinks).map(Some).ok_or_else(|| Failure::File(wrong()))
}
