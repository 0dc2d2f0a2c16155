//! `bounds prepare`: a mesh to all that a file holds of it.

mod world;

use crate::cli::{Answer, Command, Line};
use crate::failure::Failure;
use crate::json::Json;
use crate::mesh::state::{broken_words, premises};
use crate::mesh::{vertices, Mesh, MeshFolder, NotFinite, Report, Shrunk};
use crate::number::{bytes, counted, float, some, word};
use crate::progress::{during, preparing, showing};
use crate::world::merge::Merged;
use crate::world::source::Source;
use bounds::prepare::Quantised;
use bounds::{Polygon, Vec3};

pub fn command() -> Command {
    Command {
        name: "prepare",
        does: "prepares a mesh: polygons, materials, vertices, and octants or a tree",
        forms: &["MESH"],
        words: (1, 1),
        options: &["--kind", "--margin", "--up", "--split", "--merge-materials", "--out", "--force", "--json"],
        run,
        help: HELP,
        examples: EXAMPLES,
    }
}

const HELP: &str = "Prepares the mesh in MESH, as kind 4 (shrunk vertices and octants) or kind 8 (a tree over its polygons; 8 without it, or
what our own text says). Prints the listing of what was made, a line a record; with --out says in short what was made and
writes it all to DIR, which must not exist yet unless --force replaces it: frame.bin (quantum, box, centres, radius), polygons.bin, materials.bin,
indices.bin, vertices.bin and floats.bin, for kind 4 shrunk.bin, shrunk_floats.bin and octants.bin, for kind 8 header.bin,
nodes.bin, trees.bin and order.bin; the input as mesh.txt, listing.txt, and dump.txt (kind, numbers, how vertices were shrunk). Of kind 4 a mesh of
tens of thousands of triangles can take minutes; on a terminal a line counts the seconds.

Any floats are prepared. NOT FINITE in the summary names a vertex that is not finite, by its number and line in the file, and
NOTE what else is odd; `bounds check` turns such a mesh away by its exit status. Of kind 4 the summary says by which margin the
vertices were shrunk, or that they moved by their normals because none passed.

MESH is a Wavefront .obj: v and f, faces of many corners as fans, numbers as a, a/b/c or counted back; its materials are
usemtl's, else g's, else o's, numbered from 1 in the order of their first faces, with the words (number, 0). Its vertices are
put about the middle of their box, and areas are 0. With --up y its y is up, and (x, y, z) becomes (x, -z, y); without it z is.
Text that is no UTF-8 is read as Latin-1, and that is said; NUL and other bytes of no text are refused. Or it is our own text:

  bounds mesh 1                     the first line; those behind it in any order, `#` before a comment
  kind 8
  margin 0.04                       this, where it is not said
  center_geom 0 0 0                 added to each vertex
  transform 1 0 0 0 0 1 0 0 0 0 1 0 0 0 0 1
  box_min -1 -1 0                   box_min, box_max, box_center, sphere_center and sphere_radius are made from the
  box_max 1 1 1                     vertices where they are not said
  material 0x00000007 0             two words
  vertex -1 -1 0                    decimals, inf, nan, or 0x and the eight digits of a word
  triangle 0 0 2 1 area 0.5         the material's number, three vertices counted from 0; the area where it is known
  sphere 0 3 0.5                    a vertex and the radius
  capsule 0 0 3 0.5                 two vertices and the radius; cylinder likewise
  box 0 0 1 2 3                     four vertices

The mesh.txt of a folder that was made of an .obj also says where its numbers came from. `source` is the file's name, with % and
two digits for a space; then every material, vertex and polygon has its line behind `from`, and a vertex also its number and its
own x, y and z. So the other commands name what the file has, and a query is in its numbers:

  source terrain.obj
  up y                              where it was read with --up y
  material 0x00000001 0 from 1645   the line of the first face that has it
  vertex -47.5 -47.5 -15.2 from 4 2 102.5 -200.0 -4.9
  triangle 0 0 1 42 from 1703

A mesh over the limits (32,767 polygons, 32,768 vertices, 255 materials in use) is refused. With --split it is cut by place into
children within them: halved at the median of its polygons' middles along the axis on which these reach furthest, until each
part fits. No polygon is lost or doubled; a vertex on a cut stands in each child that names it. DIR then has a folder a child,
0, 1, 2 and so on, each a prepared mesh with a centre of its own; the children's boxes, child_boxes.bin; over 5 children the tree
over these, header.bin, nodes.bin, trees.bin and order.bin; and for each polygon of MESH its child and its number among those
given to that, places.bin, and its line, lines.bin. `bounds query`, `check`, `dump` and `draw` take DIR; `explain` and `diff` take
a child's folder.

With --merge-materials several materials become one before all else. MAP is a text with a line `OLD = NEW` each, `#` before a
comment; `BEGINNING* = NEW` is for every name that begins so, and a whole name goes before it. Materials of equal names are then
one; those without a name stay apart. The word `names` in the place of MAP stands for equal names alone.
";

const EXAMPLES: &str = "  bounds prepare terrain.obj --out terrain
  bounds prepare terrain.obj --kind 4 --margin 0.02 --out terrain4
  bounds prepare house.obj --up y --out house
  bounds prepare terrain/mesh.txt --json
  bounds prepare world.obj --split --out world
  bounds prepare world.obj --merge-materials map.txt --out world
";

fn run(line: &Line) -> Result<Answer, Failure> {
    let path = &line.words[0];
    if line.has("--split") {
        return world::answer(line);
    }
    let (target, given, merge) = (line.folder()?, line.mesh()?, line.merge()?);
    let (source, merged) = during(&format!("reading {path}"), || Source::read(path, merge.as_ref()))?;
    let mesh = source.mesh(path, given)?;
    let folder = showing(preparing(&mesh.geometry), || MeshFolder::prepare(path, mesh))?;
    let out = target.map(|target| target.path);
    if let Some(target) = target {
        during(&format!("writing {}", target.path), || folder.write(&target))?;
    }
    if line.json() {
        return Ok(Answer::of(format!("{}\n", json(&folder, merged.as_ref(), out)?)));
    }
    Ok(Answer::of(match out {
        Some(path) => format!("{}written to {path}\n", summary(&folder, merged.as_ref())?),
        None => folder.listing(),
    }))
}

fn point(v: Vec3) -> String {
    [v.x, v.y, v.z].map(float).join(",")
}

/// A few lines: what was made.
fn summary(folder: &MeshFolder, merged: Option<&Merged>) -> Result<String, Failure> {
    let (mesh, made, parts) = (folder.input()?, &folder.prepared, &folder.parts);
    let (p, v) = (counted(parts.polygons_count, "polygon"), vertices(parts.vertices_count));
    let margin = float(mesh.geometry.margin);
    let report = Report::of(mesh, made)?;
    let mut text = format!("{}: kind {}, {p}, {v}, margin {margin}\n", folder.name, parts.kind);
    if let Some(found) = NotFinite::of(mesh) {
        text += &format!("NOT FINITE {}\n", found.words(&mesh.origin));
    }
    text += &format!("box       {} to {}, quantum {}\n", point(made.box_min), point(made.box_max), point(made.quantum));
    text += &format!("materials {}\n", materials(folder, mesh));
    text += &merged.map_or(String::new(), |merged| format!("merged    {}\n", merged.words()));
    let (linked, edges) = links(&made.polygons);
    text += &format!("links     {linked} of {edges} edges have a neighbour\n");
    let half = "further from center_geom than half the box, and cut to that";
    text += &format!("vertices  {} of {} {half}\n", report.cut.count, parts.vertices_count);
    if let Some(octants) = &made.octants {
        text += &shrunk(folder, mesh);
        let counts: Vec<usize> = octants.items.iter().map(Vec::len).collect();
        text += &format!("octants   {} indices: {}\n", counts.iter().sum::<usize>(), some(&counts));
    }
    if let Some(tree) = &made.bvh {
        let nodes = counted(tree.built.nodes_count as usize, "node");
        let ranges = counted(tree.built.trees_count as usize, "range");
        text += &format!("tree      {nodes} in {ranges}; {}\n", premises_words(folder)?);
    }
    text += &mesh.origin.note().map_or(String::new(), |note| format!("NOTE      {note}\n"));
    text.extend(report.notes().iter().map(|note| format!("NOTE      {note}\n")));
    Ok(text)
}

fn premises_words(folder: &MeshFolder) -> Result<String, Failure> {
    Ok(match premises(folder)?.and_then(|premises| premises.broken) {
        None => "within the premises".into(),
        Some(broken) => format!("OUTSIDE the premises ({}): polygons may be missed", broken_words(broken)),
    })
}

/// `3 used of 3 given: grass, sand, rock`.
fn materials(folder: &MeshFolder, mesh: &Mesh) -> String {
    let (used, given) = (folder.parts.materials_count, mesh.geometry.materials.len());
    let names: Vec<&str> = mesh.names.iter().map(String::as_str).filter(|name| !name.is_empty()).collect();
    let names = if names.is_empty() { String::new() } else { format!(": {}", some(&names).replace(',', ", ")) };
    format!("{used} used of {given} given{names}")
}

/// How many edges of triangles have a neighbour, of how many.
fn links(records: &[u8]) -> (usize, usize) {
    let edges = |record: &[u8]| match Polygon::read(record) {
        Ok(Polygon::Triangle { edges, .. }) => edges.to_vec(),
        _ => Vec::new(),
    };
    let all: Vec<i16> = records.chunks_exact(16).flat_map(edges).collect();
    (all.iter().filter(|&&edge| edge != -1).count(), all.len())
}

/// `1599 of 1599 vertices moved: by the given margin 0.04 (S7)`.
fn shrunk(folder: &MeshFolder, mesh: &Mesh) -> String {
    let made = &folder.prepared;
    let (Some(shrunk), Some(how)) = (&made.vertices_shrunk, Shrunk::of(&mesh.geometry, folder.shrunk_by)) else {
        return "shrunk    nothing: there is no vertex\n".into();
    };
    let moved = shrunk.stored.iter().zip(&made.vertices.stored).filter(|(a, b)| a != b).count();
    format!("shrunk    {moved} of {} vertices moved: {}\n", shrunk.stored.len(), how.words())
}

fn json(folder: &MeshFolder, merged: Option<&Merged>, out: Option<&str>) -> Result<Json, Failure> {
    let (mesh, made, parts) = (folder.input()?, &folder.prepared, &folder.parts);
    let vector = |v: Vec3| Json::list([v.x, v.y, v.z].map(|x| Json::float(x.to_bits())));
    let stored =
        |of: &Quantised| Json::list(of.stored.iter().map(|v| Json::list([v.0 as i64, v.1 as i64, v.2 as i64])));
    let floats = |of: &Quantised| Json::list(of.floats.iter().map(|&v| vector(v)));
    let material = |m: &bounds::BoundMaterial| Json::list([word(m.data1), word(m.data2)]);
    let octants = made.octants.as_ref().map(|octants| {
        Json::list(octants.items.iter().map(|list| Json::list(list.iter().map(|&index| index as usize))))
    });
    let hex = |records: &[u8]| Json::list(records.chunks_exact(16).map(bytes));
    let tree = made.bvh.as_ref().map(|tree| {
        Json::Object(vec![
            ("nodes_count", (tree.built.nodes_count as usize).into()),
            ("nodes", hex(&tree.node_bytes)),
            ("trees", hex(&tree.tree_bytes)),
            ("order", Json::list(tree.order.iter().map(|&place| place as usize))),
        ])
    });
    Ok(Json::Object(vec![
        ("kind", (parts.kind as usize).into()),
        ("quantum", vector(made.quantum)),
        ("box_min", vector(made.box_min)),
        ("box_max", vector(made.box_max)),
        ("box_center", vector(made.box_center)),
        ("sphere_center", vector(made.sphere_center)),
        ("sphere_radius", Json::float(made.sphere_radius.to_bits())),
        ("polygons", hex(&made.polygons)),
        ("materials_count", made.materials_count.into()),
        ("materials", Json::list(made.materials.iter().map(material))),
        ("indices", Json::list(made.polygon_material_indices.iter().map(|&index| index as usize))),
        ("vertices", stored(&made.vertices)),
        ("floats", floats(&made.vertices)),
        ("shrunk", made.vertices_shrunk.as_ref().map(stored).into()),
        ("shrunk_floats", made.vertices_shrunk.as_ref().map(floats).into()),
        ("octants", octants.into()),
        ("tree", tree.into()),
        ("shrunk_by", Shrunk::of(&mesh.geometry, folder.shrunk_by).map(|how| how.json()).into()),
        ("not_finite", NotFinite::of(mesh).map(|found| found.json(&mesh.origin)).into()),
        ("premises", premises(folder)?.map(|_| premises_words(folder)).transpose()?.into()),
        ("note", mesh.origin.note().into()),
        ("report", Report::of(mesh, made)?.json()),
        ("merged", merged.map(Merged::json).into()),
        ("out", out.into()),
    ]))
}
