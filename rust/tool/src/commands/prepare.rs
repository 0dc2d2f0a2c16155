//! `bounds prepare`: a mesh to all that a file holds of it.

use crate::cli::{Answer, Command, Line};
use crate::failure::Failure;
use crate::json::Json;
use crate::mesh::state::{broken_words, cut_vertices, missing, premises};
use crate::mesh::{vertices, Mesh, MeshFolder};
use crate::number::{bytes, counted, float, some, verb, word};
use crate::progress::during;
use bounds::prepare::Quantised;
use bounds::{Polygon, Vec3};

pub fn command() -> Command {
    Command {
        name: "prepare",
        does: "prepares a mesh: polygons, materials, vertices, and octants or a tree",
        options: &["--kind", "--margin", "--out"],
        words: (1, 1),
        run,
        help: HELP,
    }
}

const HELP: &str = "bounds prepare MESH [--kind 4|8] [--margin M] [--out DIR] [--json]

Prepares the mesh in MESH, as kind 4 (shrunk vertices and octants) or kind 8 (a tree over its polygons; 8 without it, or
what our own text says). Prints the listing of what was made, a line a record; with --out says in short what was made and
writes it all to DIR, which must not exist yet: frame.bin (quantum, box, centres, radius), polygons.bin, materials.bin,
indices.bin, vertices.bin and floats.bin, for kind 4 shrunk.bin, shrunk_floats.bin and octants.bin, for kind 8 header.bin,
nodes.bin, trees.bin and order.bin; the input as mesh.txt, listing.txt, and dump.txt (kind, numbers). Of kind 4 a mesh of
tens of thousands of triangles can take minutes; on a terminal a line counts the seconds.

MESH is a Wavefront .obj: v and f, faces of many corners as fans, numbers as a, a/b/c or counted back; its materials are
usemtl's, else g's, else o's, numbered from 1 in the order of their first faces, with the words (number, 0). Its vertices are
put about the middle of their box, and areas are 0. Or it is our own text:

  bounds mesh 1                     the first line; those behind it in any order, `#` before a comment
  kind 8
  margin 0.04                       this, where it is not said
  center_geom 0 0 0                 added to each vertex
  transform 1 0 0 0 0 1 0 0 0 0 1 0 0 0 0 1
  box_min -1 -1 0                   box_min, box_max, box_center, sphere_center and sphere_radius are made from the
  box_max 1 1 1                     vertices where they are not said
  material 0x00000007 0             two words
  vertex -1 -1 0                    decimals, inf, nan, or 0x and the eight digits of a word
  triangle 0 0 2 1 area 0.5         the material's number, three vertices counted from 0; the area where it is known
  sphere 0 3 0.5                    a vertex and the radius
  capsule 0 0 3 0.5                 two vertices and the radius; cylinder likewise
  box 0 0 1 2 3                     four vertices

examples
  bounds prepare terrain.obj --out terrain
  bounds prepare terrain.obj --kind 4 --margin 0.02 --out terrain4
  bounds prepare terrain/mesh.txt --json
";

fn run(line: &Line) -> Result<Answer, Failure> {
    let path = &line.words[0];
    let mesh = during(&format!("reading {path}"), || Mesh::read(path, line.mesh()?))?;
    let (polygons, kind) = (counted(mesh.geometry.polygons.len(), "polygon"), mesh.geometry.kind);
    let doing = format!("preparing {polygons} as kind {kind}");
    let folder = during(&doing, || MeshFolder::prepare(path, mesh))?;
    let out = line.option("--out");
    if let Some(path) = out {
        during(&format!("writing {path}"), || folder.write(path))?;
    }
    if line.json() {
        return Ok(Answer::of(format!("{}\n", json(&folder, out)?)));
    }
    Ok(Answer::of(match out {
        Some(path) => format!("{}written to {path}\n", summary(&folder)?),
        None => folder.listing(),
    }))
}

fn point(v: Vec3) -> String {
    [v.x, v.y, v.z].map(float).join(",")
}

/// A few lines: what was made.
fn summary(folder: &MeshFolder) -> Result<String, Failure> {
    let (mesh, made, parts) = (folder.input()?, &folder.prepared, &folder.parts);
    let (p, v) = (counted(parts.polygons_count, "polygon"), vertices(parts.vertices_count));
    let margin = float(mesh.geometry.margin);
    let mut text = format!("{}: kind {}, {p}, {v}, margin {margin}\n", folder.name, parts.kind);
    text += &format!("box       {} to {}, quantum {}\n", point(made.box_min), point(made.box_max), point(made.quantum));
    text += &format!("materials {}\n", materials(folder, mesh));
    let (linked, edges) = links(&made.polygons);
    text += &format!("links     {linked} of {edges} edges have a neighbour\n");
    let cut = cut_vertices(&mesh.geometry, &made.vertices.floats, made.quantum);
    let half = "further from center_geom than half the box, and cut to that";
    text += &format!("vertices  {cut} of {} {half}\n", parts.vertices_count);
    if let Some(octants) = &made.octants {
        text += &shrunk(made.vertices_shrunk.as_ref(), &made.vertices);
        let counts: Vec<usize> = octants.items.iter().map(Vec::len).collect();
        text += &format!("octants   {} indices: {}\n", counts.iter().sum::<usize>(), some(&counts));
    }
    if let Some(tree) = &made.bvh {
        let nodes = counted(tree.built.nodes_count as usize, "node");
        let ranges = counted(tree.built.trees_count as usize, "range");
        text += &format!("tree      {nodes} in {ranges}; {}\n", premises_words(folder)?);
    }
    let (open, plain) = missing(&mesh.geometry);
    if open > 0 {
        text += &format!(
            "NOTE      {} {} a vertex that is not there: it is zero\n",
            counted(open, "polygon"),
            verb(open, "name")
        );
    }
    if plain > 0 {
        text += &format!(
            "NOTE      {} {} a material that is not there: it is (0, 0)\n",
            counted(plain, "polygon"),
            verb(plain, "name")
        );
    }
    Ok(text)
}

fn premises_words(folder: &MeshFolder) -> Result<String, Failure> {
    Ok(match premises(folder)?.and_then(|premises| premises.broken) {
        None => "within the premises".into(),
        Some(broken) => format!("OUTSIDE the premises ({}): polygons may be missed", broken_words(broken)),
    })
}

/// `3 used of 3 given: grass, sand, rock`.
fn materials(folder: &MeshFolder, mesh: &Mesh) -> String {
    let (used, given) = (folder.parts.materials_count, mesh.geometry.materials.len());
    let names: Vec<&str> = mesh.names.iter().map(String::as_str).filter(|name| !name.is_empty()).collect();
    let names = if names.is_empty() { String::new() } else { format!(": {}", some(&names).replace(',', ", ")) };
    format!("{used} used of {given} given{names}")
}

/// How many edges of triangles have a neighbour, of how many.
fn links(records: &[u8]) -> (usize, usize) {
    let edges = |record: &[u8]| match Polygon::read(record) {
        Ok(Polygon::Triangle { edges, .. }) => edges.to_vec(),
        _ => Vec::new(),
    };
    let all: Vec<i16> = records.chunks_exact(16).flat_map(edges).collect();
    (all.iter().filter(|&&edge| edge != -1).count(), all.len())
}

fn shrunk(shrunk: Option<&Quantised>, vertices: &Quantised) -> String {
    let Some(shrunk) = shrunk else { return "shrunk    nothing: there is no vertex\n".into() };
    let moved = shrunk.stored.iter().zip(&vertices.stored).filter(|(a, b)| a != b).count();
    format!("shrunk    {moved} of {} vertices moved\n", shrunk.stored.len())
}

fn json(folder: &MeshFolder, out: Option<&str>) -> Result<Json, Failure> {
    let (made, parts) = (&folder.prepared, &folder.parts);
    let vector = |v: Vec3| Json::list([v.x, v.y, v.z].map(|x| Json::float(x.to_bits())));
    let stored =
        |of: &Quantised| Json::list(of.stored.iter().map(|v| Json::list([v.0 as i64, v.1 as i64, v.2 as i64])));
    let floats = |of: &Quantised| Json::list(of.floats.iter().map(|&v| vector(v)));
    let material = |m: &bounds::BoundMaterial| Json::list([word(m.data1), word(m.data2)]);
    let octants = made.octants.as_ref().map(|octants| {
        Json::list(octants.items.iter().map(|list| Json::list(list.iter().map(|&index| index as usize))))
    });
    let hex = |records: &[u8]| Json::list(records.chunks_exact(16).map(bytes));
    let tree = made.bvh.as_ref().map(|tree| {
        Json::Object(vec![
            ("nodes_count", (tree.built.nodes_count as usize).into()),
            ("nodes", hex(&tree.node_bytes)),
            ("trees", hex(&tree.tree_bytes)),
            ("order", Json::list(tree.order.iter().map(|&place| place as usize))),
        ])
    });
    Ok(Json::Object(vec![
        ("kind", (parts.kind as usize).into()),
        ("quantum", vector(made.quantum)),
        ("box_min", vector(made.box_min)),
        ("box_max", vector(made.box_max)),
        ("box_center", vector(made.box_center)),
        ("sphere_center", vector(made.sphere_center)),
        ("sphere_radius", Json::float(made.sphere_radius.to_bits())),
        ("polygons", hex(&made.polygons)),
        ("materials_count", made.materials_count.into()),
        ("materials", Json::list(made.materials.iter().map(material))),
        ("indices", Json::list(made.polygon_material_indices.iter().map(|&index| index as usize))),
        ("vertices", stored(&made.vertices)),
        ("floats", floats(&made.vertices)),
        ("shrunk", made.vertices_shrunk.as_ref().map(stored).into()),
        ("shrunk_floats", made.vertices_shrunk.as_ref().map(floats).into()),
        ("octants", octants.into()),
        ("tree", tree.into()),
        ("premises", premises(folder)?.map(|_| premises_words(folder)).transpose()?.into()),
        ("out", out.into()),
    ]))
}
