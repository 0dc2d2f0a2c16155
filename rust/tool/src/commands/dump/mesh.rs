//! `bounds dump` of a prepared mesh.

use super::tree_meaning;
use crate::cli::Answer;
use crate::failure::Failure;
use crate::field::mesh::MeshField;
use crate::field::Value;
use crate::json::Json;
use crate::mesh::{account, place_of, rules_of, vertices, MeshFolder};
use crate::number::{bytes, counted, float, place};
use crate::rules;

/// Every field, a line each.
pub fn answer(folder: &MeshFolder, json: bool) -> Result<Answer, Failure> {
    let derived = folder.derived();
    let fields = MeshField::all(&derived);
    if json {
        let list = Json::list(fields.iter().map(|&field| field_json(folder, field)));
        return Ok(Answer::of(format!("{list}\n")));
    }
    let mut text = heading(folder)?;
    text.extend(fields.iter().map(|&field| row(folder, field)));
    Ok(Answer::of(text))
}

fn heading(folder: &MeshFolder) -> Result<String, Failure> {
    let parts = &folder.parts;
    let (p, v) = (counted(parts.polygons_count, "polygon"), vertices(parts.vertices_count));
    let (input, bytes) = match &folder.mesh {
        None => ("; the mesh is not at hand".to_string(), "not compared with an input".to_string()),
        Some(mesh) => {
            let warning = account(folder)?.warning(folder);
            (format!(", margin {}", float(mesh.geometry.margin)), warning.unwrap_or("as the input gives".into()))
        }
    };
    Ok(format!("kind     mesh, bound {}\ninput    {p}, {v}{input}\nbytes    {bytes}\n", parts.kind))
}

/// What a stored value stands for: a place on its axis.
fn meaning(folder: &MeshFolder, field: MeshField) -> Option<String> {
    let derived = folder.derived();
    let float = |of: MeshField| match of.value(&derived) {
        Some(Value::Word(word)) => Some(place(f32::from_bits(word) as f64)),
        _ => None,
    };
    match field {
        MeshField::Vertex(k, axis) => float(MeshField::VertexFloat(k, axis)),
        MeshField::Shrunk(k, axis) => float(MeshField::ShrunkFloat(k, axis)),
        MeshField::Tree(of) => tree_meaning(derived.tree?, of),
        _ => None,
    }
}

fn row(folder: &MeshFolder, field: MeshField) -> String {
    let derived = folder.derived();
    let at = place_of(field, &derived).map_or(String::new(), |at| format!("{}-{}", at.start, at.end - 1));
    let value = field.value(&derived).map_or(String::new(), |value| value.to_string());
    let meaning = meaning(folder, field).unwrap_or_default();
    let rules = rules::list(&rules_of(field, &derived));
    let (part, name) = (field.part(), field.name());
    format!("{part:<18} {at:>9}  {name:<14} {value:<26} {meaning:>12}  {rules}\n")
}

fn field_json(folder: &MeshFolder, field: MeshField) -> Json {
    let derived = folder.derived();
    Json::Object(vec![
        ("field", field.to_string().into()),
        ("at", place_of(field, &derived).map(|at| at.start).into()),
        ("bytes", field.raw(&derived).map(|raw| bytes(&raw)).into()),
        ("value", field.value(&derived).map(|value| value.to_string()).into()),
        ("stands_for", meaning(folder, field).into()),
        ("rules", Json::list(rules_of(field, &derived).iter().map(|rule| rule.name()))),
    ])
}
