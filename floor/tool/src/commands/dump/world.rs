//! `bounds dump` of a split world: its children, and every field of the tree over them.

use crate::cli::Answer;
use crate::explain::query::point_words;
use crate::failure::Failure;
use crate::field::{Field, Recorded};
use crate::json::Json;
use crate::number::counted;
use crate::world::folder::WorldFolder;

pub fn answer(path: &str, json: bool) -> Result<Answer, Failure> {
    let world = WorldFolder::read(path)?;
    let text = if json { format!("{}\n", members(&world)) } else { text(&world) };
    Ok(Answer::of(text))
}

fn text(world: &WorldFolder) -> String {
    let (p, n) = (counted(world.places.len(), "polygon"), world.children());
    let mut text =
        format!("kind     composite\ninput    {}: {p}\nbound    {}\nchildren {n}\n", world.file, world.bound);
    for k in 0..world.children() {
        let item = world.child_box(k);
        let p = counted(world.given[k].len(), "polygon");
        let (min, max) = (point_words(item.min), point_words(item.max));
        text += &format!("child    {k}: {p}, box {min} to {max}, in {}\n", world.path(k));
    }
    match &world.tree {
        Some(tree) => text.extend(Field::all(&tree.records).iter().map(|&field| super::row(tree, field))),
        None => text += "tree     none: 5 children and fewer have none\n",
    }
    text
}

fn members(world: &WorldFolder) -> Json {
    let child = |k: usize| {
        let item = world.child_box(k);
        Json::Object(vec![
            ("folder", world.path(k).into()),
            ("polygons", world.given[k].len().into()),
            ("box_min", Json::point(item.min)),
            ("box_max", Json::point(item.max)),
        ])
    };
    let tree = world.tree.as_ref();
    let fields = tree.map(|tree| Json::list(Field::all(&tree.records).iter().map(|&field| super::json(tree, field))));
    Json::Object(vec![
        ("file", world.file.as_str().into()),
        ("bound", (world.bound as usize).into()),
        ("polygons", world.places.len().into()),
        ("children", Json::list((0..world.children()).map(child))),
        ("tree", fields.into()),
    ])
}
