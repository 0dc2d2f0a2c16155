//! `bounds check` of a world that is split: of each child what is asked of a mesh, and of a folder also whether its bytes are what
//! its input gives.

use super::folder::DAMAGED;
use super::{One, NOT_FINITE, OUTSIDE};
use crate::failure::Failure;
use crate::json::Json;
use crate::mesh::account;
use crate::number::counted;
use crate::parallel::each;
use crate::rules::Rule::*;
use crate::world::folder::{composite_damage, WorldFolder};
use crate::world::split::{cut, made, prepare, shrunk_words, Made};
use crate::world::World;
use bounds::Geometry;
use std::sync::atomic::AtomicUsize;

/// What was found of a split world.
struct Found {
    kind: u8,
    polygons: usize,
    children: Vec<Made>,
    /// Of a folder what is damaged, none where all bytes are what the input gives.
    damages: Option<Vec<String>>,
}

/// Splits a world and prepares its children: what is refused there is refused here.
pub fn one(world: World) -> Result<One, Failure> {
    let parts = cut(&world);
    let children = prepare(&world, &parts, &AtomicUsize::new(0), |_, _| Ok(()))?.children;
    Ok(Found { kind: world.kind, polygons: world.pieces.len(), children, damages: None }.one())
}

/// Checks a folder: each child is prepared again, and so is the composite over them.
pub fn folder(path: &str) -> Result<One, Failure> {
    let world = WorldFolder::read(path)?;
    let child = |k: usize| -> Result<(Made, Option<String>), Failure> {
        let folder = world.child(k)?;
        let accounted = account(&folder)?;
        Ok((made(&accounted.rebuilt, &world.given[k])?, accounted.warning()))
    };
    let found = each(world.children(), &AtomicUsize::new(0), child)?;
    let (children, warnings): (Vec<Made>, Vec<Option<String>>) = found.into_iter().unzip();
    let mut damages: Vec<String> = warnings.into_iter().flatten().collect();
    damages.extend(composite_damage(&world, &children)?);
    Ok(Found { kind: world.bound, polygons: world.places.len(), children, damages: Some(damages) }.one())
}

impl Found {
    /// The first child that is outside the premises, and why.
    fn outside(&self) -> Option<(usize, &String)> {
        self.children.iter().enumerate().find_map(|(k, made)| Some((k, made.broken.as_ref()?)))
    }

    /// The first child with a vertex that is not finite, and which.
    fn not_finite(&self) -> Option<(usize, &String)> {
        self.children.iter().enumerate().find_map(|(k, made)| Some((k, made.not_finite.as_ref()?)))
    }

    fn failed(&self) -> Option<String> {
        match &self.damages {
            Some(damages) if !damages.is_empty() => Some(DAMAGED.into()),
            _ if self.not_finite().is_some() => Some(NOT_FINITE.into()),
            _ => self.outside().map(|_| OUTSIDE.into()),
        }
    }

    fn one(&self) -> One {
        One { failed: self.failed(), text: self.text(), json: self.json() }
    }

    fn text(&self) -> String {
        let of = format!("{} in {}", counted(self.polygons, "polygon"), counted(self.children.len(), "child"));
        let verdict = match self.outside() {
            Some((k, broken)) => {
                format!("OUTSIDE the premises ({P4}): child {k}, {broken}\n{of}; a query may miss polygons\n")
            }
            None if self.kind == Geometry::BVH => format!("within the premises ({P4}): {of}\n"),
            None => format!("can be prepared as kind {} ({K4}): {of}; without trees no premises\n", self.kind),
        };
        let shrunk = shrunk_words(&self.children);
        let verdict = verdict + &shrunk.map_or(String::new(), |words| format!("vertices are shrunk: {words}\n"));
        let verdict = match self.not_finite() {
            Some((k, words)) => format!("NOT FINITE: child {k}, {words}\n{verdict}"),
            None => verdict,
        };
        match self.damages.as_deref() {
            None => verdict,
            Some([]) => verdict + "every byte is what the input gives\n",
            Some([first, rest @ ..]) => {
                let more = if rest.is_empty() { String::new() } else { format!("; and {} more", rest.len()) };
                format!("DAMAGED: {first}{more}\n{verdict}")
            }
        }
    }

    fn json(&self) -> Json {
        let child = |made: &Made| {
            Json::Object(vec![
                ("polygons", made.part.len().into()),
                ("vertices", made.vertices.into()),
                ("materials", made.materials.into()),
                ("not_finite", made.not_finite.clone().into()),
                ("outside", made.broken.clone().into()),
                ("shrunk_by", made.shrunk.map(|shrunk| shrunk.json()).into()),
            ])
        };
        Json::Object(vec![
            ("kind", (self.kind as usize).into()),
            ("within", self.failed().is_none().into()),
            ("polygons", self.polygons.into()),
            ("children", Json::list(self.children.iter().map(child))),
            ("damaged", self.damages.as_ref().map(|damages| Json::list(damages.iter().map(String::as_str))).into()),
        ])
    }
}
