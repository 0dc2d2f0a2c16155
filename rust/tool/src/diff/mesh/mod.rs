//! Two prepared meshes compared: what differs in what was given, which fields differ and by which first cause, and which
//! polygons a query no longer finds. Polygons are matched by the numbers that they were given, not by their places in the
//! order of the leaves.

mod causes;
mod elsewhere;
mod input;
mod report;
mod words;

use super::causes::Finder;
use super::{found, Row, Side};
use crate::account::Account;
use crate::cli::Answer;
use crate::dump::Dump;
use crate::explain::mesh::traced;
use crate::failure::Failure;
use crate::field::mesh::MeshField;
use crate::mesh::{account, differing, MeshAccount, MeshFolder};
use crate::trace::mesh::{MeshTrace, Standing, THRESHOLD};
use crate::trace::Trace;
use bounds::premises::ordinary;
pub use causes::{MeshCause, MeshCaused};
pub use elsewhere::Elsewhere;
pub use input::{Change, Given};

/// What the trees' polygons are called: by the numbers that they were given.
const NOUN: &str = "given polygon";

/// What a prepared mesh is traced from: where its polygons stand, and its tree as one of boxes.
pub struct Grounds {
    standing: Standing,
    tree: Option<Dump>,
}

/// A prepared mesh with what its input gives.
pub struct MeshSide<'a> {
    pub folder: &'a MeshFolder,
    pub account: MeshAccount,
    pub trace: MeshTrace<'a>,
}

/// All that is to be said of two prepared meshes.
pub struct MeshComparison<'a> {
    pub a: &'a MeshFolder,
    pub b: &'a MeshFolder,
    /// Fields that differ, of all that either has.
    pub fields: Vec<MeshField>,
    pub total: usize,
    /// What can be said only with both inputs.
    pub known: Option<MeshKnown<'a>>,
}

/// What the inputs tell.
pub struct MeshKnown<'a> {
    pub sides: [MeshSide<'a>; 2],
    /// Where both have a tree.
    pub trees: Option<[Side<'a>; 2]>,
    pub changes: Vec<Change>,
    pub causes: Vec<MeshCaused>,
    pub elsewhere: Vec<Elsewhere>,
    /// Of each polygon, by the number that it was given, whether a query at its box finds it.
    pub rows: Vec<Row>,
}

/// What differs, and why.
pub fn answer(a: &MeshFolder, b: &MeshFolder, json: bool) -> Result<Answer, Failure> {
    let grounds = Grounds::of(a, b)?;
    let comparison = compare(a, b, grounds.as_ref())?;
    Ok(Answer::of(if json { format!("{}\n", comparison.json()) } else { comparison.text() }))
}

impl Grounds {
    /// Of both, where both inputs are at hand.
    pub fn of(a: &MeshFolder, b: &MeshFolder) -> Result<Option<[Grounds; 2]>, Failure> {
        let of = |folder: &MeshFolder| -> Result<Grounds, Failure> {
            Ok(Grounds { standing: Standing::of(&folder.input()?.geometry), tree: folder.tree()? })
        };
        match (&a.mesh, &b.mesh) {
            (Some(_), Some(_)) => Ok(Some([of(a)?, of(b)?])),
            _ => Ok(None),
        }
    }
}

impl<'a> MeshSide<'a> {
    fn of(folder: &'a MeshFolder, grounds: &'a Grounds) -> Result<MeshSide<'a>, Failure> {
        let account = account(folder)?;
        let trace = traced(folder, &account, &grounds.standing)?;
        Ok(MeshSide { folder, account, trace })
    }

    /// Its tree, as one over boxes.
    fn tree(&self, grounds: &'a Grounds) -> Option<Side<'a>> {
        let dump = grounds.tree.as_ref()?;
        let fields = self.account.differing.iter().filter_map(|field| match field {
            MeshField::Tree(field) => Some(*field),
            _ => None,
        });
        let account = Account::of(self.account.rebuilt.derived().tree?.clone(), fields.collect());
        let trace = Trace::of(&grounds.standing.items, THRESHOLD);
        Some(Side { dump, broken: ordinary(trace.items).err(), account, trace, noun: NOUN })
    }
}

/// Compares two prepared meshes.
pub fn compare<'a>(
    a: &'a MeshFolder,
    b: &'a MeshFolder,
    grounds: Option<&'a [Grounds; 2]>,
) -> Result<MeshComparison<'a>, Failure> {
    let fields = differing(a, b);
    let only_b = MeshField::all(&b.derived()).into_iter().filter(|field| field.raw(&a.derived()).is_none()).count();
    let total = MeshField::all(&a.derived()).len() + only_b;
    let known = grounds.map(|grounds| known(a, b, grounds, &fields)).transpose()?;
    Ok(MeshComparison { a, b, fields, total, known })
}

fn known<'a>(
    a: &'a MeshFolder,
    b: &'a MeshFolder,
    grounds: &'a [Grounds; 2],
    fields: &[MeshField],
) -> Result<MeshKnown<'a>, Failure> {
    let sides = [MeshSide::of(a, &grounds[0])?, MeshSide::of(b, &grounds[1])?];
    let trees = match (sides[0].tree(&grounds[0]), sides[1].tree(&grounds[1])) {
        (Some(one), Some(two)) => Some([one, two]),
        _ => None,
    };
    let changes = input::changes(sides[0].trace.of, sides[1].trace.of);
    let causes = causes::causes(&sides, trees.as_ref().map(Finder::of), fields, &changes);
    let rows = trees.as_ref().map_or(Vec::new(), found::rows);
    let elsewhere = elsewhere::elsewhere(&sides);
    Ok(MeshKnown { causes, elsewhere, rows, changes, trees, sides })
}
