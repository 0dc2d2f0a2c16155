//! Whether a prepared mesh's bytes are what its input gives.

use super::MeshFolder;
use crate::failure::Failure;
use crate::field::mesh::MeshField;
use crate::number::counted;
use std::collections::HashSet;

/// What the library makes of a folder's input, and the fields in which the folder has something else.
pub struct MeshAccount {
    pub rebuilt: MeshFolder,
    pub differing: Vec<MeshField>,
    set: HashSet<MeshField>,
}

/// Prepares a folder's input again, with the library.
pub fn account(folder: &MeshFolder) -> Result<MeshAccount, Failure> {
    let rebuilt = MeshFolder::prepare(&folder.name, folder.input()?.clone())?;
    let differing = differing(&rebuilt, folder);
    Ok(MeshAccount { set: differing.iter().copied().collect(), differing, rebuilt })
}

/// The fields that two prepared meshes do not share, or have different values in. Addresses are given, and may be any.
pub fn differing(a: &MeshFolder, b: &MeshFolder) -> Vec<MeshField> {
    let (a, b) = (&a.derived(), &b.derived());
    let mut fields = MeshField::all(a);
    fields.extend(MeshField::all(b).into_iter().filter(|field| field.raw(a).is_none()));
    fields.retain(|field| !field.is_given() && !field.same(a, b));
    fields
}

impl MeshAccount {
    /// Whether the folder has something else in a field than its input gives.
    pub fn differs(&self, field: MeshField) -> bool {
        self.set.contains(&field)
    }

    /// One line for a folder whose bytes are another input's, or damaged.
    pub fn warning(&self, folder: &MeshFolder) -> Option<String> {
        const SHOWN: usize = 8;
        let n = self.differing.len();
        let shown: Vec<String> =
            self.differing.iter().take(SHOWN).map(|field| self.difference(folder, *field)).collect();
        let more = if n > SHOWN { format!("; and {} more", n - SHOWN) } else { String::new() };
        (n > 0).then(|| {
            let fields = counted(n, "field");
            format!("{}: {fields} not as its input gives: {}{more}", folder.name, shown.join("; "))
        })
    }

    /// `polygon 3 link 1 is 5, the input gives 4`.
    pub fn difference(&self, folder: &MeshFolder, field: MeshField) -> String {
        let show =
            |of: &MeshFolder| field.value(&of.derived()).map_or("not there".to_string(), |value| value.to_string());
        format!("{field} is {}, the input gives {}", show(folder), show(&self.rebuilt))
    }
}
