//! Whether a prepared mesh's bytes are what its input gives.

use super::MeshFolder;
use crate::account::{unlike, Account};
use crate::failure::Failure;
use crate::field::mesh::MeshField;
use crate::field::Recorded;

/// What the library makes of a folder's input, and the fields in which the folder has something else.
pub type MeshAccount = Account<MeshField, MeshFolder>;

/// Prepares a folder's input again, with the library.
pub fn account(folder: &MeshFolder) -> Result<MeshAccount, Failure> {
    let rebuilt = MeshFolder::prepare(&folder.name, folder.input()?.clone())?;
    let (found, given) = (folder.derived(), rebuilt.derived());
    let differing: Vec<MeshField> = unlike(&given, &found);
    let values = differing.into_iter().map(|field| (field, [field.value(&found), field.value(&given)])).collect();
    Ok(Account::of(&folder.name, rebuilt, values))
}
