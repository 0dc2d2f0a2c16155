//! One error for all that can go wrong, so that a server's function ends with `?` whatever it called: [`Error`].
//!
//! ```
//! use bounds::{BvhItem, Error, PreparedTree, Tree, Vec3};
//!
//! fn answer(folder: &str) -> Result<usize, Error> {
//!     let boxes = [BvhItem::new(Vec3::ZERO, Vec3::new(1.0, 1.0, 1.0))];
//!     let tree = Tree::build(&boxes, 1)?; // a refusal
//!     tree.premises()?; // what breaks the premises
//!     Ok(PreparedTree::load(folder)?.query(Vec3::ZERO, Vec3::ZERO).len()) // a file, or its damage
//! }
//! let error = answer("no/such/folder").unwrap_err();
//! assert!(error.to_string().starts_with("no/such/folder/dump.txt: cannot be read: "), "{error}");
//! ```

use crate::premises::Broken;
use crate::walk::Refused;
use crate::Refusal;
use std::path::PathBuf;
use std::{fmt, io};

/// Why there is no answer.
///
/// ```
/// # use bounds::{BvhItem, Error, Refusal, Tree};
/// let error: Error = Tree::build(&[BvhItem::ABSENT], 0).unwrap_err().into();
/// assert!(matches!(error, Error::Refused(Refusal::Threshold)));
/// assert_eq!(error.to_string(), "refused 3: the threshold is outside 1 to 32,767; choose one within");
/// ```
#[derive(Debug)]
#[non_exhaustive]
pub enum Error {
    /// An operation was refused.
    Refused(Refusal),
    /// A walk was refused, and how far it had come.
    Walk(Refused),
    /// The premises, under which a query misses nothing, do not hold.
    Premises(Broken),
    /// A file does not hold what it should.
    Damage(Damage),
    /// A file cannot be read.
    #[allow(missing_docs)]
    Read { path: PathBuf, error: io::Error },
}

/// A file that does not hold what it should: where, what was found and what was expected.
///
/// ```
/// # use bounds::{error::Damage, tree::{TreeBytes, TreeRecords}, Error};
/// let none = TreeBytes { header: &[0; 100], node_bytes: &[], tree_bytes: &[], order: &[] };
/// let Err(Error::Damage(damage)) = TreeRecords::read(&none, 0, 1) else { panic!("100 bytes are no header") };
/// assert_eq!((damage.file.to_str(), damage.byte), (Some("header.bin"), None));
/// assert_eq!(damage.to_string(), "header.bin: 100 bytes; expected 128: a header");
/// ```
#[derive(Clone, Debug, PartialEq, Eq)]
pub struct Damage {
    /// Its name as docs/FILES.md has it, in the folder that was loaded.
    pub file: PathBuf,
    /// The first byte of what is wrong, where it is one place.
    pub byte: Option<usize>,
    /// What stands there.
    pub found: String,
    /// What should.
    pub expected: String,
}

impl Damage {
    pub(crate) fn whole(file: &str, found: impl Into<String>, expected: impl Into<String>) -> Damage {
        Damage { file: file.into(), byte: None, found: found.into(), expected: expected.into() }
    }

    pub(crate) fn at(file: &str, byte: usize, found: impl Into<String>, expected: impl Into<String>) -> Damage {
        Damage { byte: Some(byte), ..Damage::whole(file, found, expected) }
    }
}

/// ```
/// # use bounds::error::Damage;
/// let (file, found, expected) = ("trees.bin".into(), "first node -1".into(), "0 at least".into());
/// let damage = Damage { file, byte: Some(28), found, expected };
/// assert_eq!(damage.to_string(), "trees.bin, byte 28: first node -1; expected 0 at least");
/// ```
impl fmt::Display for Damage {
    fn fmt(&self, f: &mut fmt::Formatter) -> fmt::Result {
        let byte = self.byte.map_or(String::new(), |byte| format!(", byte {byte}"));
        write!(f, "{}{byte}: {}; expected {}", self.file.display(), self.found, self.expected)
    }
}

impl fmt::Display for Error {
    fn fmt(&self, f: &mut fmt::Formatter) -> fmt::Result {
        match self {
            Error::Refused(refusal) => refusal.fmt(f),
            Error::Walk(refused) => refused.fmt(f),
            Error::Premises(broken) => broken.fmt(f),
            Error::Damage(damage) => damage.fmt(f),
            Error::Read { path, error } => write!(f, "{}: cannot be read: {error}", path.display()),
        }
    }
}

impl std::error::Error for Damage {}

impl std::error::Error for Error {
    fn source(&self) -> Option<&(dyn std::error::Error + 'static)> {
        match self {
            Error::Refused(refusal) => Some(refusal),
            Error::Walk(refused) => Some(refused),
            Error::Premises(broken) => Some(broken),
            Error::Damage(damage) => Some(damage),
            Error::Read { error, .. } => Some(error),
        }
    }
}

impl From<Refusal> for Error {
    fn from(refusal: Refusal) -> Error {
        Error::Refused(refusal)
    }
}

impl From<Refused> for Error {
    fn from(refused: Refused) -> Error {
        Error::Walk(refused)
    }
}

impl From<Broken> for Error {
    fn from(broken: Broken) -> Error {
        Error::Premises(broken)
    }
}

impl From<Damage> for Error {
    fn from(damage: Damage) -> Error {
        Error::Damage(damage)
    }
}
