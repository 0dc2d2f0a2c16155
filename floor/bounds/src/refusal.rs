//! What an operation turns down. A refusal changes no output.

use std::fmt;

/// Why an operation was refused; the number is the one that the C interface returns.
///
/// ```
/// # use bounds::{BvhItem, Refusal, Tree};
/// // One box more than a tree of single items can have; then leaves of four.
/// let boxes = vec![BvhItem { present: 1, ..BvhItem::ABSENT }; 16_385];
/// let tree = Tree::build(&boxes, 1).or_else(|refusal| match refusal {
///     Refusal::TooManyNodes => Tree::build(&boxes, 4),
///     other => Err(other),
/// })?;
/// assert_eq!(tree.threshold(), 4);
/// # Ok::<(), Refusal>(())
/// ```
#[derive(Clone, Copy, Debug, PartialEq, Eq, Hash)]
#[non_exhaustive]
pub enum Refusal {
    /// A list is over its limit.
    ListTooLong,
    /// A lent buffer is too short.
    BufferTooShort,
    /// The threshold is outside 1 to 32,767.
    Threshold,
    /// The finished tree would have over 32,767 nodes.
    TooManyNodes,
    /// A record has under 16 bytes.
    ShortRecord,
    /// A kind has no meaning.
    UnknownKind,
    /// The margin that shrinking starts from is infinite.
    InfiniteMargin,
    /// The built list of materials is too long.
    TooManyMaterials,
    /// A tree record's range of nodes is none.
    TreeRange,
    /// A node record leads out of its tree or list.
    NodeRecord,
    /// More positions would be handed out than there are items.
    TooManyHandedOut,
    /// An address and what follows it pass 2^64 - 1.
    Address,
    /// The input ends inside a record.
    RaggedInput,
    /// The library answered with this number, which is no refusal: it and this crate do not belong together.
    Unknown(u32),
}

impl Refusal {
    /// Every refusal that an operation may answer with, by its number.
    ///
    /// ```
    /// # use bounds::Refusal;
    /// let table = Refusal::ALL.map(|refusal| refusal.to_string());
    /// assert!(table[12].starts_with("refused 13: the input ends inside a record"));
    /// assert!(!Refusal::ALL.contains(&Refusal::Unknown(99))); // no operation's answer
    /// ```
    pub const ALL: [Refusal; 13] = [
        Refusal::ListTooLong,
        Refusal::BufferTooShort,
        Refusal::Threshold,
        Refusal::TooManyNodes,
        Refusal::ShortRecord,
        Refusal::UnknownKind,
        Refusal::InfiniteMargin,
        Refusal::TooManyMaterials,
        Refusal::TreeRange,
        Refusal::NodeRecord,
        Refusal::TooManyHandedOut,
        Refusal::Address,
        Refusal::RaggedInput,
    ];

    /// Its number.
    ///
    /// ```
    /// # use bounds::Refusal;
    /// assert_eq!(Refusal::TooManyNodes.number(), 4);
    /// assert_eq!(Refusal::Unknown(99).number(), 99); // as the library gave it
    /// ```
    pub fn number(self) -> u32 {
        match self {
            Refusal::ListTooLong => 1,
            Refusal::BufferTooShort => 2,
            Refusal::Threshold => 3,
            Refusal::TooManyNodes => 4,
            Refusal::ShortRecord => 5,
            Refusal::UnknownKind => 6,
            Refusal::InfiniteMargin => 7,
            Refusal::TooManyMaterials => 8,
            Refusal::TreeRange => 9,
            Refusal::NodeRecord => 10,
            Refusal::TooManyHandedOut => 11,
            Refusal::Address => 12,
            Refusal::RaggedInput => 13,
            Refusal::Unknown(number) => number,
        }
    }

    /// The refusal with this number.
    ///
    /// ```
    /// # use bounds::Refusal;
    /// assert_eq!(Refusal::from_number(4), Some(Refusal::TooManyNodes));
    /// assert_eq!(Refusal::from_number(0), None);
    /// for refusal in Refusal::ALL {
    ///     assert_eq!(Refusal::from_number(refusal.number()), Some(refusal));
    /// }
    /// ```
    pub fn from_number(number: u32) -> Option<Refusal> {
        Refusal::ALL.into_iter().find(|r| r.number() == number)
    }

    /// What an answer's number stands for: nothing refused, a refusal, or [`Refusal::Unknown`], but never success by
    /// mistake.
    ///
    /// ```
    /// # use bounds::Refusal;
    /// assert_eq!(Refusal::check(0), Ok(()));
    /// assert_eq!(Refusal::check(4), Err(Refusal::TooManyNodes));
    /// assert_eq!(Refusal::check(14), Err(Refusal::Unknown(14)));
    /// ```
    #[inline]
    pub fn check(number: u32) -> Result<(), Refusal> {
        match number {
            0 => Ok(()),
            _ => Err(Refusal::from_number(number).unwrap_or(Refusal::Unknown(number))),
        }
    }

    /// What was refused, and what to change.
    fn words(self) -> &'static str {
        match self {
            Refusal::ListTooLong => {
                "a list is over its limit (32,767 boxes or polygons, 32,768 vertices, 256 materials); split it"
            }
            Refusal::BufferTooShort => "a lent buffer is too short; lend the size that the operation names",
            Refusal::Threshold => "the threshold is outside 1 to 32,767; choose one within",
            Refusal::TooManyNodes => "the tree would have over 32,767 nodes; give fewer boxes or a higher threshold",
            Refusal::ShortRecord => "the record has under 16 bytes; give all of it",
            Refusal::UnknownKind => "the kind is unknown; see the operation for those that are known",
            Refusal::InfiniteMargin => "the starting margin is infinite; give a finite margin or a finite box",
            Refusal::TooManyMaterials => "too many different materials are used; merge some",
            Refusal::TreeRange => "a tree record's nodes are out of range; the records are damaged, build them anew",
            Refusal::NodeRecord => {
                "a node record leads out of its tree or list; the records are damaged, build them anew"
            }
            Refusal::TooManyHandedOut => {
                "more items would be handed out than there are; the records are damaged, build them anew"
            }
            Refusal::Address => "the bytes would pass the last address; place them lower",
            Refusal::RaggedInput => "the input ends inside a record; its length must be a multiple of 32",
            Refusal::Unknown(_) => "the library's refusal is not known here; build both from one version",
        }
    }
}

/// ```
/// assert_eq!(
///     bounds::Refusal::Threshold.to_string(),
///     "refused 3: the threshold is outside 1 to 32,767; choose one within"
/// );
/// ```
impl fmt::Display for Refusal {
    fn fmt(&self, f: &mut fmt::Formatter) -> fmt::Result {
        write!(f, "refused {}: {}", self.number(), self.words())
    }
}

impl std::error::Error for Refusal {}

#[cfg(test)]
mod tests {
    use super::Refusal;

    /// 0 alone is success, and each number has one refusal.
    #[test]
    fn every_other_number_is_an_error() {
        for number in (0..=1000).chain([u32::MAX]) {
            let expected = match number {
                0 => Ok(()),
                1..=13 => Err(Refusal::ALL[number as usize - 1]),
                _ => Err(Refusal::Unknown(number)),
            };
            assert_eq!(Refusal::check(number), expected, "{number}");
        }
        for (refusal, number) in Refusal::ALL.into_iter().zip(1..) {
            assert_eq!(refusal.number(), number);
        }
    }
}
