//! Whether a list of boxes meets the premises under which a walk misses no item, and what breaks them first.
//!
//! ```
//! use bounds::premises::{ordinary, Axis, Broken, Corner};
//! use bounds::{BvhItem, Vec3};
//!
//! let good = BvhItem::new(Vec3::new(0.0, 0.0, 0.0), Vec3::new(1.0, 1.0, 1.0));
//! let huge = BvhItem::new(Vec3::new(0.0, 0.0, 0.0), Vec3::new(1.0, 2e30, 1.0));
//! assert_eq!(ordinary(&[good, BvhItem::ABSENT, good]), Ok(()));
//! let broken = ordinary(&[good, BvhItem::ABSENT, huge]).unwrap_err();
//! assert_eq!(broken, Broken::Size { place: 2, corner: Corner::Max, axis: Axis::Y });
//! assert_eq!(broken.to_string(), "entry 2: max y is not finite, or above 2^100 in size");
//! ```

use crate::bvh::BvhItem;
use crate::{ffi, Refusal};
use std::fmt;

/// An axis.
///
/// ```
/// # use bounds::{premises::*, BvhItem, Vec3};
/// let turned = BvhItem::new(Vec3::new(0.0, 1.0, 1.0), Vec3::ZERO); // on y and z
/// assert_eq!(ordinary(&[turned]), Err(Broken::Order { place: 0, axis: Axis::Y }));
/// assert_eq!(Axis::Y.to_string(), "y");
/// ```
#[derive(Clone, Copy, Debug, PartialEq, Eq, Hash)]
#[allow(missing_docs)]
pub enum Axis {
    X,
    Y,
    Z,
}

/// A corner of a box.
///
/// ```
/// # use bounds::{premises::*, BvhItem, Vec3};
/// let odd = BvhItem::new(Vec3::new(0.0, 0.0, f32::INFINITY), Vec3::new(f32::NAN, 0.0, 0.0));
/// // All of min is looked at before max.
/// assert_eq!(ordinary(&[odd]), Err(Broken::Size { place: 0, corner: Corner::Min, axis: Axis::Z }));
/// ```
#[derive(Clone, Copy, Debug, PartialEq, Eq, Hash)]
#[allow(missing_docs)]
pub enum Corner {
    Min,
    Max,
}

/// What breaks the premises first.
///
/// ```
/// # use bounds::{ordinary, premises::Broken, BvhItem, Vec3};
/// let point = |x: f32| BvhItem::new(Vec3::new(x, 0.0, 0.0), Vec3::new(x, 0.0, 0.0));
/// let mut items = [f32::NAN, 1.0, f32::INFINITY].map(point);
/// // Leaves out what breaks them by itself.
/// while let Err(Broken::Size { place, .. } | Broken::Order { place, .. }) = ordinary(&items) {
///     items[place] = BvhItem::ABSENT;
/// }
/// assert_eq!(items, [BvhItem::ABSENT, point(1.0), BvhItem::ABSENT]);
/// ```
#[derive(Clone, Copy, Debug, PartialEq, Eq, Hash)]
#[non_exhaustive]
pub enum Broken {
    /// This coordinate of the entry at the place is a NaN, infinite, or above 2^100 in size.
    #[allow(missing_docs)]
    Size { place: usize, corner: Corner, axis: Axis },
    /// On this axis the min of the entry at the place is above its max.
    #[allow(missing_docs)]
    Order { place: usize, axis: Axis },
    /// No entry by itself: on this axis the half extent of the box around all is neither 0 nor at least 2^-100.
    #[allow(missing_docs)]
    Extent { axis: Axis },
    /// The list was not read: it is over its limit.
    Refused(Refusal),
}

/// Whether the list meets the premises: all present boxes are finite with min at most max, no coordinate exceeds 2^100
/// in size, and on each axis the half extent of the box around them all is 0 or at least 2^-100. Over a tree of such a
/// list a walk hands out every item whose box meets the query. A list without a present entry meets them.
///
/// # Errors
///
/// What breaks them first: the first entry that does so by itself, and in it the first coordinate (min x, y, z, then
/// max) before the first axis with min above max; else the first axis of the box around all. [`Broken::Refused`] where
/// there are over 32,767 entries, which no build takes.
///
/// ```
/// # use bounds::{premises::*, BvhItem, Refusal, Vec3};
/// let point = |x: f32| BvhItem::new(Vec3::new(x, 0.0, 0.0), Vec3::new(x, 0.0, 0.0));
/// assert_eq!(ordinary(&[]), Ok(()));
/// assert_eq!(ordinary(&[point(1.0)]), Ok(()));
/// assert_eq!(ordinary(&[point(0.0), point(1e-35)]), Err(Broken::Extent { axis: Axis::X }));
/// let turned = BvhItem::new(Vec3::new(0.0, 0.0, 1.0), Vec3::ZERO);
/// assert_eq!(ordinary(&[point(0.0), turned]), Err(Broken::Order { place: 1, axis: Axis::Z }));
/// assert_eq!(ordinary(&[BvhItem::ABSENT; 32_768]), Err(Broken::Refused(Refusal::ListTooLong)));
/// ```
pub fn ordinary(items: &[BvhItem]) -> Result<(), Broken> {
    let answer = ffi::bounds_ordinary(items.len(), ffi::words(items));
    Refusal::check(answer.refusal).map_err(Broken::Refused)?;
    let place = answer.place as usize;
    let axis = |number: u32| [Axis::X, Axis::Y, Axis::Z][number as usize];
    match answer.fault {
        0 => Ok(()),
        n @ 1..=3 => Err(Broken::Size { place, corner: Corner::Min, axis: axis(n - 1) }),
        n @ 4..=6 => Err(Broken::Size { place, corner: Corner::Max, axis: axis(n - 4) }),
        n @ 7..=9 => Err(Broken::Order { place, axis: axis(n - 7) }),
        n @ 10..=12 => Err(Broken::Extent { axis: axis(n - 10) }),
        n => unreachable!("fault {n}: the library numbers them up to 12"),
    }
}

impl fmt::Display for Axis {
    fn fmt(&self, f: &mut fmt::Formatter) -> fmt::Result {
        f.write_str(match self {
            Axis::X => "x",
            Axis::Y => "y",
            Axis::Z => "z",
        })
    }
}

impl fmt::Display for Corner {
    fn fmt(&self, f: &mut fmt::Formatter) -> fmt::Result {
        f.write_str(match self {
            Corner::Min => "min",
            Corner::Max => "max",
        })
    }
}

impl fmt::Display for Broken {
    fn fmt(&self, f: &mut fmt::Formatter) -> fmt::Result {
        match self {
            Broken::Size { place, corner, axis } => {
                write!(f, "entry {place}: {corner} {axis} is not finite, or above 2^100 in size")
            }
            Broken::Order { place, axis } => write!(f, "entry {place}: min {axis} is above max {axis}"),
            Broken::Extent { axis } => {
                write!(f, "the box around all: its half extent on {axis} is neither 0 nor at least 2^-100")
            }
            Broken::Refused(refusal) => refusal.fmt(f),
        }
    }
}

impl std::error::Error for Broken {}
