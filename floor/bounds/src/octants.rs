//! The octants of a geometry: in each of eight directions the vertices that no other one shadows.
//!
//! ```
//! use bounds::{calculate_octants, Vec3};
//!
//! let one = Vec3::new(1.0, 1.0, 1.0);
//! let octants = calculate_octants(&[Vec3::ZERO, one, one])?;
//! assert_eq!(octants.items[0], [1]); // of equal ones the first
//! assert_eq!(octants.items[7], [0]);
//! assert_eq!(octants.items[1], [0, 1]);
//!
//! let bytes = octants.write(0x5000_0000)?;
//! assert_eq!(bytes.len(), octants.length());
//! assert_eq!(bytes[..8], [1, 0, 0, 0, 2, 0, 0, 0]); // the first two counts
//! assert_eq!(bytes[32..40], 0x5000_0060u64.to_le_bytes()); // where the first list is
//! # Ok::<(), bounds::Refusal>(())
//! ```

use crate::bvh::parts;
use crate::{ffi, Refusal, Vec3};

/// Most vertices, and most indices of a list.
///
/// ```
/// # use bounds::{octants::VERTICES, Octants, Refusal};
/// assert_eq!(VERTICES, 0x7FFF + 1); // what a triangle can name: bit 15 is a flag
/// let mut octants = Octants::default();
/// octants.items[3] = vec![0; VERTICES + 1];
/// assert_eq!(octants.write(0), Err(Refusal::ListTooLong));
/// ```
pub const VERTICES: usize = 32_768;

/// Eight lists of vertex indices, one for each direction: bits 0, 1 and 2 of its number turn x, y and z around.
///
/// ```
/// # use bounds::{calculate_octants, Vec3};
/// let octants = calculate_octants(&[Vec3::ZERO, Vec3::new(0.0, 0.0, 1.0)])?;
/// let [up, _, _, _, down, ..] = octants.items;
/// assert_eq!((up, down), (vec![1], vec![0])); // bit 2 turns z
/// # Ok::<(), bounds::Refusal>(())
/// ```
#[derive(Clone, Debug, Default, PartialEq, Eq)]
#[allow(missing_docs)]
pub struct Octants {
    pub items: [Vec<u32>; 8],
}

impl Octants {
    /// Bytes that the lists are written in: 128, and 4 an index.
    ///
    /// ```
    /// # use bounds::Octants;
    /// assert_eq!(Octants::default().length(), 128);
    /// ```
    pub fn length(&self) -> usize {
        bytes_len(self.items.iter().map(Vec::len).sum())
    }

    /// The bytes of the block that stands at this address: eight counts, eight pointers to the lists, also to empty ones,
    /// the lists, and 32 zeros.
    ///
    /// # Errors
    ///
    /// Refusals 1 (a list of over [`VERTICES`] indices) and 12 (address + 96 + 4 an index passes 2^64 - 1), in this order.
    ///
    /// ```
    /// # use bounds::{Octants, Refusal};
    /// let mut octants = Octants::default();
    /// octants.items[2] = vec![6, 7];
    /// let bytes = octants.write(0x1000)?;
    /// assert_eq!(bytes[56..58], [0x68, 0x10]); // the fourth pointer: 1060 and two indices
    /// assert_eq!(octants.write(u64::MAX - 103), Err(Refusal::Address));
    /// # Ok::<(), Refusal>(())
    /// ```
    pub fn write(&self, address: u64) -> Result<Vec<u8>, Refusal> {
        let mut bytes = vec![0; self.length()];
        self.write_to(address, &mut bytes)?;
        Ok(bytes)
    }

    /// [`Octants::write`] into the first [`Octants::length`] bytes of a lent buffer; what lies behind stays as it was.
    ///
    /// # Errors
    ///
    /// As there, and refusal 2 (too few bytes) between the two. None changes a byte.
    ///
    /// ```
    /// # use bounds::{Octants, Refusal};
    /// assert_eq!(Octants::default().write_to(0, &mut [0; 127]), Err(Refusal::BufferTooShort));
    /// ```
    pub fn write_to(&self, address: u64, out: &mut [u8]) -> Result<(), Refusal> {
        write_octants(address, self.items.each_ref().map(|list| &list[..]), out)
    }
}

/// Bytes that so many indices are written in.
fn bytes_len(indices: usize) -> usize {
    indices.saturating_mul(4).saturating_add(128)
}

/// Words that are lent for the lists of so many vertices: each of the eight may have all of them.
///
/// ```
/// assert_eq!(bounds::octants::lists_len(3), 24);
/// ```
pub fn lists_len(vertices: usize) -> usize {
    vertices.saturating_mul(8)
}

/// Words of the work buffer for so many vertices.
///
/// ```
/// assert_eq!(bounds::octants::work_len(3), 30);
/// ```
pub fn work_len(vertices: usize) -> usize {
    u32::try_from(vertices).map_or(usize::MAX, |n| ffi::bounds_octants_work_len(n) as usize)
}

/// For each direction the vertices that no other one shadows, rising.
///
/// Vertex b shadows a where on each axis b - a, turned around where the direction says so, is at least 0. Of vertices that
/// shadow one another, which are the equal ones, the first is listed. A NaN neither shadows nor is shadowed, and two equal
/// infinities do not shadow one another, since their difference is a NaN.
///
/// # Errors
///
/// Refusal 1: over [`VERTICES`] vertices.
///
/// ```
/// # use bounds::{calculate_octants, Refusal, Vec3};
/// let far = Vec3::new(f32::INFINITY, 0.0, 0.0);
/// let octants = calculate_octants(&[far, far])?;
/// assert!(octants.items.iter().all(|list| *list == [0, 1]));
/// assert_eq!(calculate_octants(&vec![far; 32_769]), Err(Refusal::ListTooLong));
/// # Ok::<(), Refusal>(())
/// ```
pub fn calculate_octants(vertices: &[Vec3]) -> Result<Octants, Refusal> {
    // Of what is refused by its number nothing is allocated.
    let n = if vertices.len() > VERTICES { 0 } else { vertices.len() };
    let (mut lists, mut work) = (vec![0; lists_len(n)], vec![0; work_len(n)]);
    let counts = calculate_octants_in(vertices, &mut lists, &mut work)?;
    Ok(Octants { items: std::array::from_fn(|k| lists[k * n..k * n + counts[k]].to_vec()) })
}

/// [`calculate_octants`] in lent buffers of [`lists_len`] and [`work_len`] words; longer ones will do. Answers how many
/// indices each list has: of n vertices list k begins at word k · n. The other words of `lists` stay as they were. What
/// the work buffer holds does not matter, nor what it holds afterwards.
///
/// # Errors
///
/// Refusals 1 (over [`VERTICES`] vertices) and 2 (a buffer too short), in this order. Neither changes a list.
///
/// ```
/// # use bounds::{octants::*, Refusal, Vec3};
/// let vertices = [Vec3::ZERO, Vec3::new(1.0, 1.0, 1.0)];
/// let (mut lists, mut work) = ([9; 16], [0; 20]);
/// assert_eq!(calculate_octants_in(&vertices, &mut lists, &mut work)?, [1, 2, 2, 2, 2, 2, 2, 1]);
/// assert_eq!(lists[..4], [1, 9, 0, 1]);
/// assert_eq!(lists[14..], [0, 9]);
/// assert_eq!(calculate_octants_in(&vertices, &mut lists, &mut work[1..]), Err(Refusal::BufferTooShort));
/// # Ok::<(), Refusal>(())
/// ```
pub fn calculate_octants_in(vertices: &[Vec3], lists: &mut [u32], work: &mut [u32]) -> Result<[usize; 8], Refusal> {
    let answer = ffi::bounds_calculate_octants(vertices.len(), ffi::words(vertices), lists, cut(work, vertices.len()));
    Refusal::check(answer.refusal)?;
    Ok(answer.counts.map(|count| count as usize))
}

/// Writes eight lists of indices as the bytes of the block at this address, as [`Octants::write_to`] does.
///
/// # Errors
///
/// Refusals 1 (a list of over [`VERTICES`] indices), 2 (under 128 bytes and 4 an index), 12 (address + 96 + 4 an index
/// passes 2^64 - 1), in this order. None changes a byte.
///
/// ```
/// # use bounds::{octants::write_octants, Refusal};
/// let mut out = [7; 136];
/// write_octants(0x1000, [&[5], &[], &[], &[], &[], &[], &[], &[]], &mut out)?;
/// assert_eq!((out[0], out[96], out[132]), (1, 5, 7));
/// assert_eq!(write_octants(u64::MAX - 95, [&[]; 8], &mut out), Err(Refusal::Address));
/// assert_eq!(write_octants(u64::MAX - 96, [&[]; 8], &mut out), Ok(()));
/// # Ok::<(), Refusal>(())
/// ```
pub fn write_octants(address: u64, lists: [&[u32]; 8], out: &mut [u8]) -> Result<(), Refusal> {
    Refusal::check(ffi::bounds_write_octants(address, lists, out))
}

/// The work buffer in five parts: keys, rows, order, temp, marks. Each gets its length or what is left, and the last all
/// that is left: the library then finds a part too short where the whole is.
fn cut(work: &mut [u32], vertices: usize) -> [&mut [u32]; 5] {
    let n = vertices.min(VERTICES);
    parts(work, [3 * n, 4 * n, n, n, usize::MAX])
}
