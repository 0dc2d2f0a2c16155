//! One float step each.
//!
//! A float that is stored or copied is a *word*, its 32 bits; a float that is computed with is an `f32`. Functions over
//! words copy, so that a NaN keeps its bits.

use crate::ffi;
use std::cmp::Ordering;

/// The float that a word stands for. A NaN's pattern gives some NaN.
///
/// ```
/// assert_eq!(bounds::float::value(0x3F80_0000), 1.0);
/// assert!(bounds::float::value(0xFF80_0001).is_nan());
/// ```
#[inline]
pub fn value(word: u32) -> f32 {
    ffi::bounds_value(word)
}

/// The word of a float; `7FC00000` for every NaN.
///
/// ```
/// assert_eq!(bounds::float::bits(-0.0), 0x8000_0000);
/// assert_eq!(bounds::float::bits(-f32::NAN), 0x7FC0_0000);
/// ```
#[inline]
pub fn bits(x: f32) -> u32 {
    ffi::bounds_bits(x)
}

/// [`bits`] of [`value`]: the word itself, or `7FC00000` for every NaN.
///
/// ```
/// assert_eq!(bounds::float::value_bits(0x8000_0001), 0x8000_0001);
/// assert_eq!(bounds::float::value_bits(0xFF80_0001), 0x7FC0_0000);
/// ```
#[inline]
pub fn value_bits(word: u32) -> u32 {
    ffi::bounds_value_bits(word)
}

/// The relation of IEEE 754-2019, 5.11; `None` for unordered.
///
/// ```
/// use std::cmp::Ordering::*;
/// assert_eq!(bounds::float::relate(1.0, 2.0), Some(Less));
/// assert_eq!(bounds::float::relate(1.0, f32::NAN), None);
/// ```
#[inline]
pub fn relate(a: f32, b: f32) -> Option<Ordering> {
    match ffi::bounds_relate(a, b) {
        0 => Some(Ordering::Less),
        1 => Some(Ordering::Equal),
        2 => Some(Ordering::Greater),
        _ => None,
    }
}

/// The order that sorting goes by: NaN below all else, two NaNs equal, −0 equal to 0.
///
/// ```
/// use std::cmp::Ordering::*;
/// assert_eq!(bounds::float::cmp_f32(f32::NAN, f32::NEG_INFINITY), Less);
/// assert_eq!(bounds::float::cmp_f32(-0.0, 0.0), Equal);
/// ```
#[inline]
pub fn cmp_f32(a: f32, b: f32) -> Ordering {
    ffi::bounds_cmp_f32(a, b).cmp(&0)
}

/// A number whose order is [`cmp_f32`]'s of the words' floats.
///
/// ```
/// use bounds::float::order_key;
/// assert_eq!(order_key(0x8000_0000), order_key(0));
/// assert!(order_key(0x7FC0_0000) < order_key(0xFF80_0000));
/// ```
#[inline]
pub fn order_key(word: u32) -> u32 {
    ffi::bounds_order_key(word)
}

/// `a` if `a < b`, else `b`: a NaN on either side gives `b`, and so does a tie.
///
/// ```
/// use bounds::float::vmin;
/// assert_eq!(vmin(vmin(1.0, f32::NAN), 3.0), 3.0);
/// assert!(vmin(1.0, f32::NAN).is_nan());
/// ```
#[inline]
pub fn vmin(a: f32, b: f32) -> f32 {
    ffi::bounds_vmin(a, b)
}

/// `a` if `a > b`, else `b`.
///
/// ```
/// assert_eq!(bounds::float::vmax(f32::NAN, 3.0), 3.0);
/// ```
#[inline]
pub fn vmax(a: f32, b: f32) -> f32 {
    ffi::bounds_vmax(a, b)
}

/// [`vmin`] of the words' floats, as the word that was chosen.
///
/// ```
/// assert_eq!(bounds::float::vmin_word(0x3F80_0000, 0xFF80_0001), 0xFF80_0001);
/// ```
#[inline]
pub fn vmin_word(a: u32, b: u32) -> u32 {
    ffi::bounds_vmin_word(a, b)
}

/// [`vmax`] of the words' floats, as the word that was chosen.
///
/// ```
/// assert_eq!(bounds::float::vmax_word(0xFF80_0001, 0x3F80_0000), 0x3F80_0000);
/// ```
#[inline]
pub fn vmax_word(a: u32, b: u32) -> u32 {
    ffi::bounds_vmax_word(a, b)
}

/// `f32::min`: the number where the other is a NaN.
///
/// ```
/// assert_eq!(bounds::float::min_number(f32::NAN, 3.0), 3.0);
/// ```
#[inline]
pub fn min_number(a: f32, b: f32) -> f32 {
    ffi::bounds_min_number(a, b)
}

/// `f32::max`: the number where the other is a NaN.
///
/// ```
/// assert_eq!(bounds::float::max_number(1.0, f32::NAN), 1.0);
/// ```
#[inline]
pub fn max_number(a: f32, b: f32) -> f32 {
    ffi::bounds_max_number(a, b)
}

/// `x as i32`: toward zero, to the nearest end of the range beyond it, and 0 for a NaN.
///
/// ```
/// assert_eq!(bounds::float::to_i32(-1.9), -1);
/// assert_eq!(bounds::float::to_i32(1e20), i32::MAX);
/// ```
#[inline]
pub fn to_i32(x: f32) -> i32 {
    ffi::bounds_to_i32(x)
}

/// The low 16 bits, as a signed number.
///
/// ```
/// assert_eq!(bounds::float::wrap_i16(40000), -25536);
/// ```
#[inline]
pub fn wrap_i16(n: i32) -> i16 {
    ffi::bounds_wrap_i16(n)
}

/// A node value: `x as i32 as i16`, which wraps and does not clamp.
///
/// ```
/// use bounds::float::to_short;
/// assert_eq!(to_short(40000.0), -25536);
/// assert_eq!(to_short(f32::INFINITY), -1);
/// assert_eq!(to_short(f32::NAN), 0);
/// ```
#[inline]
pub fn to_short(x: f32) -> i16 {
    ffi::bounds_to_short(x)
}

/// A vertex value: NaN to 0, clamped to 32767 either way, then truncated.
///
/// ```
/// use bounds::float::vertex_value;
/// assert_eq!(vertex_value(40000.0), 32767);
/// assert_eq!(vertex_value(-0.9), 0);
/// ```
#[inline]
pub fn vertex_value(x: f32) -> i16 {
    ffi::bounds_vertex_value(x)
}

/// The square root, correctly rounded: −0 for −0, a NaN below 0.
///
/// ```
/// assert_eq!(bounds::float::sqrt(2.0).to_bits(), 0x3FB5_04F3);
/// ```
#[inline]
pub fn sqrt(x: f32) -> f32 {
    ffi::bounds_sqrt(x)
}

/// The number, exactly.
///
/// ```
/// assert_eq!(bounds::float::of_count(65535), 65535.0);
/// ```
#[inline]
pub fn of_count(n: u16) -> f32 {
    ffi::bounds_of_count(n)
}
