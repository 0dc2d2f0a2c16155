//! Random lists, as hostile as floats allow, from a seed: those over which the library is compared with the reference.
#![allow(dead_code, unused_imports)] // each test takes what it needs

pub mod command;
pub mod hostile;
pub mod mesh;
pub mod terrain;
pub mod world;

use bounds::BvhItem;
use compare::lists::{Lists, STYLES};
pub use compare::random::Random;
use tool::boxes::{Boxes, Origin};
use tool::dump::Dump;

/// A list of `n` entries, of any style.
pub fn list(random: &mut Random, n: usize) -> Vec<BvhItem> {
    let style = random.pick(&STYLES);
    Lists::new(random.u64()).items(n, style)
}

/// What the library builds of a list.
pub fn dump(name: &str, items: Vec<BvhItem>, threshold: u32) -> Dump {
    let boxes = Boxes { items, origin: Origin::Entries { file: name.into() } };
    Dump::build(name, boxes, threshold).expect("within the limits").0
}

/// Lengths that matter: few, about a range's limit, more.
pub fn length(random: &mut Random) -> usize {
    match random.below(40) {
        0 => 60 + random.below(12),
        1 => 128 + random.below(60),
        2..=9 => 16 + random.below(48),
        _ => random.below(14),
    }
}

/// One byte becomes one of these, or any.
pub fn damage(random: &mut Random, bytes: &mut [u8], with: &[u8]) {
    let (at, any) = (random.below(bytes.len()), random.u32() as u8);
    bytes[at] = random.pick(&[with, &[any]].concat());
}

/// Bytes at which numbers of records turn.
pub const TURNING: [u8; 5] = [0, 1, 0x7F, 0x80, 0xFF];

pub const THRESHOLDS: [u32; 9] = [1, 1, 1, 2, 3, 4, 8, 127, 32_767];
