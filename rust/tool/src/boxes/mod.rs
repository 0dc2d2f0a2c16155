//! The input: a list of boxes, and where in its file each value stands.

mod children;
mod text;

pub use text::number;

use crate::failure::Failure;
use bounds::premises::{Axis, Corner};
use bounds::BvhItem;
use std::io::Read;

/// The most bytes that are read of a file: far above what the entries of a build take in any of the forms.
const MOST_BYTES: u64 = 1 << 26;

/// A list of boxes as a file has it.
#[derive(Clone, Debug)]
pub struct Boxes {
    pub items: Vec<BvhItem>,
    pub origin: Origin,
}

/// Where an input's values stand.
#[derive(Clone, Debug)]
pub enum Origin {
    /// Lines of text, by the line of each entry, from 1.
    Text { file: String, lines: Vec<usize> },
    /// Child box records of 32 bytes.
    Children { file: String },
    /// The entries of a dump, 28 bytes each.
    Entries { file: String },
    /// The boxes of a mesh's polygons, by the line of each.
    Polygons { file: String, lines: Vec<usize> },
}

/// How a file's boxes are written.
#[derive(Clone, Copy, Debug, PartialEq, Eq)]
pub enum Form {
    Text,
    Children,
}

impl Boxes {
    /// The boxes of a file, or of standard input for `-`. Without a form it is text unless bytes say otherwise.
    pub fn read(path: &str, form: Option<Form>) -> Result<Boxes, Failure> {
        Boxes::of_bytes(path, &read_file(path)?, form)
    }

    /// The boxes of a file's bytes.
    pub fn of_bytes(path: &str, bytes: &[u8], form: Option<Form>) -> Result<Boxes, Failure> {
        match form.unwrap_or_else(|| guess(bytes)) {
            Form::Text => text::boxes(path, bytes),
            Form::Children => children::boxes(path, bytes),
        }
    }
}

/// Six numbers a line: the queries of a file.
pub fn queries(path: &str) -> Result<Vec<(usize, [f32; 6])>, Failure> {
    text::queries(path, &read_file(path)?)
}

/// Three numbers with commas: a corner on the command line.
pub fn point(word: &str) -> Option<[f32; 3]> {
    let numbers: Vec<f32> = word.split(',').map(text::number).collect::<Result<_, _>>().ok()?;
    numbers.try_into().ok()
}

/// Text has no control characters but tabs and ends of lines; the records of boxes have zeros at least in places.
fn guess(bytes: &[u8]) -> Form {
    let plain = |c: char| !c.is_control() || matches!(c, '\t' | '\n' | '\r');
    match std::str::from_utf8(bytes) {
        Ok(text) if text.chars().all(plain) => Form::Text,
        _ => Form::Children,
    }
}

/// A file's bytes; `-` is standard input.
pub fn read_file(path: &str) -> Result<Vec<u8>, Failure> {
    let failed = |error| Failure::reach(path, "read", &error);
    let mut bytes = Vec::new();
    if path == "-" {
        std::io::stdin().lock().take(MOST_BYTES + 1).read_to_end(&mut bytes).map_err(failed)?;
    } else {
        std::fs::File::open(path).map_err(failed)?.take(MOST_BYTES + 1).read_to_end(&mut bytes).map_err(failed)?;
    }
    if bytes.len() as u64 > MOST_BYTES {
        return Err(Failure::File(format!(
            "{path}: over {MOST_BYTES} bytes; expected a list of at most 32,767 boxes or polygons"
        )));
    }
    Ok(bytes)
}

impl Origin {
    /// Where an entry stands: `a.bin bytes 64-95`, `six.txt line 4`.
    pub fn entry(&self, place: usize) -> String {
        match self {
            Origin::Text { file, lines } => format!("{file} line {}", lines.get(place).copied().unwrap_or(0)),
            Origin::Children { file } => format!("{file} bytes {}-{}", 32 * place, 32 * place + 31),
            Origin::Entries { file } => format!("{file} bytes {}-{}", 28 * place, 28 * place + 27),
            Origin::Polygons { file, lines } => {
                format!("the box of the polygon in {file} line {}", lines.get(place).copied().unwrap_or(0))
            }
        }
    }

    /// Where a value of an entry stands: `a.bin bytes 64-67`, `six.txt line 4, number 1`.
    pub fn value(&self, place: usize, corner: Corner, axis: Axis) -> String {
        let nth = 3 * corner as usize + axis as usize;
        let bytes = |at: usize| format!("bytes {at}-{}", at + 3);
        match self {
            Origin::Text { file, lines } => {
                format!("{file} line {}, number {}", lines.get(place).copied().unwrap_or(0), nth + 1)
            }
            Origin::Children { file } => {
                format!("{file} {}", bytes(32 * place + 16 * corner as usize + 4 * axis as usize))
            }
            Origin::Entries { file } => format!("{file} {}", bytes(28 * place + 4 + 4 * nth)),
            Origin::Polygons { .. } => self.entry(place),
        }
    }
}

/// The six words of an entry's box: min x, y, z, max x, y, z.
pub fn words(item: &BvhItem) -> [u32; 6] {
    [item.min.x, item.min.y, item.min.z, item.max.x, item.max.y, item.max.z].map(f32::to_bits)
}

/// The entry of a mark and six words.
pub fn entry(present: u32, w: [u32; 6]) -> BvhItem {
    let [a, b, c, d, e, f] = w.map(f32::from_bits);
    BvhItem { present, min: bounds::Vec3::new(a, b, c), max: bounds::Vec3::new(d, e, f) }
}
