//! A dump as a folder:
//!
//! ```text
//! dump.txt     bounds dump 1
//!              kind boxes
//!              threshold 1
//!              entries 6
//! boxes.bin    the input, 28 bytes an entry: a mark (0 for absent), min x y z, max x y z, four bytes each
//! header.bin   128 bytes
//! nodes.bin    16 bytes a node record, with the padding
//! trees.bin    16 bytes a tree record
//! order.bin    2 bytes a place
//! listing.txt  what the program `boxes` prints
//! ```
//!
//! All numbers are little-endian. boxes.bin may be missing, where only a builder's records are at hand; listing.txt is
//! for people and is not read.

use super::{Dump, Kind, Records};
use crate::boxes::{entry, read_file, words, Boxes, Origin};
use crate::failure::Failure;
use crate::output::{write_folder, Target};
use std::path::Path;

/// The first line of dump.txt.
pub const FIRST_LINE: &str = "bounds dump 1";

/// The most node records of a build: twice its entries and one.
const MOST_NODES: usize = 65_535;

/// Bytes of an entry in boxes.bin.
pub const ENTRY: usize = 28;

/// Writes a dump's files.
pub fn write(dump: &Dump, target: &Target) -> Result<(), Failure> {
    let Dump { threshold, entries, records, .. } = dump;
    let kind = Kind::Boxes.name();
    let first = format!("{FIRST_LINE}\nkind {kind}\nthreshold {threshold}\nentries {entries}\n");
    let mut files: Vec<(&str, Vec<u8>)> =
        vec![("dump.txt", first.into_bytes()), ("listing.txt", dump.listing().into_bytes())];
    files.extend(tree_files(records));
    if let Some(boxes) = &dump.boxes {
        files.push(("boxes.bin", boxes.items.iter().flat_map(entry_bytes).collect()));
    }
    write_folder(target, &files)
}

/// The files of a tree's records.
pub fn tree_files(records: &Records) -> [(&'static str, Vec<u8>); 4] {
    let order = records.order.iter().flat_map(|place| place.to_le_bytes()).collect();
    [
        ("header.bin", records.header.to_vec()),
        ("nodes.bin", records.nodes.clone()),
        ("trees.bin", records.trees.clone()),
        ("order.bin", order),
    ]
}

/// The 28 bytes of an entry.
pub fn entry_bytes(item: &bounds::BvhItem) -> Vec<u8> {
    let mark = u32::from(item.present != 0);
    std::iter::once(mark).chain(words(item)).flat_map(u32::to_le_bytes).collect()
}

/// Reads a dump's files.
pub fn read(path: &str) -> Result<Dump, Failure> {
    let file = |name: &str| Path::new(path).join(name).to_string_lossy().into_owned();
    let limits = [("threshold", 32_767), ("entries", 32_767)];
    let [threshold, entries] = manifest(&file("dump.txt"), Kind::Boxes, limits)?;
    let records = tree_records(path, entries)?;
    let boxes = match Path::new(&file("boxes.bin")).exists() {
        true => Some(boxes(&file("boxes.bin"), entries)?),
        false => None,
    };
    Ok(Dump { name: path.into(), threshold: threshold as u32, entries, boxes, records })
}

/// The records of a tree in a folder, over so many entries.
pub fn tree_records(path: &str, entries: usize) -> Result<Records, Failure> {
    let file = |name: &str| Path::new(path).join(name).to_string_lossy().into_owned();
    let header = read_file(&file("header.bin"))?;
    let header =
        header.as_slice().try_into().map_err(|_| length(&file("header.bin"), header.len(), 128, "a header"))?;
    let mut records = Records { header, nodes: Vec::new(), trees: Vec::new(), order: Vec::new() };
    let (capacity, trees) = (records.header_word(12) as usize, records.header_word(120) as u16 as usize);
    if capacity > MOST_NODES {
        let path = file("header.bin");
        return Err(Failure::File(format!(
            "{path}, bytes 12-15: {capacity} node records; expected at most {MOST_NODES}"
        )));
    }
    records.nodes = exactly(&file("nodes.bin"), 16, capacity, "records, by bytes 12-15 of header.bin")?;
    records.trees = exactly(&file("trees.bin"), 16, trees, "records, by bytes 120-121 of header.bin")?;
    records.order = order(&file("order.bin"), entries)?;
    Ok(records)
}

fn length(path: &str, found: usize, expected: usize, of: &str) -> Failure {
    Failure::File(format!("{path}: {found} bytes; expected {expected}: {of}"))
}

/// A file of so many parts of so many bytes.
pub fn exactly(path: &str, size: usize, count: usize, of: &str) -> Result<Vec<u8>, Failure> {
    let bytes = read_file(path)?;
    let expected = size.saturating_mul(count);
    if bytes.len() != expected {
        return Err(length(path, bytes.len(), expected, &format!("{count} {of}")));
    }
    Ok(bytes)
}

/// The kind that a folder's dump.txt names, where it names one.
pub fn kind_of(path: &str) -> Option<Kind> {
    let bytes = read_file(&Path::new(path).join("dump.txt").to_string_lossy()).ok()?;
    String::from_utf8_lossy(&bytes).lines().nth(1)?.strip_prefix("kind ").and_then(Kind::of_name)
}

/// The lines of dump.txt behind its kind: a name each and a number up to a limit.
pub fn manifest<const N: usize>(path: &str, kind: Kind, limits: [(&str, usize); N]) -> Result<[usize; N], Failure> {
    let bytes = read_file(path)?;
    let text = String::from_utf8_lossy(&bytes);
    let mut lines = text.lines().zip(1..);
    let mut next = |expected: &str| match lines.next() {
        Some((line, number)) => Ok((line.to_string(), number)),
        None => Err(Failure::File(format!("{path}: ends early; expected `{expected}`"))),
    };
    let wrong = |number: usize, line: &str, expected: &str| {
        Failure::File(format!("{path}, line {number}: '{}'; expected {expected}", line.escape_debug()))
    };
    let (line, at) = next(FIRST_LINE)?;
    if line != FIRST_LINE {
        return Err(wrong(at, &line, &format!("`{FIRST_LINE}`")));
    }
    let (line, at) = next(&format!("kind {}", kind.name()))?;
    if line.strip_prefix("kind ").and_then(Kind::of_name) != Some(kind) {
        return Err(wrong(at, &line, "`kind boxes` or `kind mesh`, those that this version knows"));
    }
    let mut numbers = [0; N];
    for (number, (name, most)) in numbers.iter_mut().zip(limits) {
        let (line, at) = next(&format!("{name} N"))?;
        let value = line.strip_prefix(name).and_then(|rest| rest.trim().parse().ok()).filter(|&n: &usize| n <= most);
        *number = value.ok_or_else(|| wrong(at, &line, &format!("`{name}` and a number up to {most}")))?;
    }
    Ok(numbers)
}

/// The order list: at most one place an entry, and each below the entries.
fn order(path: &str, entries: usize) -> Result<Vec<u16>, Failure> {
    let bytes = read_file(path)?;
    if !bytes.len().is_multiple_of(2) || bytes.len() > 2 * entries {
        return Err(Failure::File(format!(
            "{path}: {} bytes; expected two a present entry, at most {}",
            bytes.len(),
            2 * entries
        )));
    }
    Ok(bytes.chunks_exact(2).map(|b| u16::from_le_bytes([b[0], b[1]])).collect())
}

fn boxes(path: &str, entries: usize) -> Result<Boxes, Failure> {
    let bytes = exactly(path, ENTRY, entries, "entries, by dump.txt")?;
    let word = |b: &[u8], k: usize| u32::from_le_bytes(std::array::from_fn(|i| b[4 * k + i]));
    let item = |b: &[u8]| entry(word(b, 0), std::array::from_fn(|k| word(b, k + 1)));
    Ok(Boxes { items: bytes.chunks_exact(ENTRY).map(item).collect(), origin: Origin::Entries { file: path.into() } })
}
