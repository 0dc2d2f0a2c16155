//! Boxes as child box records: 32 bytes each, min, w, max, w, each a little-endian f32; w is ignored and all are present.

use super::{entry, Boxes, Origin};
use crate::failure::Failure;
use bounds::Refusal;

/// Bytes of a record.
const RECORD: usize = 32;

/// The boxes of the records.
pub fn boxes(path: &str, bytes: &[u8]) -> Result<Boxes, Failure> {
    if !bytes.len().is_multiple_of(RECORD) {
        let (length, whole) = (bytes.len(), bytes.len() / RECORD);
        let words = format!("{path}: {length} bytes are {whole} records and {} bytes more", length % RECORD);
        return Err(Failure::Refused(format!(
            "{}\n{words}; boxes as text begin with `#` or a number",
            Refusal::RaggedInput
        )));
    }
    let word =
        |record: &[u8], at: usize| u32::from_le_bytes([record[at], record[at + 1], record[at + 2], record[at + 3]]);
    let items = bytes.chunks_exact(RECORD).map(|r| entry(1, [0, 4, 8, 16, 20, 24].map(|at| word(r, at)))).collect();
    Ok(Boxes { items, origin: Origin::Children { file: path.into() } })
}

#[cfg(test)]
mod tests {
    use super::*;
    use bounds::premises::{Axis, Corner};

    #[test]
    fn records_become_entries_and_w_is_ignored() {
        let floats = [1.0f32, 2.0, 3.0, f32::NAN, 4.0, 5.0, 6.0, 7.0];
        let list = boxes("a.bin", &floats.map(f32::to_le_bytes).concat()).expect("one record");
        assert_eq!((list.items.len(), list.items[0].min.z, list.items[0].max.x), (1, 3.0, 4.0));
        assert_eq!(list.origin.value(2, Corner::Max, Axis::Y), "a.bin bytes 84-87");
    }

    #[test]
    fn a_ragged_file_is_refused_by_its_number() {
        let failure = boxes("a.bin", &[0; 33]).expect_err("33 bytes");
        assert_eq!(failure.status(), 1);
        assert!(failure.to_string().contains("refused 13") && failure.to_string().contains("1 records and 1 bytes"));
    }
}
