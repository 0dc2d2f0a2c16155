//! The files of a folder.

use super::{boxed, TreeBytes, ENTRY, LEAF_LIMIT};
use crate::composite::CHILD_BOX;
use crate::error::Damage;
use crate::records::TreeRecords;
use crate::{BvhItem, Error, PreparedTree, Vec3};
use std::fs::File;
use std::io::Read;
use std::path::Path;

/// The most bytes that are read of a file: far above what those of a folder have.
const MOST_BYTES: u64 = 1 << 26;

/// A folder that is loaded.
pub(super) struct Folder<'a>(pub(super) &'a Path);

/// The word at a byte.
pub(super) fn word(bytes: &[u8], at: usize) -> u32 {
    u32::from_le_bytes([bytes[at], bytes[at + 1], bytes[at + 2], bytes[at + 3]])
}

/// The three floats at a byte.
pub(super) fn float3(bytes: &[u8], at: usize) -> Vec3 {
    let float = |k: usize| f32::from_bits(word(bytes, at + 4 * k));
    Vec3::new(float(0), float(1), float(2))
}

impl Folder<'_> {
    /// A file's bytes.
    pub(super) fn bytes(&self, name: &str) -> Result<Vec<u8>, Error> {
        let path = self.0.join(name);
        let mut bytes = Vec::new();
        let read = File::open(&path).and_then(|file| file.take(MOST_BYTES + 1).read_to_end(&mut bytes));
        match read {
            Ok(_) if bytes.len() as u64 > MOST_BYTES => {
                let damage = Damage::whole(name, format!("over {MOST_BYTES} bytes"), "a file of a folder");
                Err(self.damaged(damage.into()))
            }
            Ok(_) => Ok(bytes),
            Err(error) => Err(Error::Read { path, error }),
        }
    }

    /// A file of so many parts of so many bytes.
    pub(super) fn exactly(&self, name: &str, size: usize, count: usize, of: &str) -> Result<Vec<u8>, Error> {
        let bytes = self.bytes(name)?;
        let damage = || {
            let expected = format!("{}: {count} {of}", size * count);
            self.damaged(Damage::whole(name, format!("{} bytes", bytes.len()), expected).into())
        };
        if bytes.len() == size * count { Ok(()) } else { Err(damage()) }?;
        Ok(bytes)
    }

    /// An error with its file named by where it lies.
    pub(super) fn damaged(&self, error: Error) -> Error {
        match error {
            Error::Damage(damage) => Error::Damage(Damage { file: self.0.join(&damage.file), ..damage }),
            other => other,
        }
    }

    fn lines(&self) -> Result<Vec<String>, Error> {
        let bytes = self.bytes("dump.txt")?;
        Ok(String::from_utf8_lossy(&bytes).lines().map(String::from).collect())
    }

    fn wrong_line(&self, lines: &[String], at: usize, expected: &str) -> Error {
        let found = match lines.get(at) {
            Some(line) => format!("line {}, '{}'", at + 1, line.escape_debug()),
            None => format!("{} lines", lines.len()),
        };
        self.damaged(Damage::whole("dump.txt", found, expected).into())
    }

    /// What the folder is: `boxes`, `mesh` or `composite`.
    pub(super) fn kind(&self) -> Result<String, Error> {
        let lines = self.lines()?;
        if lines.first().map(String::as_str) != Some("bounds dump 1") {
            return Err(self.wrong_line(&lines, 0, "`bounds dump 1`"));
        }
        let kind = lines.get(1).and_then(|line| line.strip_prefix("kind "));
        let known = kind.filter(|kind| ["boxes", "mesh", "composite"].contains(kind));
        known
            .map(String::from)
            .ok_or_else(|| self.wrong_line(&lines, 1, "`kind boxes`, `kind mesh` or `kind composite`"))
    }

    /// The lines of dump.txt behind its kind, which is to be this one: a name each and a number up to a limit.
    pub(super) fn counts<const N: usize>(&self, kind: &str, limits: [(&str, usize); N]) -> Result<[usize; N], Error> {
        let lines = self.lines()?;
        if self.kind()? != kind {
            return Err(self.wrong_line(&lines, 1, &format!("`kind {kind}`")));
        }
        let mut counts = [0; N];
        for (k, (name, most)) in limits.into_iter().enumerate() {
            let value = lines.get(k + 2).and_then(|line| line.strip_prefix(name)?.trim().parse().ok());
            counts[k] = value
                .filter(|&n: &usize| n <= most)
                .ok_or_else(|| self.wrong_line(&lines, k + 2, &format!("`{name}` and a number up to {most}")))?;
        }
        Ok(counts)
    }

    /// The records of a tree over so many entries.
    pub(super) fn tree(&self, entries: usize, threshold: u32) -> Result<TreeRecords, Error> {
        let [header, nodes, trees, order] =
            ["header.bin", "nodes.bin", "trees.bin", "order.bin"].map(|name| self.bytes(name));
        let (header, nodes, trees, order) = (header?, nodes?, trees?, order?);
        let bytes = TreeBytes { header: &header, node_bytes: &nodes, tree_bytes: &trees, order: &order };
        TreeRecords::read(&bytes, entries, threshold).map_err(|error| self.damaged(error))
    }

    /// So many boxes of 28 bytes.
    pub(super) fn boxes(&self, count: usize, of: &str) -> Result<Vec<BvhItem>, Error> {
        let bytes = self.exactly("boxes.bin", ENTRY, count, &format!("{of}, by dump.txt"))?;
        Ok(bytes.chunks_exact(ENTRY).map(boxed).collect())
    }

    /// The tree over so many polygons, with their boxes.
    pub(super) fn prepared_tree(&self, polygons: usize) -> Result<PreparedTree, Error> {
        let records = self.tree(polygons, LEAF_LIMIT)?;
        let boxes = self.boxes(polygons, "polygons")?;
        PreparedTree::new(records, boxes).map_err(|error| self.damaged(error))
    }

    /// The boxes of a composite's children, 32 bytes each.
    pub(super) fn child_boxes(&self) -> Result<Vec<u8>, Error> {
        let bytes = self.bytes("child_boxes.bin")?;
        let most = crate::bvh::ENTRIES;
        if !bytes.len().is_multiple_of(CHILD_BOX) || bytes.len() > CHILD_BOX * most {
            let expected = format!("32 a child, of at most {most}");
            let damage = Damage::whole("child_boxes.bin", format!("{} bytes", bytes.len()), expected);
            return Err(self.damaged(damage.into()));
        }
        Ok(bytes)
    }
}
