//! A dump: a tree's bytes and, where it is known, the input that they came from.

mod folder;
mod opened;
mod records;

pub use folder::{entry_bytes, exactly, kind_of, manifest, tree_files, tree_records, ENTRY, FIRST_LINE};
pub use opened::Opened;
pub use records::Records;

use crate::boxes::{Boxes, Form};
use crate::failure::Failure;
use crate::mesh::Given;
use crate::output::Target;
use bounds::walk::{walk, Counts, Records as Lent};
use bounds::{Tree, Vec3};
use plain::walk::Walk;
use std::path::Path;

/// What a dump holds.
#[derive(Clone, Copy, Debug, PartialEq, Eq)]
pub enum Kind {
    Boxes,
    Mesh,
    /// A world that was split into meshes.
    Composite,
}

impl Kind {
    /// Its name in a dump's first file.
    pub fn name(self) -> &'static str {
        match self {
            Kind::Boxes => "boxes",
            Kind::Mesh => "mesh",
            Kind::Composite => "composite",
        }
    }

    fn of_name(name: &str) -> Option<Kind> {
        [Kind::Boxes, Kind::Mesh, Kind::Composite].into_iter().find(|kind| kind.name() == name)
    }
}

/// A tree's bytes, and its input where that is known.
#[derive(Clone, Debug)]
pub struct Dump {
    /// As the user named it.
    pub name: String,
    pub threshold: u32,
    /// Entries of the list, absent ones included.
    pub entries: usize,
    pub boxes: Option<Boxes>,
    pub records: Records,
}

/// How a dump is to be found.
#[derive(Clone, Copy, Debug, Default)]
pub struct Loading {
    /// Of a file of boxes; a folder has its own.
    pub threshold: Option<u32>,
    pub form: Option<Form>,
    /// Of a file with a mesh; a folder has its own.
    pub mesh: Given,
}

/// What a walk over a dump's bytes handed out.
pub struct Found {
    pub positions: Vec<u16>,
    pub reads: usize,
}

impl Dump {
    /// A folder that `bounds build` wrote, or a file of boxes, which is built.
    pub fn load(path: &str, loading: Loading) -> Result<Dump, Failure> {
        if !Path::new(path).is_dir() {
            let boxes = Boxes::read(path, loading.form)?;
            return Ok(Dump::build(path, boxes, loading.threshold.unwrap_or(1))?.0);
        }
        if loading.threshold.is_some() || loading.form.is_some() {
            let words = format!(
                "{path} is a dump and has its own threshold and boxes: leave out --threshold, --text, --records"
            );
            return Err(Failure::Usage(words));
        }
        folder::read(path)
    }

    /// The dump of a list, made by the library.
    pub fn build(name: &str, boxes: Boxes, threshold: u32) -> Result<(Dump, Tree), Failure> {
        let tree = Tree::build(&boxes.items, threshold)?;
        let (entries, records) = (boxes.items.len(), Records::of(&tree)?);
        Ok((Dump { name: name.into(), threshold, entries, boxes: Some(boxes), records }, tree))
    }

    /// Writes it as a folder, whole or not at all.
    pub fn write(&self, target: &Target) -> Result<(), Failure> {
        folder::write(self, target)
    }

    /// Its input, without which nothing can be explained.
    pub fn input(&self) -> Result<&Boxes, Failure> {
        self.boxes.as_ref().ok_or_else(|| {
            Failure::File(format!(
                "{}: boxes.bin is missing; the records alone cannot be explained or drawn",
                self.name
            ))
        })
    }

    /// Positions that leaves may name: the entries at threshold 1, else the order list's.
    pub fn item_count(&self) -> usize {
        if self.threshold == 1 {
            self.entries
        } else {
            self.records.order.len()
        }
    }

    /// The list place of a position, where there is one.
    pub fn place(&self, position: usize) -> Option<usize> {
        if self.threshold == 1 {
            (position < self.entries).then_some(position)
        } else {
            self.records.order.get(position).map(|&place| place as usize)
        }
    }

    /// The leaf record that holds each list place, by the records alone: the first where damaged ones have several.
    pub fn leaves(&self) -> Vec<Option<usize>> {
        let mut leaves = vec![None; self.entries];
        for k in 0..self.records.node_count().min(self.records.capacity()) {
            let Some(node) = self.records.node(k) else { break };
            let (first, count) = (node.item_id.max(0) as usize, node.item_count.max(0) as usize);
            for place in (first..first + count).filter_map(|position| self.place(position)) {
                leaves.get_mut(place).into_iter().for_each(|leaf| *leaf = leaf.or(Some(k)));
            }
        }
        leaves
    }

    /// The plain walk over the dump's bytes as they are.
    pub fn plain_walk(&self, min: Vec3, max: Vec3) -> Walk<'_> {
        let records = &self.records;
        let lent = Lent {
            node_bytes: &records.nodes,
            nodes_count: records.node_count(),
            tree_bytes: &records.trees,
            trees_count: records.tree_count(),
            items_count: self.item_count(),
        };
        Walk { min, max, cen: records.centre(), inverse: records.inverse(), records: lent }
    }

    /// The library's walk over the dump's bytes as they are.
    pub fn walk(&self, min: Vec3, max: Vec3) -> Result<Found, Failure> {
        let Walk { cen, inverse, records, .. } = self.plain_walk(min, max);
        let mut positions = vec![0; records.items_count];
        let Counts { reads, handed } = walk(min, max, cen, inverse, &records, &mut positions)?;
        positions.truncate(handed);
        Ok(Found { positions, reads })
    }

    /// The listing that the program `boxes` prints.
    pub fn listing(&self) -> String {
        let records = &self.records;
        let line = |what: &str, k: usize, min: [i16; 3], max: [i16; 3], a: i16, b: i16| {
            let numbers = [min[0], min[1], min[2], max[0], max[1], max[2], a, b].map(|n| n.to_string());
            format!("{what} {k} {}\n", numbers.join(" "))
        };
        let nodes = (0..records.node_count()).filter_map(|k| Some((k, records.node(k)?)));
        let trees = (0..records.tree_count()).filter_map(|k| Some((k, records.tree(k)?)));
        let mut text = format!("nodes {} {}\n", records.node_count(), records.capacity());
        text.extend(nodes.map(|(k, n)| line("node", k, n.min, n.max, n.item_id, n.item_count)));
        text.extend(trees.map(|(k, t)| line("tree", k, t.min, t.max, t.node_index1, t.node_index2)));
        text
    }
}
