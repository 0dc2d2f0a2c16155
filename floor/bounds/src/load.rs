//! Records back from files, so that they can be queried: a folder that the command `bounds` wrote, or the bytes that a converter
//! keeps. docs/FILES.md has each file byte by byte.
//!
//! | to be queried | from a folder | from bytes |
//! |---|---|---|
//! | a prepared mesh's tree | [`PreparedTree::load`] | [`PreparedTree::read`] |
//! | all of a prepared mesh | [`Prepared::load`] | |
//! | a tree of boxes | [`Tree::load`] | [`Tree::read`] |
//! | a composite's tree | [`CompositeTree::load`] | [`CompositeTree::read`] |
//! | records without their boxes | [`TreeRecords::load`] | [`TreeRecords::read`] |
//!
//! Everything that a walk would refuse is looked for, so that a query over what was loaded is never refused: sizes, counts,
//! ranges, what each node leads to, and that each item lies in one leaf; and that each inner node counts what is below it and
//! nothing else, since a walk skips as many nodes. What is wrong is an [`Error::Damage`], which names the file and the byte. Whether the values of boxes are those that were prepared, no load can say; the command `bounds` can,
//! where the input is at hand.
//!
//! ```
//! use bounds::tree::{Addresses, TreeBytes};
//! use bounds::{Geometry, PreparedTree, Vec3};
//!
//! // What a converter keeps of a prepared mesh:
//! let at = |x: f32, y: f32| Vec3::new(x, y, 0.0);
//! let tree = Geometry::from_triangles(&[at(5.0, 0.0), at(9.0, 0.0), at(5.0, 4.0)], &[[0, 1, 2]]).prepare()?.bvh.expect("a tree");
//! let header = tree.header(Addresses::default())?;
//! let order: Vec<u8> = tree.order.iter().flat_map(|place| place.to_le_bytes()).collect();
//!
//! // And what a server makes of it:
//! let bytes = TreeBytes { header: &header, node_bytes: &tree.node_bytes, tree_bytes: &tree.tree_bytes, order: &order };
//! let loaded = PreparedTree::read(&bytes, tree.boxes().to_vec())?;
//! assert_eq!(loaded.query(at(6.0, 1.0), at(6.0, 1.0)).len(), 1);
//! # Ok::<(), bounds::Error>(())
//! ```

mod files;
mod prepared;
mod records;

pub use records::TreeBytes;

use crate::bvh::ENTRIES;
use crate::composite::{Child, Composite, CompositeTree, CHILD_BOX, WITHOUT_TREE};
use crate::error::Damage;
use crate::octants::VERTICES;
use crate::records::TreeRecords;
use crate::shrink::POLYGONS;
use crate::tree::Tree;
use crate::{BvhItem, Error, Mat4, PreparedTree, Vec3};
use files::{float3, word, Folder};
use std::path::Path;

/// The most items of a leaf of a prepared mesh's tree.
const LEAF_LIMIT: u32 = 4;

/// Bytes of a box in boxes.bin.
const ENTRY: usize = 28;

/// What dump.txt says of a mesh.
struct MeshCounts {
    bound: usize,
    polygons: usize,
    vertices: usize,
    materials: usize,
}

fn mesh_counts(folder: &Folder) -> Result<MeshCounts, Error> {
    let limits = [("bound", 8), ("polygons", POLYGONS), ("vertices", VERTICES), ("materials", 255)];
    let [bound, polygons, vertices, materials] = folder.counts("mesh", limits)?;
    Ok(MeshCounts { bound, polygons, vertices, materials })
}

fn box_counts(folder: &Folder) -> Result<[usize; 2], Error> {
    folder.counts("boxes", [("threshold", ENTRIES), ("entries", ENTRIES)])
}

/// A box of 28 bytes: a mark and six floats.
fn boxed(entry: &[u8]) -> BvhItem {
    BvhItem { present: word(entry, 0), min: float3(entry, 4), max: float3(entry, 16) }
}

/// Polygons are all present, each with a box of its own.
fn each_polygon(records: &TreeRecords, boxes: &[BvhItem]) -> Result<(), Damage> {
    let (items, n) = (records.order.len(), boxes.len());
    if items != n {
        return Err(Damage::whole("order.bin", format!("{items} places"), format!("{n}: one a polygon")));
    }
    match boxes.iter().position(|item| item.present != 1) {
        Some(k) => {
            let found = format!("mark {}", boxes[k].present);
            Err(Damage::at("boxes.bin", ENTRY * k, found, "1: every polygon has a box"))
        }
        None => Ok(()),
    }
}

/// An entry is present exactly where the order list has its place. The file that has the marks is named, and the byte of each.
fn each_entry(
    records: &TreeRecords,
    items: &[BvhItem],
    file: &str,
    byte: impl Fn(usize) -> usize,
) -> Result<(), Damage> {
    let mut listed = vec![false; items.len()];
    records.order.iter().for_each(|&place| listed[place as usize] = true);
    match items.iter().zip(&listed).position(|(item, &listed)| (item.present != 0) != listed) {
        Some(k) => {
            let said =
                if listed[k] { "another: its place is in order.bin" } else { "0: its place is not in order.bin" };
            Err(Damage::at(file, byte(k), format!("mark {}", items[k].present), said))
        }
        None => Ok(()),
    }
}

impl TreeRecords {
    /// The records of a folder, without the boxes that a query filters by: of a tree of boxes or of a prepared mesh. They have
    /// no `query`, since there is nothing to compare as floats.
    ///
    /// # Errors
    ///
    /// [`Error::Read`] and [`Error::Damage`].
    ///
    /// ```
    /// # use bounds::tree::TreeRecords;
    /// let error = TreeRecords::load("no/such/folder").unwrap_err();
    /// assert!(error.to_string().starts_with("no/such/folder/dump.txt: cannot be read: "));
    /// ```
    pub fn load(folder: impl AsRef<Path>) -> Result<TreeRecords, Error> {
        let folder = Folder(folder.as_ref());
        match folder.kind()?.as_str() {
            "mesh" => folder.tree(tree_polygons(&folder)?, LEAF_LIMIT),
            _ => {
                let [threshold, entries] = box_counts(&folder)?;
                folder.tree(entries, threshold as u32)
            }
        }
    }
}

/// The polygons of a mesh that has a tree.
fn tree_polygons(folder: &Folder) -> Result<usize, Error> {
    let MeshCounts { bound, polygons, .. } = mesh_counts(folder)?;
    if bound != 8 || polygons == 0 {
        let found = format!("bound {bound}, {polygons} polygons");
        return Err(
            folder.damaged(Damage::whole("dump.txt", found, "bound 8 with polygons: only that has a tree").into())
        );
    }
    Ok(polygons)
}

impl PreparedTree {
    /// The tree of a prepared mesh's folder, as `bounds prepare MESH --out FOLDER` writes it.
    ///
    /// # Errors
    ///
    /// [`Error::Read`] and [`Error::Damage`].
    ///
    /// ```
    /// # use bounds::{Error, PreparedTree, Vec3};
    /// fn below(folder: &str, wheel: Vec3) -> Result<usize, Error> {
    ///     Ok(PreparedTree::load(folder)?.query(wheel, wheel).len())
    /// }
    /// let error = below("no/such/folder", Vec3::ZERO).unwrap_err();
    /// assert!(error.to_string().starts_with("no/such/folder/dump.txt: cannot be read: "));
    /// ```
    pub fn load(folder: impl AsRef<Path>) -> Result<PreparedTree, Error> {
        let folder = Folder(folder.as_ref());
        folder.prepared_tree(tree_polygons(&folder)?)
    }

    /// The tree of these bytes and of its polygons' boxes by their places ([`PreparedTree::boxes`]). Without the boxes there is
    /// [`TreeRecords::read`], which has no `query`.
    ///
    /// # Errors
    ///
    /// [`Error::Damage`], the file named as a folder has it.
    ///
    /// ```
    /// # use bounds::{tree::TreeBytes, BvhItem, PreparedTree};
    /// let none = TreeBytes { header: &[], node_bytes: &[], tree_bytes: &[], order: &[] };
    /// let error = PreparedTree::read(&none, vec![BvhItem::ABSENT]).unwrap_err();
    /// assert_eq!(error.to_string(), "header.bin: 0 bytes; expected 128: a header");
    /// ```
    pub fn read(bytes: &TreeBytes, boxes: Vec<BvhItem>) -> Result<PreparedTree, Error> {
        PreparedTree::new(TreeRecords::read(bytes, boxes.len(), LEAF_LIMIT)?, boxes)
    }

    /// The tree of these records and of its polygons' boxes by their places.
    ///
    /// # Errors
    ///
    /// [`Error::Damage`], where they do not belong together or a walk over them would be refused.
    ///
    /// ```
    /// # use bounds::{tree::TreeRecords, Geometry, PreparedTree, Vec3};
    /// let tree = Geometry::from_triangles(&[Vec3::ZERO; 3], &[[0, 1, 2]]).prepare()?.bvh.expect("a triangle");
    /// let mut records: TreeRecords = (*tree).clone();
    /// assert_eq!(PreparedTree::new(records.clone(), tree.boxes().to_vec())?, tree);
    /// records.order[0] = 1;
    /// let error = PreparedTree::new(records, tree.boxes().to_vec()).unwrap_err();
    /// assert_eq!(error.to_string(), "order.bin, byte 0: place 1; expected one below 1, the entries");
    /// # Ok::<(), bounds::Error>(())
    /// ```
    pub fn new(records: TreeRecords, boxes: Vec<BvhItem>) -> Result<PreparedTree, Error> {
        records.look_through(boxes.len(), LEAF_LIMIT)?;
        each_polygon(&records, &boxes)?;
        Ok(PreparedTree::of(records, boxes))
    }
}

impl Tree {
    /// The tree of a folder of boxes, as `bounds build BOXES --out FOLDER` writes it.
    ///
    /// # Errors
    ///
    /// [`Error::Read`] and [`Error::Damage`].
    ///
    /// ```
    /// # use bounds::{Error, Tree, Vec3};
    /// let query = |folder: &str| Ok::<_, Error>(Tree::load(folder)?.query(Vec3::ZERO, Vec3::new(1.0, 1.0, 1.0)));
    /// assert!(matches!(query("no/such/folder"), Err(Error::Read { .. })));
    /// ```
    pub fn load(folder: impl AsRef<Path>) -> Result<Tree, Error> {
        let folder = Folder(folder.as_ref());
        let [threshold, entries] = box_counts(&folder)?;
        let records = folder.tree(entries, threshold as u32)?;
        let items: Vec<BvhItem> = folder.boxes(entries, "entries")?;
        each_entry(&records, &items, "boxes.bin", |k| ENTRY * k).map_err(|damage| folder.damaged(damage.into()))?;
        Ok(Tree::of(items, threshold as u32, records))
    }

    /// The tree of these bytes, of the list that it was built from and of its threshold.
    ///
    /// # Errors
    ///
    /// [`Error::Damage`], the file named as a folder has it.
    ///
    /// ```
    /// # use bounds::{tree::{Addresses, TreeBytes}, BvhItem, Tree, Vec3};
    /// let boxes = [BvhItem::ABSENT, BvhItem::new(Vec3::ZERO, Vec3::new(1.0, 1.0, 1.0))];
    /// let built = Tree::build(&boxes, 4)?;
    /// let header = built.header(Addresses::default());
    /// let bytes = TreeBytes { header: &header, node_bytes: &built.node_bytes, tree_bytes: &built.tree_bytes, order: &[1, 0] };
    /// assert_eq!(Tree::read(&bytes, boxes.to_vec(), 4)?, built);
    /// let error = Tree::read(&bytes, vec![boxes[1]; 2], 4).unwrap_err();
    /// assert_eq!(error.to_string(), "boxes.bin, byte 0: mark 1; expected 0: its place is not in order.bin");
    /// # Ok::<(), bounds::Error>(())
    /// ```
    pub fn read(bytes: &TreeBytes, items: Vec<BvhItem>, threshold: u32) -> Result<Tree, Error> {
        let records = TreeRecords::read(bytes, items.len(), threshold)?;
        each_entry(&records, &items, "boxes.bin", |k| ENTRY * k)?;
        Ok(Tree::of(items, threshold, records))
    }
}

impl Composite {
    /// The composite of a folder: its children's boxes and the tree over them, where there are over five. A folder has no
    /// transforms: its children stand where their boxes do.
    ///
    /// # Errors
    ///
    /// [`Error::Read`] and [`Error::Damage`].
    ///
    /// ```
    /// # use bounds::{Composite, Error};
    /// let children = |folder: &str| Ok::<_, Error>(Composite::load(folder)?.child_boxes.len() / 32);
    /// assert!(matches!(children("no/such/folder"), Err(Error::Read { .. })));
    /// ```
    pub fn load(folder: impl AsRef<Path>) -> Result<Composite, Error> {
        let folder = Folder(folder.as_ref());
        if folder.kind()? != "composite" {
            let found = format!("kind {}", folder.kind()?);
            return Err(folder.damaged(Damage::whole("dump.txt", found, "kind composite").into()));
        }
        let child_boxes = folder.child_boxes()?;
        let children: Vec<Child> = child_boxes.chunks_exact(CHILD_BOX).map(child).collect();
        let tree = (children.len() > WITHOUT_TREE).then(|| folder.tree(children.len(), 1)).transpose()?;
        let tree = tree.map(|records| composite_tree(&children, records)).transpose();
        Ok(Composite { child_boxes, tree: tree.map_err(|error| folder.damaged(error))? })
    }
}

/// The child of a box as bytes: min, the word 1, max, margin; zeros where it is absent.
fn child(bytes: &[u8]) -> Child {
    let margin = f32::from_bits(word(bytes, 28));
    let present = word(bytes, 12);
    Child { present, box_min: float3(bytes, 0), box_max: float3(bytes, 16), margin, transform: Mat4::identity() }
}

fn composite_tree(children: &[Child], records: TreeRecords) -> Result<CompositeTree, Error> {
    let items: Vec<BvhItem> =
        children.iter().map(|child| child.computed_box().map(|(min, max): (Vec3, Vec3)| [min, max]).into()).collect();
    each_entry(&records, &items, "child_boxes.bin", |k| CHILD_BOX * k + 12)?;
    Ok(CompositeTree::of(items, records))
}

impl CompositeTree {
    /// The tree of a composite's folder.
    ///
    /// # Errors
    ///
    /// [`Error::Read`] and [`Error::Damage`]; also where it has no tree, of at most five children.
    ///
    /// ```
    /// # use bounds::{CompositeTree, Error, Vec3};
    /// let near = |folder: &str| Ok::<_, Error>(CompositeTree::load(folder)?.query(Vec3::ZERO, Vec3::ZERO));
    /// assert!(matches!(near("no/such/folder"), Err(Error::Read { .. })));
    /// ```
    pub fn load(folder: impl AsRef<Path>) -> Result<CompositeTree, Error> {
        let Composite { child_boxes, tree } = Composite::load(folder.as_ref())?;
        tree.ok_or_else(|| {
            let found = format!("{} children", child_boxes.len() / CHILD_BOX);
            let damage = Damage::whole("child_boxes.bin", found, "over five: a composite of fewer has no tree");
            Folder(folder.as_ref()).damaged(damage.into())
        })
    }

    /// The tree of these bytes and of the children that it was made of.
    ///
    /// # Errors
    ///
    /// [`Error::Damage`], the file named as a folder has it.
    ///
    /// ```
    /// # use bounds::{composite::CompositeTree, tree::{Addresses, TreeBytes}, Child, Composite};
    /// let children = [Child::ABSENT; 6];
    /// let tree = Composite::prepare(&children)?.tree.expect("six children");
    /// let header = tree.header(Addresses::default());
    /// let bytes = TreeBytes { header: &header, node_bytes: &tree.node_bytes, tree_bytes: &tree.tree_bytes, order: &[] };
    /// assert_eq!(CompositeTree::read(&bytes, &children)?.children(), 6);
    /// # Ok::<(), bounds::Error>(())
    /// ```
    pub fn read(bytes: &TreeBytes, children: &[Child]) -> Result<CompositeTree, Error> {
        composite_tree(children, TreeRecords::read(bytes, children.len(), 1)?)
    }
}
