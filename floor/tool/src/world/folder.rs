//! A split world as a folder:
//!
//! ```text
//! dump.txt           bounds dump 1
//!                    kind composite
//!                    bound 8             4 or 8, of every child
//!                    children 4
//!                    polygons 120000     of the world
//!                    file world.obj      which was split
//! child_boxes.bin    32 bytes a child: min, the word 1, max, margin
//! header.bin, nodes.bin, trees.bin, order.bin        over 5 children: the tree over their boxes, as of boxes at threshold 1
//! places.bin         for each polygon of the world its child and its number among those given to that, two bytes each
//! lines.bin          for each polygon of the world its line in the file, four bytes
//! 0, 1, 2, ..        a folder a child: a prepared mesh
//! ```
//!
//! All numbers are little-endian.

use super::split::{prepare, Made, Split};
use super::World;
use crate::account::differing as differing_fields;
use crate::boxes::{self, entry, read_file, Boxes};
use crate::dump::{exactly, kind_of, manifest, tree_files, tree_records, Dump, Kind, Records, FIRST_LINE};
use crate::failure::Failure;
use crate::mesh::MeshFolder;
use crate::number::counted;
use crate::output::write_files;
use bounds::composite::{CHILD_BOX, WITHOUT_TREE};
use bounds::{BvhItem, Child, Composite, Geometry, Vec3};
use std::path::Path;
use std::sync::atomic::AtomicUsize;
use std::{fs, io};

/// The most children, by the composite's tree, and the most polygons that these have.
const MOST_CHILDREN: usize = 16_384;
const MOST_POLYGONS: usize = MOST_CHILDREN * 32_767;

/// A split world.
#[derive(Clone, Debug)]
pub struct WorldFolder {
    /// As the user named it.
    pub name: String,
    /// The kind of every child.
    pub bound: u8,
    /// The file that was split, as it was named then.
    pub file: String,
    /// 32 bytes a child.
    pub child_boxes: Vec<u8>,
    /// Over 5 children.
    pub tree: Option<Dump>,
    /// For each polygon of the world its child, and its number among those given to that.
    pub places: Vec<(usize, usize)>,
    /// For each polygon of the world its line.
    pub lines: Vec<u32>,
    /// For each child the numbers of its polygons in the world, in the order in which they were given to it.
    pub given: Vec<Vec<u32>>,
}

/// Prepares the parts of a world into a folder that is there: each child is written when it is prepared, under the number of its
/// first polygon, and gets its own when all are there.
pub fn write(world: &World, parts: &[Vec<u32>], done: &AtomicUsize, folder: &Path) -> Result<Split, Failure> {
    let failed = |error: io::Error| Failure::reach(&folder.to_string_lossy(), "written", &error);
    let unnumbered = |first: u32| folder.join(format!("from {first}"));
    let split = prepare(world, parts, done, |child, first| {
        let path = unnumbered(first);
        fs::create_dir(&path).and_then(|()| write_files(&path, &child.files())).map_err(failed)
    })?;
    for (number, made) in split.children.iter().enumerate() {
        fs::rename(unnumbered(made.first()), folder.join(number.to_string())).map_err(failed)?;
    }
    write_files(folder, &files(world, &split)?).map_err(failed)?;
    Ok(split)
}

/// The files that a split world has beside its children's folders.
fn files(world: &World, split: &Split) -> Result<Vec<(&'static str, Vec<u8>)>, Failure> {
    let Split { children, composite } = split;
    let (n, p) = (children.len(), world.pieces.len());
    let file = one_line(&world.origin.file);
    let first = format!(
        "{FIRST_LINE}\nkind {}\nbound {}\nchildren {n}\npolygons {p}\nfile {file}\n",
        Kind::Composite.name(),
        world.kind
    );
    let lines = world.origin.polygons.iter().flat_map(|&line| (line as u32).to_le_bytes()).collect();
    let mut files = vec![
        ("dump.txt", first.into_bytes()),
        ("child_boxes.bin", composite.child_boxes.clone()),
        ("places.bin", places(children, p)),
        ("lines.bin", lines),
    ];
    if let Some(tree) = &composite.tree {
        files.extend(tree_files(&Records::of(tree)?));
    }
    Ok(files)
}

/// A name that may hold anything, in a line.
fn one_line(name: &str) -> String {
    name.chars().map(|c| if c.is_control() { '?' } else { c }).collect()
}

fn places(children: &[Made], polygons: usize) -> Vec<u8> {
    let mut places = vec![0; 4 * polygons];
    for (child, made) in children.iter().enumerate() {
        for (given, &k) in made.part.iter().enumerate() {
            let pair = (child as u32 | (given as u32) << 16).to_le_bytes();
            places[4 * k as usize..4 * k as usize + 4].copy_from_slice(&pair);
        }
    }
    places
}

/// What of a world's own files is not what its children give, in words.
pub fn composite_damage(world: &WorldFolder, children: &[Made]) -> Result<Vec<String>, Failure> {
    let bounds: Vec<Child> = children.iter().map(|made| made.bound).collect();
    let composite = Composite::prepare(&bounds)?;
    let mut damages = Vec::new();
    let differing = composite.child_boxes.chunks_exact(CHILD_BOX).zip(world.child_boxes.chunks_exact(CHILD_BOX));
    if let Some(child) = differing.into_iter().position(|(made, found)| made != found) {
        damages.push(format!("{}: child_boxes.bin has another box of child {child} than its folder gives", world.name));
    }
    if let (Some(found), Some(tree)) = (&world.tree, &composite.tree) {
        let made = Records::of(tree)?;
        let fields = differing_fields(&made, &found.records);
        if let Some(first) = fields.first() {
            let of = counted(fields.len(), "field");
            damages.push(format!(
                "{}: {of} of the composite's tree not as the children give, the first {first}",
                world.name
            ));
        }
    }
    Ok(damages)
}

/// Whether a folder is a split world, by its dump.txt.
pub fn is_world(path: &str) -> bool {
    kind_of(path) == Some(Kind::Composite)
}

/// What a command says that works on one mesh and is given a split world.
pub fn name_a_child(path: &str) -> Failure {
    let child = Path::new(path).join("0").to_string_lossy().into_owned();
    Failure::Usage(format!("{path} is a split world: name the folder of one of its children, as {child}"))
}

impl WorldFolder {
    /// Reads all but the children.
    pub fn read(path: &str) -> Result<WorldFolder, Failure> {
        let file = |name: &str| Path::new(path).join(name).to_string_lossy().into_owned();
        let limits = [("bound", 8), ("children", MOST_CHILDREN), ("polygons", MOST_POLYGONS)];
        let [bound, n, p] = manifest(&file("dump.txt"), Kind::Composite, limits)?;
        if bound != Geometry::PLAIN as usize && bound != Geometry::BVH as usize {
            let words = format!("'bound {bound}'; expected `bound 4` or `bound 8`");
            return Err(Failure::File(format!("{}, line 3: {words}", file("dump.txt"))));
        }
        let child_boxes = exactly(&file("child_boxes.bin"), CHILD_BOX, n, "children, by dump.txt")?;
        let tree = match n > WITHOUT_TREE {
            true => Some(tree(path, n, &child_boxes)?),
            false => None,
        };
        let word = |b: &[u8]| u32::from_le_bytes([b[0], b[1], b[2], b[3]]);
        let places = exactly(&file("places.bin"), 4, p, "polygons, by dump.txt")?;
        let places: Vec<(usize, usize)> =
            places.chunks_exact(4).map(word).map(|pair| (pair as u16 as usize, (pair >> 16) as usize)).collect();
        let lines = exactly(&file("lines.bin"), 4, p, "polygons, by dump.txt")?;
        let given = given(&file("places.bin"), n, &places)?;
        Ok(WorldFolder {
            name: path.into(),
            bound: bound as u8,
            file: source(&file("dump.txt"))?,
            child_boxes,
            tree,
            places,
            lines: lines.chunks_exact(4).map(word).collect(),
            given,
        })
    }

    /// How many children there are.
    pub fn children(&self) -> usize {
        self.given.len()
    }

    /// The folder of a child.
    pub fn path(&self, child: usize) -> String {
        Path::new(&self.name).join(child.to_string()).to_string_lossy().into_owned()
    }

    /// A child, read whole, which has to have as many polygons as lead to it.
    pub fn child(&self, child: usize) -> Result<MeshFolder, Failure> {
        let path = self.path(child);
        let folder = MeshFolder::read(&path)?;
        let (found, said) = (folder.parts.polygons_count, self.given[child].len());
        if found != said {
            let words = format!("{path}: {found} polygons; expected {said}, by places.bin");
            return Err(Failure::File(words));
        }
        Ok(folder)
    }

    /// The box of a child, as the composite has it.
    pub fn child_box(&self, child: usize) -> BvhItem {
        child_item(&self.child_boxes[CHILD_BOX * child..])
    }

    /// The line of a child's polygon in the file of the world, by its number among those given to the child.
    pub fn line(&self, child: usize, given: usize) -> Option<usize> {
        let &k = self.given.get(child)?.get(given)?;
        self.lines.get(k as usize).map(|&line| line as usize)
    }

    /// `world.obj line 40`.
    pub fn origin(&self, child: usize, given: usize) -> String {
        let line = self.line(child, given);
        line.map_or_else(|| format!("not in {}", self.file), |line| format!("{} line {line}", self.file))
    }

    /// The children that a query is led to by the composite's tree, rising, and the records read; all where there is no tree.
    pub fn led_to(&self, min: Vec3, max: Vec3) -> Result<(Vec<usize>, usize), Failure> {
        let Some(tree) = &self.tree else { return Ok(((0..self.children()).collect(), 0)) };
        let found = tree.walk(min, max)?;
        let mut children: Vec<usize> = found.positions.iter().map(|&position| position as usize).collect();
        children.sort_unstable();
        Ok((children, found.reads))
    }
}

fn child_item(record: &[u8]) -> BvhItem {
    let word = |at: usize| u32::from_le_bytes([record[at], record[at + 1], record[at + 2], record[at + 3]]);
    entry(1, [0, 4, 8, 16, 20, 24].map(word))
}

/// The tree over the children's boxes.
fn tree(path: &str, children: usize, child_boxes: &[u8]) -> Result<Dump, Failure> {
    let items = child_boxes.chunks_exact(CHILD_BOX).map(child_item).collect();
    let origin =
        boxes::Origin::Children { file: Path::new(path).join("child_boxes.bin").to_string_lossy().into_owned() };
    Ok(Dump {
        name: path.into(),
        threshold: 1,
        entries: children,
        boxes: Some(Boxes { items, origin }),
        records: tree_records(path, children)?,
    })
}

/// The file that dump.txt names in its last line.
fn source(path: &str) -> Result<String, Failure> {
    let bytes = read_file(path)?;
    let text = String::from_utf8_lossy(&bytes);
    let line = text.lines().nth(5).and_then(|line| line.strip_prefix("file "));
    line.map(String::from).ok_or_else(|| Failure::File(format!("{path}, line 6: expected `file` and a name")))
}

/// For each child the polygons of the world that lead to it, by their numbers there: each number once, and none left out.
fn given(path: &str, children: usize, places: &[(usize, usize)]) -> Result<Vec<Vec<u32>>, Failure> {
    let wrong = |k: usize, words: String| Failure::File(format!("{path}, bytes {}-{}: {words}", 4 * k, 4 * k + 3));
    let mut counts = vec![0; children];
    for (k, &(child, _)) in places.iter().enumerate() {
        let count =
            counts.get_mut(child).ok_or_else(|| wrong(k, format!("child {child}; expected one below {children}")))?;
        *count += 1;
    }
    let mut given: Vec<Vec<Option<u32>>> = counts.iter().map(|&count| vec![None; count]).collect();
    for (k, &(child, number)) in places.iter().enumerate() {
        let count = counts[child];
        let place = given[child].get_mut(number).filter(|place| place.is_none());
        let place = place.ok_or_else(|| {
            wrong(k, format!("polygon {number} of child {child}; expected each number below {count} once"))
        })?;
        *place = Some(k as u32);
    }
    Ok(given.into_iter().map(|child| child.into_iter().flatten().collect()).collect())
}
