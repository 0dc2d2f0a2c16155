//! What was derived of a geometry, asked so that places, numbers and counts cannot be mixed up.

use crate::premises::{ordinary, Broken};
use crate::prepare::Prepared;
use crate::records::{Found, TreeRecords};
use crate::tree::BvhNode;
use crate::{BoundMaterial, BvhItem, Polygon, Vec3};
use std::ops::Deref;

/// Bytes of a polygon's record.
const RECORD: usize = 16;

/// A polygon of a prepared list, by its place there: what links, leaves and walks name. Of kind 8 it is not the number that
/// the polygon was given ([`GivenPolygon`]), so that one cannot stand for the other.
///
/// ```
/// # use bounds::prepare::PolygonPlace;
/// assert_eq!(format!("{:?}", PolygonPlace(3)), "PolygonPlace(3)");
/// ```
#[derive(Clone, Copy, Debug, PartialEq, Eq, Hash, PartialOrd, Ord)]
pub struct PolygonPlace(pub usize);

/// A polygon by its number among those that were given.
///
/// ```
/// # use bounds::prepare::GivenPolygon;
/// assert!(GivenPolygon(3) < GivenPolygon(4));
/// ```
///
/// ```compile_fail
/// # use bounds::prepare::{GivenPolygon, PolygonPlace};
/// let place: PolygonPlace = GivenPolygon(3);
/// ```
#[derive(Clone, Copy, Debug, PartialEq, Eq, Hash, PartialOrd, Ord)]
pub struct GivenPolygon(pub usize);

impl Prepared {
    /// The places of its polygons, rising.
    ///
    /// ```
    /// # use bounds::Geometry;
    /// assert_eq!(Geometry::new(Geometry::PLAIN).prepare()?.places().count(), 0);
    /// # Ok::<(), bounds::Refusal>(())
    /// ```
    pub fn places(&self) -> impl ExactSizeIterator<Item = PolygonPlace> {
        (0..self.polygons.len() / RECORD).map(PolygonPlace)
    }

    /// The polygon at a place; its material is a place in [`Prepared::materials`].
    ///
    /// ```
    /// # use bounds::{prepare::PolygonPlace, Geometry, Polygon};
    /// let mut geometry = Geometry::new(Geometry::PLAIN);
    /// geometry.polygons = vec![Polygon::Sphere { material: 7, index: 0, radius: 0.5 }];
    /// let prepared = geometry.prepare()?;
    /// assert_eq!(prepared.polygon(PolygonPlace(0)), Some(Polygon::Sphere { material: 0, index: 0, radius: 0.5 }));
    /// assert_eq!(prepared.polygon(PolygonPlace(1)), None);
    /// # Ok::<(), bounds::Refusal>(())
    /// ```
    pub fn polygon(&self, PolygonPlace(k): PolygonPlace) -> Option<Polygon> {
        let record = self.polygons.get(k.checked_mul(RECORD)?..)?.get(..RECORD)?;
        let index = *self.polygon_material_indices.get(k)?;
        Some(Polygon::read(record).ok()?.with_material(index))
    }

    /// The material of the polygon at a place.
    ///
    /// ```
    /// # use bounds::{prepare::PolygonPlace, BoundMaterial, Geometry, Polygon};
    /// let mut geometry = Geometry::new(Geometry::PLAIN);
    /// geometry.materials = vec![BoundMaterial { data1: 7, data2: 1 }];
    /// geometry.polygons = vec![Polygon::Sphere { material: 0, index: 0, radius: 0.5 }];
    /// assert_eq!(geometry.prepare()?.material(PolygonPlace(0)), Some(geometry.materials[0]));
    /// # Ok::<(), bounds::Refusal>(())
    /// ```
    pub fn material(&self, PolygonPlace(k): PolygonPlace) -> Option<BoundMaterial> {
        self.materials.get(*self.polygon_material_indices.get(k)? as usize).copied()
    }

    /// The triangles that share a side with the one at a place, side by side; none of what is no triangle.
    ///
    /// ```
    /// # use bounds::{prepare::PolygonPlace, Geometry, Polygon};
    /// let triangle = |v| Polygon::Triangle { material: 0, area: 0.0, v, edges: [-1; 3] };
    /// let mut geometry = Geometry::new(Geometry::PLAIN);
    /// geometry.polygons = vec![triangle([0, 1, 2]), triangle([2, 1, 3])];
    /// let prepared = geometry.prepare()?;
    /// assert_eq!(prepared.links(PolygonPlace(0)), [None, Some(PolygonPlace(1)), None]);
    /// # Ok::<(), bounds::Refusal>(())
    /// ```
    pub fn links(&self, place: PolygonPlace) -> [Option<PolygonPlace>; 3] {
        match self.polygon(place) {
            Some(Polygon::Triangle { edges, .. }) => edges.map(|to| usize::try_from(to).ok().map(PolygonPlace)),
            _ => [None; 3],
        }
    }

    /// Which of the given polygons is at a place: of kind 8 the order of the leaves says it, of kind 4 it is the same number.
    ///
    /// ```
    /// # use bounds::{prepare::{GivenPolygon, PolygonPlace}, Geometry, Polygon, Vec3};
    /// let mut geometry = Geometry::new(Geometry::BVH);
    /// geometry.vertices = (0..8).map(|x| Vec3::new(x as f32, 0.0, 0.0)).collect();
    /// geometry.polygons = (0..8).map(|index| Polygon::Sphere { material: 0, index, radius: 0.1 }).collect();
    /// let prepared = geometry.prepare()?;
    /// assert_eq!(prepared.given(PolygonPlace(0)), Some(GivenPolygon(4))); // the far half comes first
    /// assert_eq!(prepared.place_of(GivenPolygon(4)), Some(PolygonPlace(0)));
    /// # Ok::<(), bounds::Refusal>(())
    /// ```
    pub fn given(&self, PolygonPlace(k): PolygonPlace) -> Option<GivenPolygon> {
        match &self.bvh {
            Some(tree) => tree.order.get(k).map(|&given| GivenPolygon(given as usize)),
            None => (k < self.places().len()).then_some(GivenPolygon(k)),
        }
    }

    /// The place of a given polygon. Takes time by the number of polygons.
    ///
    /// ```
    /// # use bounds::{prepare::GivenPolygon, Geometry};
    /// assert_eq!(Geometry::new(Geometry::BVH).prepare()?.place_of(GivenPolygon(0)), None);
    /// # Ok::<(), bounds::Refusal>(())
    /// ```
    pub fn place_of(&self, given: GivenPolygon) -> Option<PolygonPlace> {
        self.places().find(|&place| self.given(place) == Some(given))
    }
}

/// The tree over a geometry's polygons, at threshold 4, with its records and the polygons' boxes. Its positions are places in
/// [`Prepared::polygons`]. It is a [`TreeRecords`] as well: `built`, `node_bytes`, `tree_bytes`, `order` are read of it, and
/// what those answer of nodes, ranges and bytes, it answers.
///
/// **Its space**: the boxes are of the vertices after centre and transform, where a vertex `v` stands at
/// `transform * (v + center_geom)` ([`Geometry::positions`](crate::Geometry::positions)). A query is asked there, and not
/// about the centre, where the vertices are given and stored. One triangle, far from the origin, shows it:
///
/// ```
/// # use bounds::{Geometry, Vec3};
/// let at = |x: f32, y: f32| Vec3::new(x, y, 0.0);
/// let geometry = Geometry::from_triangles(&[at(100.0, 0.0), at(104.0, 0.0), at(100.0, 4.0)], &[[0, 1, 2]]);
/// assert_eq!((geometry.center_geom, geometry.vertices[0]), (at(102.0, 2.0), at(-2.0, -2.0)));
/// let tree = geometry.prepare()?.bvh.expect("a polygon");
/// assert_eq!(tree.query(at(101.0, 1.0), at(101.0, 1.0)).len(), 1); // where it stands
/// assert_eq!(tree.query(at(-1.0, -1.0), at(-1.0, -1.0)).len(), 0); // about the centre: it is not found
/// # Ok::<(), bounds::Refusal>(())
/// ```
#[derive(Clone, Debug, PartialEq)]
pub struct PreparedTree {
    records: TreeRecords,
    boxes: Vec<BvhItem>,
}

/// It is not changed once it is prepared or loaded: what belongs together stays together.
impl Deref for PreparedTree {
    type Target = TreeRecords;

    fn deref(&self) -> &TreeRecords {
        &self.records
    }
}

impl PreparedTree {
    /// Of these parts, which belong together: they were prepared, or looked through by a load.
    pub(crate) fn of(records: TreeRecords, boxes: Vec<BvhItem>) -> PreparedTree {
        PreparedTree { records, boxes }
    }

    /// The polygons whose boxes meet the box from `min` to `max`, both as floats in the space of the tree: those of
    /// [`PreparedTree::candidates`] that do. Corners may be infinite; a query with a NaN meets nothing.
    ///
    /// Where [`PreparedTree::premises`] holds these are all that meet it; where it does not, some can be missing.
    ///
    /// ```
    /// # use bounds::{prepare::PolygonPlace, Geometry, Polygon, Vec3};
    /// let mut geometry = Geometry::new(Geometry::BVH);
    /// geometry.vertices = (0..8).map(|x| Vec3::new(x as f32, 0.0, 0.0)).collect();
    /// geometry.polygons = (0..8).map(|index| Polygon::Sphere { material: 0, index, radius: 0.1 }).collect();
    /// let prepared = geometry.prepare()?;
    /// let tree = prepared.bvh.as_ref().expect("a tree");
    /// let near = tree.query(Vec3::ZERO, Vec3::new(1.0, 0.0, 0.0)).into_iter().filter_map(|place| prepared.given(place));
    /// assert!(near.map(|given| given.0).eq([0, 1])); // of the four that their leaf hands out
    /// # Ok::<(), bounds::Refusal>(())
    /// ```
    pub fn query(&self, min: Vec3, max: Vec3) -> Vec<PolygonPlace> {
        let mut found = Found::default();
        self.query_into(min, max, &mut found);
        found.places
    }

    /// [`PreparedTree::query`] into a buffer that is used again: no allocation but for its first use.
    ///
    /// ```
    /// # use bounds::{tree::Found, Geometry, Vec3};
    /// let at = |x: f32, y: f32| Vec3::new(x, y, 0.0);
    /// let tree = Geometry::from_triangles(&[at(0.0, 0.0), at(1.0, 0.0), at(0.0, 1.0)], &[[0, 1, 2]]).prepare()?.bvh;
    /// let (tree, mut found) = (tree.expect("a polygon"), Found::default());
    /// let hits = (0..4).filter(|&x| !tree.query_into(at(x as f32, 0.0), at(x as f32, 0.0), &mut found).is_empty());
    /// assert_eq!(hits.count(), 2); // at 0 and 1
    /// # Ok::<(), bounds::Refusal>(())
    /// ```
    #[inline]
    pub fn query_into<'a>(&self, min: Vec3, max: Vec3, found: &'a mut Found<PolygonPlace>) -> &'a [PolygonPlace] {
        let met = |position: &usize| self.boxes[*position].meets(min, max);
        self.records.find(min, max, found, |position| Some(position as usize).filter(met).map(PolygonPlace));
        &found.places
    }

    /// What its records hand out for the box from `min` to `max`: where [`PreparedTree::premises`] holds every polygon whose
    /// box meets it, and some besides; and how many records were read. A NaN corner stands for the centre.
    ///
    /// ```
    /// # use bounds::{Geometry, Polygon, Vec3};
    /// let mut geometry = Geometry::new(Geometry::BVH);
    /// geometry.vertices = (0..8).map(|x| Vec3::new(x as f32, 0.0, 0.0)).collect();
    /// geometry.polygons = (0..8).map(|index| Polygon::Sphere { material: 0, index, radius: 0.1 }).collect();
    /// let prepared = geometry.prepare()?;
    /// let found = prepared.bvh.as_ref().expect("a tree").candidates(Vec3::ZERO, Vec3::new(1.0, 0.0, 0.0));
    /// let near = found.places.iter().filter_map(|&place| prepared.given(place)).map(|given| given.0);
    /// assert!(near.eq([0, 1, 2, 3])); // one leaf
    /// # Ok::<(), bounds::Refusal>(())
    /// ```
    pub fn candidates(&self, min: Vec3, max: Vec3) -> Found<PolygonPlace> {
        let mut found = Found::default();
        self.candidates_into(min, max, &mut found);
        found
    }

    /// [`PreparedTree::candidates`] into a buffer that is used again: no allocation but for its first use.
    ///
    /// ```
    /// # use bounds::{prepare::PolygonPlace, tree::Found, Geometry, Polygon, Vec3};
    /// let mut geometry = Geometry::new(Geometry::BVH);
    /// geometry.polygons = vec![Polygon::Sphere { material: 0, index: 0, radius: 1.0 }];
    /// let (tree, mut found) = (geometry.prepare()?.bvh.expect("kind 8 with polygons"), Found::default());
    /// assert_eq!(tree.candidates_into(Vec3::ZERO, Vec3::ZERO, &mut found), [PolygonPlace(0)]);
    /// assert_eq!(found.reads, 2); // a tree record and a node record
    /// # Ok::<(), bounds::Refusal>(())
    /// ```
    #[inline]
    pub fn candidates_into<'a>(&self, min: Vec3, max: Vec3, found: &'a mut Found<PolygonPlace>) -> &'a [PolygonPlace] {
        self.records.find(min, max, found, |position| Some(PolygonPlace(position as usize)));
        &found.places
    }

    /// The polygons' boxes by their places, in the space of the tree.
    ///
    /// ```
    /// # use bounds::{Geometry, Polygon, Vec3};
    /// let mut geometry = Geometry::new(Geometry::BVH);
    /// geometry.center_geom = Vec3::new(10.0, 0.0, 0.0);
    /// geometry.vertices = vec![Vec3::ZERO];
    /// geometry.polygons = vec![Polygon::Sphere { material: 0, index: 0, radius: 1.0 }];
    /// let tree = geometry.prepare()?.bvh.expect("a polygon");
    /// assert_eq!((tree.boxes()[0].min.x, tree.boxes()[0].max.x), (9.0, 11.0));
    /// # Ok::<(), bounds::Refusal>(())
    /// ```
    pub fn boxes(&self) -> &[BvhItem] {
        &self.boxes
    }

    /// Whether its polygons' boxes meet the premises under which a query misses none.
    ///
    /// # Errors
    ///
    /// What breaks them first; a place is one of [`Prepared::polygons`].
    ///
    /// ```
    /// # use bounds::{Geometry, Polygon, Vec3};
    /// let mut geometry = Geometry::new(Geometry::BVH);
    /// geometry.polygons = vec![Polygon::Sphere { material: 0, index: 0, radius: f32::NAN }];
    /// let broken = geometry.prepare()?.bvh.expect("a polygon").premises().unwrap_err();
    /// assert_eq!(broken.to_string(), "entry 0: min x is not finite, or above 2^100 in size");
    /// # Ok::<(), bounds::Refusal>(())
    /// ```
    pub fn premises(&self) -> Result<(), Broken> {
        ordinary(&self.boxes)
    }

    /// The polygons of a node: of a leaf of this tree those that it holds, of an inner node none.
    ///
    /// ```
    /// # use bounds::{prepare::PolygonPlace, Geometry, Polygon};
    /// let mut geometry = Geometry::new(Geometry::BVH);
    /// geometry.polygons = vec![Polygon::Box { material: 0, i: [0; 4] }; 2];
    /// let tree = geometry.prepare()?.bvh.expect("a tree");
    /// assert_eq!(tree.held(&tree.nodes().next().unwrap()), [PolygonPlace(0), PolygonPlace(1)]);
    /// # Ok::<(), bounds::Refusal>(())
    /// ```
    pub fn held(&self, node: &BvhNode) -> Vec<PolygonPlace> {
        self.positions(node).map(PolygonPlace).collect()
    }
}
