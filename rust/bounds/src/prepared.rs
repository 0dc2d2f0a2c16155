//! What was derived of a geometry, asked so that places, numbers and counts cannot be mixed up.

use crate::bvh::{tree_header, HEADER};
use crate::prepare::{Prepared, PreparedTree};
use crate::tree::{records, Addresses, BvhNode, BvhTree};
use crate::walk::{walk, Counts, Records, Refused};
use crate::{BoundMaterial, Polygon, Refusal, Vec3};

/// Bytes of a polygon's record.
const RECORD: usize = 16;

/// A polygon of a prepared list, by its place there: what links, leaves and walks name. Of kind 8 it is not the number that
/// the polygon was given ([`GivenPolygon`]), so that one cannot stand for the other.
///
/// ```
/// # use bounds::prepare::PolygonPlace;
/// assert_eq!(format!("{:?}", PolygonPlace(3)), "PolygonPlace(3)");
/// ```
#[derive(Clone, Copy, Debug, PartialEq, Eq, Hash, PartialOrd, Ord)]
pub struct PolygonPlace(pub usize);

/// A polygon by its number among those that were given.
///
/// ```
/// # use bounds::prepare::GivenPolygon;
/// assert!(GivenPolygon(3) < GivenPolygon(4));
/// ```
///
/// ```compile_fail
/// # use bounds::prepare::{GivenPolygon, PolygonPlace};
/// let place: PolygonPlace = GivenPolygon(3);
/// ```
#[derive(Clone, Copy, Debug, PartialEq, Eq, Hash, PartialOrd, Ord)]
pub struct GivenPolygon(pub usize);

/// What the records of a prepared tree say of a query.
///
/// ```
/// # use bounds::{prepare::PolygonPlace, Geometry, Polygon, Vec3};
/// let mut geometry = Geometry::new(Geometry::BVH);
/// geometry.polygons = vec![Polygon::Sphere { material: 0, index: 0, radius: 1.0 }];
/// let tree = geometry.prepare()?.bvh.expect("kind 8 with polygons");
/// let found = tree.candidates(Vec3::ZERO, Vec3::ZERO)?;
/// assert_eq!((found.polygons, found.reads), (vec![PolygonPlace(0)], 2)); // a tree record and a node record
/// # Ok::<(), Box<dyn std::error::Error>>(())
/// ```
#[derive(Clone, Debug, Default, PartialEq, Eq)]
pub struct PolygonCandidates {
    /// The polygons whose leaf's record meets the query, in the order of the leaves; none twice.
    pub polygons: Vec<PolygonPlace>,
    /// Tree and node records read.
    pub reads: usize,
}

impl Prepared {
    /// The places of its polygons, rising.
    ///
    /// ```
    /// # use bounds::Geometry;
    /// assert_eq!(Geometry::new(Geometry::PLAIN).prepare()?.places().count(), 0);
    /// # Ok::<(), bounds::Refusal>(())
    /// ```
    pub fn places(&self) -> impl ExactSizeIterator<Item = PolygonPlace> {
        (0..self.polygons.len() / RECORD).map(PolygonPlace)
    }

    /// The polygon at a place; its material is a place in [`Prepared::materials`].
    ///
    /// ```
    /// # use bounds::{prepare::PolygonPlace, Geometry, Polygon};
    /// let mut geometry = Geometry::new(Geometry::PLAIN);
    /// geometry.polygons = vec![Polygon::Sphere { material: 7, index: 0, radius: 0.5 }];
    /// let prepared = geometry.prepare()?;
    /// assert_eq!(prepared.polygon(PolygonPlace(0)), Some(Polygon::Sphere { material: 0, index: 0, radius: 0.5 }));
    /// assert_eq!(prepared.polygon(PolygonPlace(1)), None);
    /// # Ok::<(), bounds::Refusal>(())
    /// ```
    pub fn polygon(&self, PolygonPlace(k): PolygonPlace) -> Option<Polygon> {
        let record = self.polygons.get(k.checked_mul(RECORD)?..)?.get(..RECORD)?;
        let index = *self.polygon_material_indices.get(k)?;
        let mut polygon = Polygon::read(record).ok()?;
        match &mut polygon {
            Polygon::Triangle { material, .. }
            | Polygon::Sphere { material, .. }
            | Polygon::Capsule { material, .. }
            | Polygon::Box { material, .. }
            | Polygon::Cylinder { material, .. } => *material = index,
        }
        Some(polygon)
    }

    /// The material of the polygon at a place.
    ///
    /// ```
    /// # use bounds::{prepare::PolygonPlace, BoundMaterial, Geometry, Polygon};
    /// let mut geometry = Geometry::new(Geometry::PLAIN);
    /// geometry.materials = vec![BoundMaterial { data1: 7, data2: 1 }];
    /// geometry.polygons = vec![Polygon::Sphere { material: 0, index: 0, radius: 0.5 }];
    /// assert_eq!(geometry.prepare()?.material(PolygonPlace(0)), Some(geometry.materials[0]));
    /// # Ok::<(), bounds::Refusal>(())
    /// ```
    pub fn material(&self, PolygonPlace(k): PolygonPlace) -> Option<BoundMaterial> {
        self.materials.get(*self.polygon_material_indices.get(k)? as usize).copied()
    }

    /// The triangles that share a side with the one at a place, side by side; none of what is no triangle.
    ///
    /// ```
    /// # use bounds::{prepare::PolygonPlace, Geometry, Polygon};
    /// let triangle = |v| Polygon::Triangle { material: 0, area: 0.0, v, edges: [-1; 3] };
    /// let mut geometry = Geometry::new(Geometry::PLAIN);
    /// geometry.polygons = vec![triangle([0, 1, 2]), triangle([2, 1, 3])];
    /// let prepared = geometry.prepare()?;
    /// assert_eq!(prepared.links(PolygonPlace(0)), [None, Some(PolygonPlace(1)), None]);
    /// # Ok::<(), bounds::Refusal>(())
    /// ```
    pub fn links(&self, place: PolygonPlace) -> [Option<PolygonPlace>; 3] {
        match self.polygon(place) {
            Some(Polygon::Triangle { edges, .. }) => edges.map(|to| usize::try_from(to).ok().map(PolygonPlace)),
            _ => [None; 3],
        }
    }

    /// Which of the given polygons is at a place: of kind 8 the order of the leaves says it, of kind 4 it is the same number.
    ///
    /// ```
    /// # use bounds::{prepare::{GivenPolygon, PolygonPlace}, Geometry, Polygon, Vec3};
    /// let mut geometry = Geometry::new(Geometry::BVH);
    /// geometry.vertices = (0..8).map(|x| Vec3::new(x as f32, 0.0, 0.0)).collect();
    /// geometry.polygons = (0..8).map(|index| Polygon::Sphere { material: 0, index, radius: 0.1 }).collect();
    /// let prepared = geometry.prepare()?;
    /// assert_eq!(prepared.given(PolygonPlace(0)), Some(GivenPolygon(4))); // the far half comes first
    /// assert_eq!(prepared.place_of(GivenPolygon(4)), Some(PolygonPlace(0)));
    /// # Ok::<(), bounds::Refusal>(())
    /// ```
    pub fn given(&self, PolygonPlace(k): PolygonPlace) -> Option<GivenPolygon> {
        match &self.bvh {
            Some(tree) => tree.order.get(k).map(|&given| GivenPolygon(given as usize)),
            None => (k < self.places().len()).then_some(GivenPolygon(k)),
        }
    }

    /// The place of a given polygon. Takes time by the number of polygons.
    ///
    /// ```
    /// # use bounds::{prepare::GivenPolygon, Geometry};
    /// assert_eq!(Geometry::new(Geometry::BVH).prepare()?.place_of(GivenPolygon(0)), None);
    /// # Ok::<(), bounds::Refusal>(())
    /// ```
    pub fn place_of(&self, given: GivenPolygon) -> Option<PolygonPlace> {
        self.places().find(|&place| self.given(place) == Some(given))
    }
}

impl PreparedTree {
    /// What its records hand out for the box from `min` to `max`: where the polygons' boxes are within the premises
    /// ([`ordinary`](crate::ordinary)) every polygon whose box meets it, and some besides. Corners may be infinite; a NaN
    /// corner stands for the centre.
    ///
    /// # Errors
    ///
    /// Proved: of a tree that [`Geometry::prepare`](crate::Geometry::prepare) made, none. Of other bytes what
    /// [`walk`](mod@crate::walk) refuses.
    ///
    /// ```
    /// # use bounds::{prepare::PolygonPlace, Geometry, Polygon, Vec3};
    /// let mut geometry = Geometry::new(Geometry::BVH);
    /// geometry.vertices = (0..8).map(|x| Vec3::new(x as f32, 0.0, 0.0)).collect();
    /// geometry.polygons = (0..8).map(|index| Polygon::Sphere { material: 0, index, radius: 0.1 }).collect();
    /// let prepared = geometry.prepare()?;
    /// let found = prepared.bvh.as_ref().expect("a tree").candidates(Vec3::ZERO, Vec3::new(1.0, 0.0, 0.0))?;
    /// let near = found.polygons.iter().filter_map(|&place| prepared.given(place)).map(|given| given.0);
    /// assert!(near.eq([0, 1, 2, 3])); // one leaf
    /// # Ok::<(), Box<dyn std::error::Error>>(())
    /// ```
    pub fn candidates(&self, min: Vec3, max: Vec3) -> Result<PolygonCandidates, Refused> {
        let records = self.records();
        let mut positions = vec![0; records.items_count];
        let (center, inverse) = (self.built.bb_center, self.built.quantum_inverse);
        let Counts { reads, handed } = walk(min, max, center, inverse, &records, &mut positions)?;
        let polygons = positions[..handed].iter().map(|&position| PolygonPlace(position as usize)).collect();
        Ok(PolygonCandidates { polygons, reads })
    }

    /// The 128 bytes of its header, its records being at these addresses.
    ///
    /// # Errors
    ///
    /// Of a tree that was prepared none; of one made by hand refusal 1 (over 65,535 trees).
    ///
    /// ```
    /// # use bounds::{tree::Addresses, Geometry, Polygon};
    /// let mut geometry = Geometry::new(Geometry::BVH);
    /// geometry.polygons = vec![Polygon::Box { material: 0, i: [0; 4] }];
    /// let header = geometry.prepare()?.bvh.expect("a tree").header(Addresses::default())?;
    /// assert_eq!((header[8], header[120]), (1, 1)); // a node, a tree
    /// # Ok::<(), bounds::Refusal>(())
    /// ```
    pub fn header(&self, at: Addresses) -> Result<[u8; HEADER], Refusal> {
        let mut header = [0; HEADER];
        tree_header(&mut header, &self.built.bvh(at.nodes, at.trees))?;
        Ok(header)
    }

    /// Its nodes in preorder.
    ///
    /// ```
    /// # use bounds::{Geometry, Polygon};
    /// let mut geometry = Geometry::new(Geometry::BVH);
    /// geometry.polygons = vec![Polygon::Box { material: 0, i: [0; 4] }; 5];
    /// let tree = geometry.prepare()?.bvh.expect("a tree");
    /// assert!(tree.nodes().map(|node| (node.item_id, node.item_count)).eq([(3, 0), (0, 3), (3, 2)]));
    /// # Ok::<(), bounds::Refusal>(())
    /// ```
    pub fn nodes(&self) -> impl ExactSizeIterator<Item = BvhNode> + '_ {
        records(&self.node_bytes).take(self.built.nodes_count as usize).map(BvhNode::read)
    }

    /// Its trees: the ranges of nodes, at most 127 each.
    ///
    /// ```
    /// # use bounds::{Geometry, Polygon};
    /// let mut geometry = Geometry::new(Geometry::BVH);
    /// geometry.polygons = vec![Polygon::Box { material: 0, i: [0; 4] }];
    /// let tree = geometry.prepare()?.bvh.expect("a tree");
    /// assert!(tree.trees().map(|range| (range.node_index1, range.node_index2)).eq([(0, 1)]));
    /// # Ok::<(), bounds::Refusal>(())
    /// ```
    pub fn trees(&self) -> impl ExactSizeIterator<Item = BvhTree> + '_ {
        records(&self.tree_bytes).map(BvhTree::read)
    }

    /// The polygons of a node: of a leaf of this tree those that it holds, of an inner node none.
    ///
    /// ```
    /// # use bounds::{prepare::PolygonPlace, Geometry, Polygon};
    /// let mut geometry = Geometry::new(Geometry::BVH);
    /// geometry.polygons = vec![Polygon::Box { material: 0, i: [0; 4] }; 2];
    /// let tree = geometry.prepare()?.bvh.expect("a tree");
    /// assert_eq!(tree.held(&tree.nodes().next().unwrap()), [PolygonPlace(0), PolygonPlace(1)]);
    /// # Ok::<(), bounds::Refusal>(())
    /// ```
    pub fn held(&self, node: &BvhNode) -> Vec<PolygonPlace> {
        let (first, count) = (node.item_id.max(0) as usize, node.item_count.max(0) as usize);
        (first..(first + count).min(self.order.len())).map(PolygonPlace).collect()
        // a record may be another tree's
    }

    /// Its records as the lent form of the walk takes them.
    ///
    /// ```
    /// # use bounds::{Geometry, Polygon};
    /// let mut geometry = Geometry::new(Geometry::BVH);
    /// geometry.polygons = vec![Polygon::Box { material: 0, i: [0; 4] }; 3];
    /// assert_eq!(geometry.prepare()?.bvh.expect("a tree").records().items_count, 3);
    /// # Ok::<(), bounds::Refusal>(())
    /// ```
    pub fn records(&self) -> Records<'_> {
        Records {
            node_bytes: &self.node_bytes,
            nodes_count: self.built.nodes_count as usize,
            tree_bytes: &self.tree_bytes,
            trees_count: self.built.trees_count as usize,
            items_count: self.order.len(),
        }
    }
}
