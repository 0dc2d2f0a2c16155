//! The space of a prepared tree: where the vertices of a geometry stand, and what follows from that.

use super::{Frame, Geometry};
use crate::premises::{ordinary, Broken};
use crate::{polygon_items, BvhItem, Polygon, Refusal, Vec3};

impl Geometry {
    /// A geometry of kind 8 of these triangles, their corners by the numbers of the vertices: the middle of the box around all is
    /// its centre, about which the vertices are put, and the sphere is around that. Queries are asked where the vertices were
    /// given. Its material is number 0, which is plain where none is given; kind and margin may be set.
    ///
    /// ```
    /// # use bounds::{Geometry, Vec3};
    /// let at = |x: f32, y: f32| Vec3::new(x, y, 5.0);
    /// let geometry = Geometry::from_triangles(&[at(1.0, 1.0), at(3.0, 1.0), at(1.0, 3.0)], &[[0, 1, 2]]);
    /// let tree = geometry.prepare()?.bvh.expect("a triangle");
    /// assert_eq!(tree.query(at(1.5, 1.5), at(1.5, 1.5)).len(), 1);
    /// # Ok::<(), bounds::Refusal>(())
    /// ```
    pub fn from_triangles(vertices: &[Vec3], triangles: &[[u16; 3]]) -> Geometry {
        let Frame { box_min, box_max, box_center, sphere_center, sphere_radius } =
            Frame::around(vertices.iter().copied());
        let triangle = |&v: &[u16; 3]| Polygon::Triangle { material: 0, area: 0.0, v, edges: [-1; 3] };
        Geometry {
            box_min,
            box_max,
            box_center,
            sphere_center,
            sphere_radius,
            center_geom: box_center,
            vertices: vertices.iter().map(|&v| v - box_center).collect(),
            polygons: triangles.iter().map(triangle).collect(),
            ..Geometry::new(Geometry::BVH)
        }
    }

    /// Where its vertices stand: about its centre, through its transform. The boxes of its polygons, and so the tree and its
    /// queries, are in this space.
    ///
    /// ```
    /// # use bounds::{Geometry, Vec3};
    /// let mut geometry = Geometry::new(Geometry::BVH);
    /// geometry.vertices = vec![Vec3::new(1.0, 0.0, 0.0)];
    /// geometry.center_geom = Vec3::new(10.0, 0.0, 0.0);
    /// geometry.transform.0[14] = 7.0; // up
    /// assert_eq!(geometry.positions(), [Vec3::new(11.0, 0.0, 7.0)]);
    /// ```
    pub fn positions(&self) -> Vec<Vec3> {
        self.standing().collect()
    }

    pub(crate) fn standing(&self) -> impl Iterator<Item = Vec3> + '_ {
        self.vertices.iter().map(|&v| self.transform.transform_point(v + self.center_geom).xyz())
    }

    /// The boxes of its polygons where the vertices stand, in the order in which they are given: the list over which the tree of
    /// kind 8 is built.
    ///
    /// # Errors
    ///
    /// Refusal 1 (over 32,767 polygons).
    ///
    /// ```
    /// # use bounds::{BvhItem, Geometry, Polygon, Vec3};
    /// let mut geometry = Geometry::new(Geometry::BVH);
    /// geometry.center_geom = Vec3::new(10.0, 0.0, 0.0);
    /// geometry.vertices = vec![Vec3::ZERO];
    /// geometry.polygons = vec![Polygon::Sphere { material: 0, index: 0, radius: 1.0 }];
    /// assert_eq!(geometry.items()?, [BvhItem::new(Vec3::new(9.0, -1.0, -1.0), Vec3::new(11.0, 1.0, 1.0))]);
    /// # Ok::<(), bounds::Refusal>(())
    /// ```
    pub fn items(&self) -> Result<Vec<BvhItem>, Refusal> {
        let records: Vec<u8> = self.polygons.iter().flat_map(Polygon::to_bytes).collect();
        let mut items = vec![BvhItem::ABSENT; self.polygons.len()];
        polygon_items(&records, items.len(), &self.positions(), &mut items)?;
        Ok(items)
    }

    /// Whether its polygons' boxes meet the premises under which a query over its tree misses none.
    ///
    /// # Errors
    ///
    /// What breaks them first; a place is that of a polygon as it was given.
    ///
    /// ```
    /// # use bounds::{premises::*, Geometry, Vec3};
    /// let at = |x: f32| Vec3::new(x, 0.0, 0.0);
    /// let mut geometry = Geometry::from_triangles(&[at(0.0), at(1.0), at(2.0)], &[[0, 1, 2]]);
    /// assert_eq!(geometry.premises(), Ok(()));
    /// geometry.vertices[1].y = f32::NAN; // the last corner that is compared wipes it in the box, and so it stays unseen
    /// assert_eq!(geometry.premises(), Ok(()));
    /// geometry.vertices[2].y = f32::NAN;
    /// // A transform carries it to every axis.
    /// assert_eq!(geometry.premises(), Err(Broken::Size { place: 0, corner: Corner::Min, axis: Axis::X }));
    /// ```
    pub fn premises(&self) -> Result<(), Broken> {
        ordinary(&self.items().map_err(Broken::Refused)?)
    }
}

impl Frame {
    /// The frame around points: the least and the greatest on each axis, the middle of that box, and a sphere around it. A NaN
    /// and an infinity are passed over: they say nothing of where the others lie. Where no value is left it is zero.
    ///
    /// ```
    /// # use bounds::{prepare::Frame, Vec3};
    /// let points = [Vec3::new(0.0, 0.0, 0.0), Vec3::new(2.0, f32::NAN, 0.0), Vec3::new(f32::INFINITY, 4.0, 0.0)];
    /// let frame = Frame::around(points.into_iter());
    /// assert_eq!((frame.box_max, frame.box_center), (Vec3::new(2.0, 4.0, 0.0), Vec3::new(1.0, 2.0, 0.0)));
    /// assert_eq!(frame.sphere_radius, Vec3::new(1.0, 2.0, 0.0).length());
    /// ```
    pub fn around(points: impl Iterator<Item = Vec3>) -> Frame {
        let mut found: [Option<(f32, f32)>; 3] = [None; 3];
        for v in points {
            for (found, x) in found.iter_mut().zip([v.x, v.y, v.z]).filter(|(_, x)| x.is_finite()) {
                *found = Some(found.map_or((x, x), |(min, max)| (min.min(x), max.max(x))));
            }
        }
        let [x, y, z] = found.map(Option::unwrap_or_default);
        let (box_min, box_max) = (Vec3::new(x.0, y.0, z.0), Vec3::new(x.1, y.1, z.1));
        let middle = (box_min + box_max) * 0.5;
        let sphere_radius = (box_max - middle).length();
        Frame { box_min, box_max, box_center: middle, sphere_center: middle, sphere_radius }
    }
}
