//! Polygons and their records, the links of their triangles, their materials, and stored vertices.
//!
//! ```
//! use bounds::geometry::{edges_work_len, update_edge_indices, Polygon};
//!
//! // Two triangles that share the edge from vertex 1 to vertex 2.
//! let triangle = |v| Polygon::Triangle { material: 0, area: 1.0, v, edges: [-1; 3] };
//! let mut records = [triangle([0, 1, 2]), triangle([2, 1, 3])].map(|p| p.to_bytes()).concat();
//! update_edge_indices(&mut records, 2, &mut vec![0; edges_work_len(2)])?;
//! let first = Polygon::read(&records)?;
//! assert_eq!(first, Polygon::Triangle { material: 0, area: 1.0, v: [0, 1, 2], edges: [-1, 1, -1] });
//! # Ok::<(), bounds::Refusal>(())
//! ```

use crate::bvh::parts;
use crate::ffi::{self, FloatBox, PolygonBox, PolygonC};
pub use crate::types::{BoundMaterial, BoundVertex};
use crate::{BvhItem, Refusal, Vec3};

/// Bytes of a polygon's record.
///
/// ```
/// # use bounds::{geometry::RECORD, Polygon};
/// assert_eq!(RECORD, 4 + 3 * 2 + 3 * 2); // a triangle fills it: area, vertices, links
/// let sphere = |index| Polygon::Sphere { material: 0, index, radius: 1.0 };
/// let records = [sphere(7), sphere(8)].map(|polygon| polygon.to_bytes()).concat();
/// assert_eq!(Polygon::read(&records[RECORD..])?, sphere(8));
/// # Ok::<(), bounds::Refusal>(())
/// ```
pub const RECORD: usize = 16;

/// Bytes that [`build_materials`] needs for its list: 256 materials of 8.
///
/// ```
/// # use bounds::{geometry::{build_materials, MATERIALS_LEN}, Refusal};
/// assert_eq!(MATERIALS_LEN, 256 * 8);
/// let mut short = [0; MATERIALS_LEN - 1]; // too short also where no material is used
/// assert_eq!(build_materials(&[], &[], &mut short, &mut []), Err(Refusal::BufferTooShort));
/// ```
pub const MATERIALS_LEN: usize = 2048;

/// A polygon. Its material is the number of one of the geometry's materials, and is not in its record; vertices of a
/// triangle may have a flag in bit 15; edges are numbers of polygons, -1 for none.
///
/// ```
/// # use bounds::Polygon;
/// let bytes = Polygon::Capsule { material: 3, i1: 4, i2: 5, radius: 0.5 }.to_bytes();
/// assert_eq!(bytes[0] & 7, 2); // the kind: 0 to 4, in the order below
/// assert_eq!(Polygon::read(&bytes)?, Polygon::Capsule { material: 0, i1: 4, i2: 5, radius: 0.5 });
/// # Ok::<(), bounds::Refusal>(())
/// ```
#[derive(Clone, Copy, Debug, PartialEq)]
#[allow(missing_docs)]
#[repr(u8)]
pub enum Polygon {
    // Numbers of vertices from byte 2 on, a radius at byte 4: there ffi.rs reads them without a branch on the kind.
    Triangle { material: u8, v: [u16; 3], area: f32, edges: [i16; 3] },
    Sphere { material: u8, index: u16, radius: f32 },
    Capsule { material: u8, i1: u16, radius: f32, i2: u16 },
    Box { material: u8, i: [i16; 4] },
    Cylinder { material: u8, i1: u16, radius: f32, i2: u16 },
}

impl Polygon {
    /// The polygon of a record's first 16 bytes, with material 0. Unused bytes are not looked at, and the low three bits
    /// of a triangle's area are its kind.
    ///
    /// # Errors
    ///
    /// Refusals 5 (under 16 bytes) and 6 (a kind above 4).
    ///
    /// ```
    /// # use bounds::{geometry::Polygon, Refusal};
    /// let sphere = Polygon::Sphere { material: 0, index: 7, radius: 0.5 };
    /// assert_eq!(Polygon::read(&sphere.to_bytes()), Ok(sphere));
    /// assert_eq!(Polygon::read(&[0; 15]), Err(Refusal::ShortRecord));
    /// assert_eq!(Polygon::read(&[5; 16]), Err(Refusal::UnknownKind));
    /// ```
    #[inline]
    pub fn read(bytes: &[u8]) -> Result<Polygon, Refusal> {
        let answer = ffi::polygon_read(bytes);
        Refusal::check(answer.refusal)?;
        Polygon::from_struct(answer.polygon).ok_or(Refusal::Unknown)
    }

    /// The 16 bytes of its record.
    ///
    /// ```
    /// # use bounds::geometry::Polygon;
    /// let triangle = Polygon::Triangle { material: 9, area: 1.0, v: [1, 2, 3], edges: [-1; 3] };
    /// let bytes = [0, 0, 0x80, 0x3F, 1, 0, 2, 0, 3, 0, 0xFF, 0xFF, 0xFF, 0xFF, 0xFF, 0xFF];
    /// assert_eq!(triangle.to_bytes(), bytes);
    /// ```
    pub fn to_bytes(&self) -> [u8; RECORD] {
        let mut bytes = [0; RECORD];
        self.write_to(&mut bytes).expect("16 bytes and a known kind are not refused");
        bytes
    }

    /// [`Polygon::to_bytes`] into the first 16 bytes of a lent buffer.
    ///
    /// # Errors
    ///
    /// Refusal 2: under 16 bytes, of which none is changed.
    ///
    /// ```
    /// # use bounds::{geometry::Polygon, Refusal};
    /// let polygon = Polygon::Box { material: 0, i: [0, 1, 2, -1] };
    /// assert_eq!(polygon.write_to(&mut [0; 15]), Err(Refusal::BufferTooShort));
    /// ```
    pub fn write_to(&self, out: &mut [u8]) -> Result<(), Refusal> {
        Refusal::check(ffi::polygon_write(out, self.as_struct()))
    }

    /// The number of its material.
    ///
    /// ```
    /// # use bounds::geometry::Polygon;
    /// assert_eq!(Polygon::Sphere { material: 3, index: 0, radius: 0.5 }.material(), 3);
    /// ```
    pub fn material(&self) -> u8 {
        match *self {
            Polygon::Triangle { material, .. }
            | Polygon::Sphere { material, .. }
            | Polygon::Capsule { material, .. }
            | Polygon::Box { material, .. }
            | Polygon::Cylinder { material, .. } => material,
        }
    }

    /// The least and the greatest of its box. A vertex that is not there is zero; of a triangle's vertices bit 15 is
    /// left out.
    ///
    /// ```
    /// # use bounds::{geometry::Polygon, Vec3};
    /// let vertices = [Vec3::new(1.0, 2.0, 3.0)];
    /// let sphere = Polygon::Sphere { material: 0, index: 0, radius: 0.5 };
    /// assert_eq!(sphere.bbox(&vertices), (Vec3::new(0.5, 1.5, 2.5), Vec3::new(1.5, 2.5, 3.5)));
    /// let flagged = Polygon::Triangle { material: 0, area: 0.0, v: [0x8000, 0, 9], edges: [-1; 3] };
    /// assert_eq!(flagged.bbox(&vertices), (Vec3::ZERO, vertices[0]));
    /// ```
    #[inline]
    pub fn bbox(&self, vertices: &[Vec3]) -> (Vec3, Vec3) {
        let mut found = match *self {
            Polygon::Triangle { v, .. } => ffi::triangle_float_box(v, vertices),
            _ => ffi::moved_float_box(self, vertices),
        };
        if found.told == 0 {
            self.box_by_words(vertices, &mut found);
        }
        (floats(found.min), floats(found.max))
    }

    /// The same box by the struct that a C caller hands over, `bounds_polygon_bbox`: slower, since the struct is stored and
    /// read again. Both are held to the reference.
    ///
    /// ```
    /// # use bounds::{geometry::Polygon, Vec3};
    /// let vertices = [Vec3::new(1.0, 2.0, 3.0)];
    /// let sphere = Polygon::Sphere { material: 0, index: 0, radius: 0.5 };
    /// assert_eq!(sphere.bbox_by_struct(&vertices), sphere.bbox(&vertices));
    /// ```
    pub fn bbox_by_struct(&self, vertices: &[Vec3]) -> (Vec3, Vec3) {
        let answer = ffi::polygon_bbox(self.as_struct(), ffi::vector_words(vertices));
        assert_eq!(answer.refusal, 0, "a polygon of a known kind has a box");
        (floats(answer.min), floats(answer.max))
    }

    /// The box by words, where a NaN keeps its bits and a vertex may be missing. It is stored where the box by floats stands, so that
    /// a caller reads both alike; apart, so that what is left is small enough to be compiled into the caller's loop.
    #[cold]
    fn box_by_words(&self, vertices: &[Vec3], found: &mut FloatBox) {
        let PolygonBox { min, max } = self.word_box(vertices);
        (found.min, found.max) = (min, max);
    }

    fn word_box(&self, vertices: &[Vec3]) -> PolygonBox {
        let words = ffi::vector_words(vertices);
        match *self {
            Polygon::Triangle { v, .. } => ffi::triangle_word_box(v, words),
            Polygon::Sphere { index, radius, .. } => ffi::sphere_bbox(index, radius, words),
            Polygon::Capsule { i1, i2, radius, .. } | Polygon::Cylinder { i1, i2, radius, .. } => {
                ffi::capsule_bbox(i1, i2, radius, words)
            }
            Polygon::Box { i, .. } => ffi::box_bbox(i.map(|i| i as u16), words),
        }
    }

    fn as_struct(&self) -> PolygonC {
        let of = |kind, float: f32, [h0, h1, h2, h3, h4, h5]: [u16; 6]| {
            let word = float.to_bits();
            PolygonC { kind, word, h0, h1, h2, h3, h4, h5 }
        };
        match *self {
            Polygon::Triangle { area, v: [v1, v2, v3], edges, .. } => {
                let [e1, e2, e3] = edges.map(|e| e as u16);
                of(0, area, [v1, v2, v3, e1, e2, e3])
            }
            Polygon::Sphere { index, radius, .. } => of(1, radius, [index, 0, 0, 0, 0, 0]),
            Polygon::Capsule { i1, i2, radius, .. } => of(2, radius, [i1, i2, 0, 0, 0, 0]),
            Polygon::Box { i, .. } => {
                let [i1, i2, i3, i4] = i.map(|i| i as u16);
                of(3, 0.0, [i1, i2, i3, i4, 0, 0])
            }
            Polygon::Cylinder { i1, i2, radius, .. } => of(4, radius, [i1, i2, 0, 0, 0, 0]),
        }
    }

    #[inline]
    fn from_struct(p: PolygonC) -> Option<Polygon> {
        let (material, float) = (0, f32::from_bits(p.word));
        let (i1, i2, radius) = (p.h0, p.h1, float);
        Some(match p.kind {
            0 => Polygon::Triangle {
                material,
                area: float,
                v: [p.h0, p.h1, p.h2],
                edges: [p.h3, p.h4, p.h5].map(|h| h as i16),
            },
            1 => Polygon::Sphere { material, index: i1, radius },
            2 => Polygon::Capsule { material, i1, i2, radius },
            3 => Polygon::Box { material, i: [p.h0, p.h1, p.h2, p.h3].map(|h| h as i16) },
            4 => Polygon::Cylinder { material, i1, i2, radius },
            _ => return None,
        })
    }
}

#[inline]
fn floats(w: ffi::Words3) -> Vec3 {
    Vec3::new(f32::from_bits(w.x), f32::from_bits(w.y), f32::from_bits(w.z))
}

/// The boxes of the first `n` records over their vertices, as the entries that [`build_bvh`](crate::build_bvh) takes: each
/// is present and has the box that [`Polygon::bbox`] gives. Items past the first `n` are left as they were.
///
/// # Errors
///
/// Refusals 1 (over 32,767 polygons), 2 (under 16 bytes or under an item a polygon), 6 (a record's kind is above 4), in this
/// order. None changes an item.
///
/// ```
/// # use bounds::{geometry::polygon_items, BvhItem, Polygon, Refusal, Vec3};
/// let vertices = [Vec3::new(1.0, 2.0, 3.0), Vec3::new(0.0, 5.0, 4.0)];
/// let capsule = Polygon::Capsule { material: 0, i1: 0, i2: 1, radius: 0.5 };
/// let mut items = [BvhItem::ABSENT; 2];
/// polygon_items(&capsule.to_bytes(), 1, &vertices, &mut items)?;
/// let boxed = BvhItem { present: 1, min: Vec3::new(-0.5, 1.5, 2.5), max: Vec3::new(1.5, 5.5, 4.5) };
/// assert_eq!(items, [boxed, BvhItem::ABSENT]);
/// assert_eq!(polygon_items(&[7; 16], 1, &vertices, &mut items), Err(Refusal::UnknownKind));
/// assert_eq!(polygon_items(&[7; 16], 1, &vertices, &mut []), Err(Refusal::BufferTooShort));
/// # Ok::<(), Refusal>(())
/// ```
pub fn polygon_items(polygons: &[u8], n: usize, vertices: &[Vec3], items: &mut [BvhItem]) -> Result<(), Refusal> {
    Refusal::check(ffi::polygon_items(polygons, n, vertices, items))
}

/// Words of the work buffer for linking so many polygons.
///
/// ```
/// assert_eq!(bounds::geometry::edges_work_len(2), 30);
/// ```
pub fn edges_work_len(polygons: usize) -> usize {
    u32::try_from(polygons).map_or(usize::MAX, |n| ffi::bounds_edges_work_len(n) as usize)
}

/// Stores the links of the triangles among the first `n` records: the first two sides on an edge link to each other's
/// triangle, later ones to the first's, and one that is alone has -1. No other byte is changed, nor is what the work
/// buffer held of any meaning.
///
/// # Errors
///
/// Refusals 1 (over 32,767 polygons), 2 (under 16 bytes a polygon, or under [`edges_work_len`] words), 6 (a record's kind
/// is above 4), in this order. None changes a record.
///
/// ```
/// # use bounds::{geometry::update_edge_indices, Refusal};
/// assert_eq!(update_edge_indices(&mut [0; 16], 1, &mut [0; 14]), Err(Refusal::BufferTooShort));
/// assert_eq!(update_edge_indices(&mut [5; 16], 1, &mut [0; 15]), Err(Refusal::UnknownKind));
/// ```
pub fn update_edge_indices(polygons: &mut [u8], n: usize, work: &mut [u32]) -> Result<(), Refusal> {
    Refusal::check(ffi::update_edge_indices(polygons, n, cut(work, n)))
}

/// The work buffer in five parts: corners, keys, sides, spare, links. Each gets its length or what is left, and the last
/// all that is left: the library then finds a part too short where the whole is.
fn cut(work: &mut [u32], polygons: usize) -> [&mut [u32]; 5] {
    let part = 3 * polygons.min(32_767);
    parts(work, [part, part, part, part, usize::MAX])
}

/// Lists the materials that polygons use, each once, by first appearance, eight bytes each, and each polygon's index
/// among them; answers how many there are. `numbers` has the number of each polygon's material; one that is not given
/// stands for (0, 0). What lies behind the written bytes stays as it was.
///
/// # Errors
///
/// Refusals 1 (over 32,767 polygons or 256 materials), 2 (a list under [`MATERIALS_LEN`] bytes, or fewer indices than
/// polygons), in this order. Neither changes a byte.
///
/// ```
/// # use bounds::geometry::{build_materials, BoundMaterial, MATERIALS_LEN};
/// let material = |data1| BoundMaterial { data1, data2: 0 };
/// let (mut list, mut indices) = ([0; MATERIALS_LEN], [0; 4]);
/// let count = build_materials(&[2, 0, 2, 9], &[material(1), material(2), material(1)], &mut list, &mut indices)?;
/// assert_eq!((count, list[0], list[8], indices), (2, 1, 0, [0, 0, 0, 1]));
/// # Ok::<(), bounds::Refusal>(())
/// ```
pub fn build_materials(
    numbers: &[u8],
    materials: &[BoundMaterial],
    list: &mut [u8],
    indices: &mut [u8],
) -> Result<usize, Refusal> {
    let answer = ffi::build_materials(numbers, materials, list, indices);
    Refusal::check(answer.refusal)?;
    Ok(answer.count)
}

impl BoundVertex {
    /// On each axis the point by the quantum: NaN to 0, clamped to 32,767 either way, truncated.
    ///
    /// ```
    /// # use bounds::{geometry::BoundVertex, Vec3};
    /// let unit = Vec3::new(1.0, 1.0, 1.0);
    /// assert_eq!(BoundVertex::from_vec(Vec3::new(40_000.0, -0.9, f32::NAN), unit), BoundVertex(32_767, 0, 0));
    /// ```
    pub fn from_vec(v: Vec3, quantum: Vec3) -> BoundVertex {
        ffi::bounds_stored_vertex(v, quantum)
    }

    /// The point that it stands for.
    ///
    /// ```
    /// # use bounds::{geometry::BoundVertex, Vec3};
    /// let half = Vec3::new(0.5, 0.5, 0.5);
    /// assert_eq!(BoundVertex(1, -2, 0).to_vec(half), Vec3::new(0.5, -1.0, 0.0));
    /// ```
    pub fn to_vec(self, quantum: Vec3) -> Vec3 {
        ffi::bounds_read_back(self, quantum)
    }
}

/// A geometry's quantum: half its box in 32,767 parts. A tree's is another one.
///
/// ```
/// # use bounds::{geometry::calculate_quantum, Vec3};
/// let quantum = calculate_quantum(Vec3::ZERO, Vec3::new(65_534.0, 0.0, f32::INFINITY));
/// assert_eq!(quantum, Vec3::new(1.0, 0.0, f32::INFINITY));
/// ```
pub fn calculate_quantum(box_min: Vec3, box_max: Vec3) -> Vec3 {
    ffi::bounds_quantum(ffi::Aabb { min: box_min, max: box_max })
}

#[cfg(test)]
mod tests {
    use super::*;

    /// Signs, a tie of zeros, a -0 by itself, an infinity, and NaN whose bits are to be kept; vertex 4 is the last.
    const VERTICES: [[u32; 3]; 5] = [
        [0x3F80_0000, 0x8000_0000, 0x7F80_0001],
        [0xC000_0000, 0x0000_0000, 0x4040_0000],
        [0x8000_0000, 0x4000_0000, 0x8000_0000],
        [0x7F80_0000, 0x3F00_0000, 0xBF80_0000],
        [0x0000_0001, 0xFFC0_0002, 0x4000_0000],
    ];

    fn of_kind(kind: usize, n: [u16; 4], radius: f32) -> Polygon {
        let (material, [i1, i2, i3, _]) = (0, n);
        match kind {
            0 => Polygon::Triangle { material, area: radius, v: [i1, i2, i3], edges: [-1; 3] },
            1 => Polygon::Sphere { material, index: i1, radius },
            2 => Polygon::Capsule { material, i1, i2, radius },
            3 => Polygon::Box { material, i: n.map(|i| i as i16) },
            _ => Polygon::Cylinder { material, i1, i2, radius },
        }
    }

    /// A box has the same words by its kind as by the struct, of any numbers, flagged and missing ones too.
    #[test]
    fn by_the_kind_as_by_the_struct() {
        let vertices = VERTICES.map(|[x, y, z]| floats(ffi::Words3 { x, y, z }));
        let bits = |v: Vec3| [v.x, v.y, v.z].map(f32::to_bits);
        let numbers = [0, 1, 2, 3, 4, 5, 0x8001, 0xFFFF];
        let lists = (0..8_usize.pow(4)).map(|k| [k, k / 8, k / 64, k / 512].map(|k| numbers[k % 8]));
        for n in lists {
            for (kind, radius) in [(0, 1.0), (1, 0.5), (1, f32::NAN), (2, -0.0), (3, 1.0), (4, f32::INFINITY)] {
                let polygon = of_kind(kind, n, radius);
                let (low, high) = polygon.bbox(&vertices);
                let (min, max) = polygon.bbox_by_struct(&vertices);
                assert_eq!((bits(low), bits(high)), (bits(min), bits(max)), "{polygon:?}");
            }
        }
    }
}
