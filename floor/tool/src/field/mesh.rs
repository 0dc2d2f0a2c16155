//! The fields of a prepared mesh: their names, bytes, values and rules. Those of its tree are [`Field`]s.

use super::{Field, InHeader, Point, Recorded, Value, AXES, CORNERS};
use crate::dump::{Records, ENTRY};
use crate::rules::Rule::{self, *};
use bounds::premises::{Axis, Corner};
use bounds::prepare::{Prepared, Quantised};
use bounds::{BoundMaterial, Vec3};
use std::fmt;

/// Bytes of a polygon's record.
const RECORD: usize = 16;

/// What was derived of a mesh, and of kind 8 the bytes of its tree. Where these are at hand the tree in `prepared` is not
/// looked at: its header is in them.
#[derive(Clone, Copy, Debug)]
pub struct Derived<'a> {
    pub prepared: &'a Prepared,
    pub tree: Option<&'a Records>,
    /// The polygons' boxes as boxes.bin has them, where there is a tree.
    pub boxes: &'a [u8],
}

/// A field of a polygon's record.
#[derive(Clone, Copy, Debug, PartialEq, Eq, Hash, PartialOrd, Ord)]
pub enum InPolygon {
    Kind,
    /// Of a triangle.
    Area,
    /// A corner of a triangle or of a box, an end of a capsule or a cylinder, a sphere's centre.
    Vertex(usize),
    /// Of what is round.
    Radius,
    /// Of a triangle.
    Link(usize),
    /// Bits that the kind does not use.
    Zeros,
}

/// Which of a bound's centres.
#[derive(Clone, Copy, Debug, PartialEq, Eq, Hash)]
pub enum Centre {
    Box,
    Sphere,
    /// center_geom: what is added to a vertex before the transform.
    Geom,
}

/// A field of what was derived of a mesh.
#[derive(Clone, Copy, Debug, PartialEq, Eq, Hash)]
pub enum MeshField {
    Quantum(Axis),
    Box(Corner, Axis),
    Centre(Centre, Axis),
    Radius,
    Polygon(usize, InPolygon),
    /// A value of a polygon's box, where the given vertices stand.
    PolygonBox(usize, Corner, Axis),
    /// Before they are filled up to four.
    MaterialCount,
    Material(usize),
    /// Of a polygon.
    MaterialIndex(usize),
    Vertex(usize, Axis),
    VertexFloat(usize, Axis),
    Shrunk(usize, Axis),
    ShrunkFloat(usize, Axis),
    OctantCount(usize),
    /// An index of one of the eight lists.
    Octant(usize, usize),
    /// Of the tree: header, nodes, trees, order.
    Tree(Field),
}

impl Centre {
    /// Every one, in the order of the frame.
    pub const ALL: [Centre; 3] = [Centre::Box, Centre::Sphere, Centre::Geom];
}

impl InPolygon {
    /// The fields of a record of this kind; of one that is none only that it is.
    pub fn all(kind: u8) -> Vec<InPolygon> {
        use InPolygon::*;
        let vertices = |n: usize| (0..n).map(Vertex);
        let first = [Kind].into_iter();
        match kind {
            0 => first.chain([Area]).chain(vertices(3)).chain((0..3).map(Link)).collect(),
            1 => first.chain(vertices(1)).chain([Radius, Zeros]).collect(),
            2 | 4 => first.chain(vertices(2)).chain([Radius, Zeros]).collect(),
            3 => first.chain(vertices(4)).chain([Zeros]).collect(),
            _ => first.chain([Zeros]).collect(),
        }
    }

    /// Its bits in a record of this kind, as bytes' masks.
    fn mask(self, kind: u8) -> [u8; RECORD] {
        let mut mask = [0; RECORD];
        let mut whole = |from: usize, to: usize| mask[from..to].fill(0xFF);
        match (self, kind) {
            (InPolygon::Kind, _) => mask[0] = 7,
            (InPolygon::Area, _) => {
                whole(0, 4);
                mask[0] = 0xF8;
            }
            (InPolygon::Vertex(i), 0 | 3) => whole(4 + 2 * i, 6 + 2 * i),
            (InPolygon::Vertex(0), _) => whole(2, 4),
            (InPolygon::Vertex(_), _) => whole(8, 10),
            (InPolygon::Radius, _) => whole(4, 8),
            (InPolygon::Link(i), _) => whole(10 + 2 * i, 12 + 2 * i),
            (InPolygon::Zeros, _) => {
                let used = InPolygon::all(kind).into_iter().filter(|&field| field != InPolygon::Zeros);
                let used: Vec<[u8; RECORD]> = used.map(|field| field.mask(kind)).collect();
                mask = std::array::from_fn(|k| !used.iter().fold(0, |all, one| all | one[k]));
            }
        }
        mask
    }

    /// Where it stands in a record of this kind: `bytes 4-5`, `byte 0, bits 0-2`.
    pub fn place(self, kind: u8) -> String {
        match self {
            InPolygon::Kind => "byte 0, bits 0-2,".into(),
            InPolygon::Area => "bytes 0-3 but for bits 0-2".into(),
            InPolygon::Zeros => "the bits not used".into(),
            _ => {
                let mask = self.mask(kind);
                let first = mask.iter().position(|&byte| byte != 0).unwrap_or(0);
                let last = mask.iter().rposition(|&byte| byte != 0).unwrap_or(0);
                format!("bytes {first}-{last}")
            }
        }
    }

    /// Its bytes of a record, where a record of that kind has it.
    fn raw(self, record: &[u8]) -> Option<Vec<u8>> {
        let kind = record[0] & 7;
        InPolygon::all(kind).contains(&self).then_some(())?;
        let mask = self.mask(kind);
        Some((0..RECORD).filter(|&k| mask[k] != 0).map(|k| record[k] & mask[k]).collect())
    }
}

/// An axis of a point.
pub fn on(v: Vec3, axis: Axis) -> f32 {
    [v.x, v.y, v.z][axis as usize]
}

fn word(x: f32) -> Vec<u8> {
    x.to_bits().to_le_bytes().to_vec()
}

fn stored(of: &Quantised, k: usize, axis: Axis) -> Option<Vec<u8>> {
    let v = of.stored.get(k)?;
    Some([v.0, v.1, v.2][axis as usize].to_le_bytes().to_vec())
}

fn read_back(of: &Quantised, k: usize, axis: Axis) -> Option<Vec<u8>> {
    of.floats.get(k).map(|&v| word(on(v, axis)))
}

impl Derived<'_> {
    /// A polygon's record.
    pub fn polygon(&self, k: usize) -> Option<&[u8]> {
        self.prepared.polygons.get(k.checked_mul(RECORD)?..)?.get(..RECORD)
    }

    fn polygon_fields(&self, k: usize) -> Vec<MeshField> {
        let kind = self.polygon(k).map_or(0, |record| record[0] & 7);
        InPolygon::all(kind).into_iter().map(|at| MeshField::Polygon(k, at)).collect()
    }
}

impl MeshField {
    /// The rules that made it, by docs/RULES.md.
    pub fn rules(self, of: &Derived) -> &'static [Rule] {
        let tree = of.tree.is_some();
        match self {
            MeshField::Quantum(_) => &[Q1],
            MeshField::Centre(Centre::Geom, _) => &[F4],
            MeshField::Box(..) if tree => &[K5, T1, F3],
            MeshField::Centre(..) if tree => &[K5, T2],
            MeshField::Radius if tree => &[K5, V4],
            MeshField::Box(..) | MeshField::Centre(..) | MeshField::Radius => &[K5, F4],
            MeshField::PolygonBox(..) => &[G9, K1, F3],
            MeshField::Polygon(_, InPolygon::Kind) => &[G3, G4],
            MeshField::Polygon(_, InPolygon::Link(_)) => &[E2, G3, G7],
            MeshField::Polygon(_, InPolygon::Area | InPolygon::Radius) => &[G2, G3],
            MeshField::Polygon(..) => &[G3],
            MeshField::MaterialCount => &[M2],
            MeshField::Material(k) if k >= of.prepared.materials_count => &[M4],
            MeshField::Material(_) | MeshField::MaterialIndex(_) => &[M1, M2],
            MeshField::Vertex(..) => &[Q4, Q2, F9],
            MeshField::VertexFloat(..) | MeshField::ShrunkFloat(..) => &[Q4, Q3],
            MeshField::Shrunk(..) => &[K6, Q4, Q2],
            MeshField::OctantCount(_) | MeshField::Octant(..) => &[O2],
            MeshField::Tree(field) => field.rules(of.tree.map_or(0, Records::node_count)),
        }
    }

    /// What it is a field of: `polygon 3`, `vertex 7`, `box`.
    pub fn part(self) -> String {
        match self {
            MeshField::Quantum(_) => "quantum".into(),
            MeshField::Box(..) => "box".into(),
            MeshField::Centre(..) => "center".into(),
            MeshField::Radius => "radius".into(),
            MeshField::Polygon(k, _) => format!("polygon {k}"),
            MeshField::PolygonBox(k, ..) => format!("polygon_box {k}"),
            MeshField::MaterialCount => "material_count".into(),
            MeshField::Material(_) => "material".into(),
            MeshField::MaterialIndex(_) => "material_index".into(),
            MeshField::Vertex(k, _) => format!("vertex {k}"),
            MeshField::VertexFloat(k, _) => format!("vertex_float {k}"),
            MeshField::Shrunk(k, _) => format!("shrunk {k}"),
            MeshField::ShrunkFloat(k, _) => format!("shrunk_float {k}"),
            MeshField::OctantCount(k) | MeshField::Octant(k, _) => format!("octant {k}"),
            MeshField::Tree(field) => field.part(),
        }
    }

    /// Its name within that: `link 1`, `y`, `min.x`; none where the part is the whole.
    pub fn name(self) -> String {
        match self {
            MeshField::Box(corner, axis) | MeshField::PolygonBox(_, corner, axis) => format!("{corner}.{axis}"),
            MeshField::Centre(centre, axis) => format!("{centre}.{axis}"),
            MeshField::Quantum(axis)
            | MeshField::Vertex(_, axis)
            | MeshField::VertexFloat(_, axis)
            | MeshField::Shrunk(_, axis)
            | MeshField::ShrunkFloat(_, axis) => axis.to_string(),
            MeshField::Radius | MeshField::MaterialCount => String::new(),
            MeshField::Polygon(_, at) => at.to_string(),
            MeshField::Material(k) | MeshField::MaterialIndex(k) => k.to_string(),
            MeshField::OctantCount(_) => "count".into(),
            MeshField::Octant(_, i) => format!("index {i}"),
            MeshField::Tree(field) => field.name(),
        }
    }

    /// The field of a name: `polygon 3 link 1`, `vertex 7 y`, `octant 3 index 0`, `node 9 min.x`.
    pub fn parse(words: &[String]) -> Option<MeshField> {
        use MeshField::*;
        let number = |word: &str| word.parse::<usize>().ok();
        let axis = |word: &str| AXES.into_iter().find(|axis| axis.to_string() == word);
        let corners = || CORNERS.into_iter().flat_map(|c| AXES.map(|a| Box(c, a)));
        let centres = || self::Centre::ALL.into_iter().flat_map(|c| AXES.map(|a| Centre(c, a)));
        Some(match words.iter().map(String::as_str).collect::<Vec<_>>()[..] {
            ["quantum", a] => Quantum(axis(a)?),
            ["box", name] => corners().find(|field| field.name() == name)?,
            ["center", name] => centres().find(|field| field.name() == name)?,
            ["radius"] => Radius,
            ["polygon_box", k, name] => {
                let (k, values) = (number(k)?, || CORNERS.into_iter().flat_map(|c| AXES.map(|a| (c, a))));
                values().map(|(c, a)| PolygonBox(k, c, a)).find(|field| field.name() == name)?
            }
            ["polygon", k, ref name @ ..] => Polygon(number(k)?, in_polygon(name)?),
            ["material_count"] => MaterialCount,
            ["material", k] => Material(number(k)?),
            ["material_index", k] => MaterialIndex(number(k)?),
            ["vertex", k, a] => Vertex(number(k)?, axis(a)?),
            ["vertex_float", k, a] => VertexFloat(number(k)?, axis(a)?),
            ["shrunk", k, a] => Shrunk(number(k)?, axis(a)?),
            ["shrunk_float", k, a] => ShrunkFloat(number(k)?, axis(a)?),
            ["octant", k, "count"] => OctantCount(number(k)?),
            ["octant", k, "index", i] => Octant(number(k)?, number(i)?),
            _ => Tree(Field::parse(words)?),
        })
    }
}

fn in_polygon(name: &[&str]) -> Option<InPolygon> {
    let number = |word: &str| word.parse::<usize>().ok();
    Some(match *name {
        ["kind"] => InPolygon::Kind,
        ["area"] => InPolygon::Area,
        ["radius"] => InPolygon::Radius,
        ["zeros"] => InPolygon::Zeros,
        ["vertex", i] => InPolygon::Vertex(number(i).filter(|&i| i < 4)?),
        ["link", i] => InPolygon::Link(number(i).filter(|&i| i < 3)?),
        _ => return None,
    })
}

fn material_bytes(of: &BoundMaterial) -> Vec<u8> {
    [of.data1, of.data2].into_iter().flat_map(u32::to_le_bytes).collect()
}

impl Recorded for MeshField {
    type Of<'r> = &'r Derived<'r>;

    fn all(of: &Derived) -> Vec<MeshField> {
        use MeshField::*;
        let p = of.prepared;
        let points = |n: usize, field: fn(usize, Axis) -> MeshField| {
            (0..n).flat_map(move |k| AXES.map(|axis| field(k, axis))).collect::<Vec<_>>()
        };
        let mut all: Vec<MeshField> = AXES.map(Quantum).to_vec();
        all.extend(CORNERS.iter().flat_map(|&corner| AXES.map(|axis| Box(corner, axis))));
        all.extend(self::Centre::ALL.into_iter().flat_map(|c| AXES.map(|a| Centre(c, a))));
        all.push(Radius);
        all.extend((0..p.polygons.len() / RECORD).flat_map(|k| of.polygon_fields(k)));
        let corners = |k: usize| CORNERS.iter().flat_map(move |&corner| AXES.map(|axis| PolygonBox(k, corner, axis)));
        all.extend((0..of.boxes.len() / ENTRY).flat_map(corners));
        all.push(MaterialCount);
        all.extend((0..p.materials.len()).map(Material));
        all.extend((0..p.polygon_material_indices.len()).map(MaterialIndex));
        all.extend(points(p.vertices.stored.len(), Vertex));
        all.extend(points(p.vertices.floats.len(), VertexFloat));
        if let Some(shrunk) = &p.vertices_shrunk {
            all.extend(points(shrunk.stored.len(), Shrunk));
            all.extend(points(shrunk.floats.len(), ShrunkFloat));
        }
        if let Some(octants) = &p.octants {
            all.extend((0..8).map(OctantCount));
            let indices = |(k, list): (usize, &Vec<u32>)| (0..list.len()).map(move |i| Octant(k, i));
            all.extend(octants.items.iter().enumerate().flat_map(indices));
        }
        all.extend(of.tree.into_iter().flat_map(Field::all).map(Tree));
        all
    }

    /// Of a polygon's kind and area the bits that are theirs.
    fn raw(self, of: &Derived) -> Option<Vec<u8>> {
        let p = of.prepared;
        match self {
            MeshField::Quantum(axis) => Some(word(on(p.quantum, axis))),
            MeshField::Box(Corner::Min, axis) => Some(word(on(p.box_min, axis))),
            MeshField::Box(Corner::Max, axis) => Some(word(on(p.box_max, axis))),
            MeshField::Centre(Centre::Box, axis) => Some(word(on(p.box_center, axis))),
            MeshField::Centre(Centre::Sphere, axis) => Some(word(on(p.sphere_center, axis))),
            MeshField::Centre(Centre::Geom, axis) => Some(word(on(p.center_geom, axis))),
            MeshField::Radius => Some(word(p.sphere_radius)),
            MeshField::PolygonBox(k, corner, axis) => {
                let at = k.checked_mul(ENTRY)?.checked_add(4 + 12 * corner as usize + 4 * axis as usize)?;
                Some(of.boxes.get(at..)?.get(..4)?.to_vec())
            }
            MeshField::Polygon(k, at) => at.raw(of.polygon(k)?),
            MeshField::MaterialCount => Some((p.materials_count as u32).to_le_bytes().to_vec()),
            MeshField::Material(k) => p.materials.get(k).map(material_bytes),
            MeshField::MaterialIndex(k) => p.polygon_material_indices.get(k).map(|&index| vec![index]),
            MeshField::Vertex(k, axis) => stored(&p.vertices, k, axis),
            MeshField::VertexFloat(k, axis) => read_back(&p.vertices, k, axis),
            MeshField::Shrunk(k, axis) => stored(p.vertices_shrunk.as_ref()?, k, axis),
            MeshField::ShrunkFloat(k, axis) => read_back(p.vertices_shrunk.as_ref()?, k, axis),
            MeshField::OctantCount(k) => Some((p.octants.as_ref()?.items.get(k)?.len() as u32).to_le_bytes().to_vec()),
            MeshField::Octant(k, i) => {
                p.octants.as_ref()?.items.get(k)?.get(i).map(|index| index.to_le_bytes().to_vec())
            }
            MeshField::Tree(field) => field.raw(of.tree?),
        }
    }

    fn value_of(self, raw: &[u8]) -> Value {
        let number = raw.iter().rev().fold(0u64, |sum, &byte| sum << 8 | byte as u64);
        match self {
            MeshField::Quantum(_) | MeshField::Box(..) | MeshField::Centre(..) | MeshField::Radius => {
                Value::Word(number as u32)
            }
            MeshField::Polygon(_, InPolygon::Area | InPolygon::Radius)
            | MeshField::PolygonBox(..)
            | MeshField::VertexFloat(..)
            | MeshField::ShrunkFloat(..) => Value::Word(number as u32),
            MeshField::Polygon(_, InPolygon::Kind) => Value::Kind(number as u8),
            MeshField::Polygon(_, InPolygon::Vertex(_)) => Value::Corner(number as u16),
            MeshField::Polygon(_, InPolygon::Zeros) => Value::Zeros(raw.iter().all(|&byte| byte == 0)),
            MeshField::Polygon(_, InPolygon::Link(_)) | MeshField::Vertex(..) | MeshField::Shrunk(..) => {
                Value::Short(number as u16 as i16)
            }
            MeshField::Material(_) => Value::Material(number as u32, (number >> 32) as u32),
            MeshField::MaterialCount
            | MeshField::MaterialIndex(_)
            | MeshField::OctantCount(_)
            | MeshField::Octant(..) => Value::Number(number as u32),
            MeshField::Tree(field) => field.value_of(raw),
        }
    }

    fn is_given(self) -> bool {
        matches!(self, MeshField::Tree(field) if field.is_given())
    }

    /// With a tree the frame is the tree's, and the tree's box is folded over vertices that went through the transform.
    fn is_made(self, of: &Derived) -> bool {
        match self {
            MeshField::Quantum(_) | MeshField::VertexFloat(..) | MeshField::ShrunkFloat(..) => true,
            MeshField::PolygonBox(..) => true,
            MeshField::Centre(Centre::Geom, _) => false,
            MeshField::Box(..) | MeshField::Centre(..) | MeshField::Radius => of.tree.is_some(),
            MeshField::Tree(Field::Header(InHeader::Point(Point::Min | Point::Max, _))) => true,
            MeshField::Tree(field) => of.tree.is_some_and(|tree| field.is_made(tree)),
            _ => false,
        }
    }
}

impl fmt::Display for MeshField {
    fn fmt(&self, f: &mut fmt::Formatter) -> fmt::Result {
        f.write_str(format!("{} {}", self.part(), self.name()).trim_end())
    }
}

impl fmt::Display for InPolygon {
    fn fmt(&self, f: &mut fmt::Formatter) -> fmt::Result {
        match self {
            InPolygon::Kind => f.write_str("kind"),
            InPolygon::Area => f.write_str("area"),
            InPolygon::Vertex(i) => write!(f, "vertex {i}"),
            InPolygon::Radius => f.write_str("radius"),
            InPolygon::Link(i) => write!(f, "link {i}"),
            InPolygon::Zeros => f.write_str("zeros"),
        }
    }
}

impl fmt::Display for Centre {
    fn fmt(&self, f: &mut fmt::Formatter) -> fmt::Result {
        f.write_str(match self {
            Centre::Box => "box",
            Centre::Sphere => "sphere",
            Centre::Geom => "geom",
        })
    }
}
