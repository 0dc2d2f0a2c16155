//! A mesh prepared, step by step: rules K1 to K7 over the parts that say each.

use crate::fold::entry;
use crate::links::Links;
use crate::materials::Materials;
use crate::points::{length, placed, point, points, sub, vec3, Point};
use crate::polygon::{self, RECORD};
use crate::shrink::{starting_margin, Shrinking};
use crate::tree::Trace;
use crate::vertex::{quantised, quantum};
use crate::{octants, MATERIALS, NODES, POLYGONS, VERTICES};
use bounds::prepare::{Prepared, PreparedTree, Quantised};
use bounds::{BoundMaterial, BvhItem, Geometry, Polygon, Refusal, Vec3};

crate::listed! {
    /// A step done in another way on purpose: a comparison has to find each of them.
    pub enum Wrong in WRONG {
        /// Octants are listed of the shrunk vertices as they are stored.
        OctantsAfterStoring,
        /// Vertices are stored before they are shrunk.
        StoredBeforeShrinking,
        /// The box of kind 4 is folded anew.
        FoldedBox,
        /// Vertices are stored in units of the tree's quantum.
        TreesQuantum,
        /// The quantum is of the box that was given.
        GivenBox,
        /// Links are those of the given order, renumbered.
        FirstPass,
        /// Links are those of the given order.
        NotRenumbered,
        /// Materials are listed in the given order.
        GivenMaterials,
        /// The polygons stay in the given order.
        GivenOrder,
        /// 256 materials are taken.
        EightAt257,
        /// The margin is looked at before the materials.
        MarginFirst,
        /// A kind 8 with an infinite margin is refused.
        MarginOfBoth,
        /// Materials are not filled up to four.
        NotFilled,
        /// The count is that of the filled list.
        CountFilled,
        /// The radius reaches to the least corner.
        RadiusToMin,
        /// The sphere's centre stays.
        CentreStays,
        /// Boxes are those of the vertices as they are.
        NoTransform,
        /// A vertex that is not there goes through the transform.
        MissingMoved,
        /// Leaves have up to five polygons.
        FiveInALeaf,
        /// The floats are the vertices as they were given.
        GivenFloats,
        /// Bytes that a kind does not use stay.
        SameBytes,
        /// Bit 15 of a corner goes.
        FlagGoes,
        /// Kind 8 without polygons has an empty box.
        EmptyBox,
    }
}

/// K2: the most polygons of a leaf.
pub const THRESHOLD: usize = 4;

/// K1 and G11: where the vertices of a mesh stand, and the boxes of its polygons. Of kind 4 there are none.
#[derive(Clone, Debug, Default)]
pub struct Standing {
    pub points: Vec<Point>,
    pub items: Vec<BvhItem>,
}

impl Standing {
    pub fn of(of: &Geometry) -> Standing {
        Standing::with(of, None)
    }

    /// The same, a step of it done wrong.
    fn with(of: &Geometry, wrong: Option<Wrong>) -> Standing {
        if of.kind != Geometry::BVH || of.polygons.is_empty() {
            return Standing::default();
        }
        let center = point(of.center_geom);
        let stands = |v: Point| match wrong {
            Some(Wrong::NoTransform) => v,
            _ => placed(v, center, &of.transform),
        };
        let mut points: Vec<Point> = of.vertices.iter().map(|&v| stands(point(v))).collect();
        if wrong == Some(Wrong::MissingMoved) {
            points.resize(points.len() + 3, stands([0.0; 3]));
        }
        let item = |polygon: &Polygon| {
            let stands = |number: usize| polygon::stands(number, &points);
            entry(1, polygon::bbox(polygon, stands).map(f32::to_bits))
        };
        let items = of.polygons.iter().map(item).collect();
        Standing { points, items }
    }
}

/// The preparing of a mesh that the library prepared.
pub struct MeshTrace<'a> {
    pub of: &'a Geometry,
    pub standing: &'a Standing,
    /// K2: of kind 8 with polygons.
    pub tree: Option<Trace<'a>>,
    /// Of each polygon of the prepared list its place among those that were given.
    pub order: Vec<usize>,
    /// K3: of each that was given its place in the prepared list.
    pub places: Vec<usize>,
    /// Of the prepared list.
    pub links: Links,
    /// Of the prepared list.
    pub materials: Materials,
    /// Of kind 4 with vertices.
    pub shrinking: Option<Shrinking>,
    /// What it all comes to, but for the tree.
    pub prepared: Prepared,
}

impl<'a> MeshTrace<'a> {
    /// Follows the preparing of a mesh, its vertices and polygons standing so.
    pub fn of(of: &'a Geometry, standing: &'a Standing) -> MeshTrace<'a> {
        MeshTrace::with(of, standing, None)
    }

    /// The same, a step of it done wrong.
    fn with(of: &'a Geometry, standing: &'a Standing, wrong: Option<Wrong>) -> MeshTrace<'a> {
        let does = |step: Wrong| wrong == Some(step);
        let threshold = if does(Wrong::FiveInALeaf) { THRESHOLD + 1 } else { THRESHOLD };
        let tree = (!standing.items.is_empty()).then(|| Trace::of(&standing.items, threshold));
        let order = match &tree {
            Some(tree) if !does(Wrong::GivenOrder) => tree.order.clone(),
            _ => (0..of.polygons.len()).collect(),
        };
        let mut places = vec![0; order.len()];
        order.iter().enumerate().for_each(|(new, &old)| places[old] = new);
        let polygons: Vec<&Polygon> = order.iter().map(|&old| &of.polygons[old]).collect();
        let mut links = Links::of(polygons.iter().copied());
        if let Some(Wrong::FirstPass | Wrong::NotRenumbered) = wrong {
            links.links = first_pass(of, &order, does(Wrong::FirstPass).then_some(&places));
        }
        let materials = match does(Wrong::GivenMaterials) {
            true => Materials::of(&of.materials, of.polygons.iter()),
            false => Materials::of(&of.materials, polygons.iter().copied()),
        };
        let mut prepared = framed(of, tree.as_ref(), wrong);
        prepared.polygons = written(&polygons, &links, wrong);
        prepared.materials = materials.list.clone();
        // M4
        prepared
            .materials
            .resize(if does(Wrong::NotFilled) { 0 } else { 4 }.max(materials.list.len()), BoundMaterial::default());
        prepared.materials_count =
            if does(Wrong::CountFilled) { prepared.materials.len() } else { materials.list.len() };
        prepared.polygon_material_indices = materials.indices.clone();
        let shrinking = stored(&mut prepared, of, &links, wrong);
        MeshTrace { of, standing, tree, order, places, links, materials, shrinking, prepared }
    }

    /// A polygon of the prepared list as it was given.
    pub fn polygon(&self, k: usize) -> &'a Polygon {
        &self.of.polygons[self.order[k]]
    }
}

/// The links of the given order, by the new places if these are given.
fn first_pass(of: &Geometry, order: &[usize], places: Option<&Vec<usize>>) -> Vec<[i16; 3]> {
    let given = Links::of(of.polygons.iter()).links;
    let new = |link: i16| match (usize::try_from(link), places) {
        (Ok(link), Some(places)) => places[link] as i16,
        _ => link,
    };
    order.iter().map(|&old| given[old].map(new)).collect()
}

/// G12: the records of polygons with their links.
fn written(polygons: &[&Polygon], links: &Links, wrong: Option<Wrong>) -> Vec<u8> {
    let record = |(polygon, &links): (&&Polygon, &[i16; 3])| match polygon::linked(polygon, links) {
        Polygon::Triangle { material, area, v, edges } if wrong == Some(Wrong::FlagGoes) => {
            polygon::record(&Polygon::Triangle { material, area, v: v.map(|corner| corner & 0x7FFF), edges })
        }
        polygon => polygon::record(&polygon),
    };
    polygons.iter().zip(&links.links).flat_map(record).collect()
}

/// K5: box, centres and radius as given, or the tree's, and Q1: the quantum of that box.
fn framed(of: &Geometry, tree: Option<&Trace>, wrong: Option<Wrong>) -> Prepared {
    let does = |step: Wrong| wrong == Some(step);
    let mut frame = Prepared {
        quantum: of.box_min,
        box_min: of.box_min,
        box_max: of.box_max,
        box_center: of.box_center,
        sphere_center: of.sphere_center,
        sphere_radius: of.sphere_radius,
        center_geom: of.center_geom,
        polygons: Vec::new(),
        materials: Vec::new(),
        materials_count: 0,
        polygon_material_indices: Vec::new(),
        vertices: Quantised::default(),
        vertices_shrunk: None,
        octants: None,
        bvh: None,
    };
    if let Some(tree) = tree {
        (frame.box_min, frame.box_max, frame.box_center) = (tree.least(), tree.greatest(), tree.centre());
        let corner = if does(Wrong::RadiusToMin) { frame.box_min } else { frame.box_max };
        frame.sphere_radius = length(sub(point(corner), point(frame.box_center)));
        if !does(Wrong::CentreStays) {
            frame.sphere_center = frame.box_center;
        }
    } else if does(if of.kind == Geometry::PLAIN { Wrong::FoldedBox } else { Wrong::EmptyBox }) {
        let vertices = if of.kind == Geometry::PLAIN { &of.vertices[..] } else { &[] };
        (frame.box_min, frame.box_max) = folded(vertices);
    }
    let (min, max) = if does(Wrong::GivenBox) { (of.box_min, of.box_max) } else { (frame.box_min, frame.box_max) };
    frame.quantum = match (tree, does(Wrong::TreesQuantum)) {
        (Some(tree), true) => vec3(tree.scales.map(|scale| scale.quantum)),
        _ => quantum(min, max),
    };
    frame
}

/// The box of points, as no rule has it.
fn folded(points: &[Vec3]) -> (Vec3, Vec3) {
    let fold = |start: f32, pick: fn(f32, f32) -> f32| {
        points.iter().map(|&p| point(p)).fold([start; 3], |b, p| std::array::from_fn(|axis| pick(b[axis], p[axis])))
    };
    (vec3(fold(f32::MAX, f32::min)), vec3(fold(f32::MIN, f32::max)))
}

/// Q4 and K6: vertices as they are stored; of kind 4 the shrunk ones too, and the octants of these before they are.
fn stored(prepared: &mut Prepared, of: &Geometry, links: &Links, wrong: Option<Wrong>) -> Option<Shrinking> {
    let does = |step: Wrong| wrong == Some(step);
    let unit = prepared.quantum;
    let store = |vertices: Vec<Vec3>| match quantised(vertices.iter().copied(), unit) {
        all if does(Wrong::GivenFloats) => Quantised { floats: vertices, ..all },
        all => all,
    };
    prepared.vertices = store(of.vertices.clone());
    if of.kind != Geometry::PLAIN {
        return None;
    }
    let before = does(Wrong::StoredBeforeShrinking)
        .then(|| Geometry { vertices: prepared.vertices.floats.clone(), ..of.clone() });
    let shrinking = (!of.vertices.is_empty()).then(|| Shrinking::of(before.as_ref().unwrap_or(of), links));
    let moved: &[Point] = shrinking.as_ref().map_or(&[], |shrinking| &shrinking.points);
    prepared.vertices_shrunk =
        shrinking.as_ref().map(|shrinking| store(shrinking.points.iter().map(|&p| vec3(p)).collect()));
    prepared.octants = Some(match (&prepared.vertices_shrunk, does(Wrong::OctantsAfterStoring)) {
        (Some(shrunk), true) => octants::all(&points(&shrunk.floats)),
        _ => octants::all(moved),
    });
    shrinking
}

/// All that is derived of a geometry whose polygons are these records, with these numbers of materials.
///
/// K4: refusals 6, 1, 6 of a polygon, 8, 7 and 4; the records are all there.
pub fn prepare(of: &Geometry, records: &[u8], numbers: &[u8], wrong: Option<Wrong>) -> Result<Prepared, Refusal> {
    let of = &checked(of, records, numbers, wrong)?;
    let standing = Standing::with(of, wrong);
    let MeshTrace { tree, order, mut prepared, .. } = MeshTrace::with(of, &standing, wrong);
    if tree.as_ref().is_some_and(|tree| tree.nodes.len() > NODES) {
        return Err(Refusal::TooManyNodes);
    }
    prepared.bvh = tree.map(|tree| {
        let boxes = tree.order.iter().map(|&place| tree.items[place]).collect();
        PreparedTree::new(tree.records(), boxes).expect("each polygon in a leaf")
    });
    if wrong == Some(Wrong::SameBytes) {
        for (out, &old) in prepared.polygons.chunks_exact_mut(RECORD).zip(&order) {
            let given = &records[RECORD * old..][..RECORD];
            if polygon::kind_at(given) > 0 {
                out.copy_from_slice(given);
            }
        }
    }
    Ok(prepared)
}

/// The geometry with its polygons, if it is not refused.
fn checked(of: &Geometry, records: &[u8], numbers: &[u8], wrong: Option<Wrong>) -> Result<Geometry, Refusal> {
    let does = |step: Wrong| wrong == Some(step);
    if ![Geometry::PLAIN, Geometry::BVH].contains(&of.kind) {
        return Err(Refusal::UnknownKind);
    }
    if numbers.len() > POLYGONS || of.vertices.len() > VERTICES || of.materials.len() > MATERIALS {
        return Err(Refusal::ListTooLong);
    }
    let polygons = polygon::read_all(&records[..RECORD * numbers.len()], numbers)?;
    let shrinks = of.kind == Geometry::PLAIN || does(Wrong::MarginOfBoth);
    let endless = shrinks && !of.vertices.is_empty() && starting_margin(of) == f32::INFINITY;
    if endless && does(Wrong::MarginFirst) {
        return Err(Refusal::InfiniteMargin);
    }
    let used = Materials::of(&of.materials, polygons.iter()).list.len();
    if used >= if does(Wrong::EightAt257) { MATERIALS + 1 } else { MATERIALS } {
        return Err(Refusal::TooManyMaterials);
    }
    match endless {
        true => Err(Refusal::InfiniteMargin),
        false => Ok(Geometry { polygons, ..of.clone() }),
    }
}
