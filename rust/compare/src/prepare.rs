//! `Geometry::prepare`, both kinds: every value and every cell of every buffer of one side held to the reference's. What is made
//! is compared with any NaN as one, what is copied by its bits.

use crate::build::{values, vec3};
use crate::lent::Lent;
use crate::operation::made;
use crate::plain::links;
use crate::plain::polygon::RECORD;
use crate::points::{Points, LONG, STYLES};
use crate::random::Random;
use crate::report::{Line, Progress};
use crate::shapes::{sheet, Family, Mesh, Shapes, FAMILIES};
use bounds::prepare::{Buffers, Frame, Lengths, Values};
use bounds::{BoundVertex, Vec3};
use oracle::geometry::{self as reference, Geometry, Prepared, Quantised, VERTICES};
use oracle::polygon::{self, Material, Polygon, LIMIT};

/// A case in lent buffers.
pub type Side<'a> = dyn Fn(&Case, Buffers) -> Result<Values, u32> + 'a;

/// A geometry in buffers of its own.
pub type Whole<'a> = dyn Fn(&Geometry) -> Result<bounds::Prepared, u32> + 'a;

/// Most given materials.
const MATERIALS: usize = 256;

/// What a case is made for.
#[derive(Clone, Copy, Debug, PartialEq, Eq)]
pub enum Of {
    Shape(Family),
    /// Up to 300 polygons of any kind.
    Many,
    /// About 256 materials, most of them used.
    Materials,
    /// Points in a box so large that nothing is clamped, without triangles: planes, lines, spheres, ties, NaN and infinities.
    Points,
    /// At a limit.
    Limit,
}

/// A geometry; its polygons as records too, with their numbers of materials, of which there may be too few; and by how much
/// each lent buffer differs from what it needs, in the order of [`Lengths`].
#[derive(Clone, Debug)]
pub struct Case {
    pub of: Of,
    pub geometry: Geometry,
    pub records: Vec<u8>,
    pub numbers: Vec<u8>,
    pub slack: [isize; 12],
}

fn number(p: &Polygon) -> u8 {
    match *p {
        Polygon::Triangle { material, .. }
        | Polygon::Sphere { material, .. }
        | Polygon::Capsule { material, .. }
        | Polygon::Box { material, .. }
        | Polygon::Cylinder { material, .. } => material,
    }
}

impl Case {
    /// All buffers as long as they have to be.
    fn exact(of: Of, geometry: Geometry) -> Case {
        let records = geometry.polygons.iter().flat_map(|&p| polygon::to_bytes(p)).collect();
        let numbers = geometry.polygons.iter().map(number).collect();
        Case { of, geometry, records, numbers, slack: [0; 12] }
    }

    fn count(&self) -> usize {
        self.geometry.polygons.len()
    }

    /// The lengths that are lent. Of more than may be, nothing.
    fn lengths(&self) -> [usize; 12] {
        let (p, v) = (self.count(), self.geometry.vertices.len());
        let l = if p > LIMIT || v > VERTICES { Lengths::of(0, 0) } else { Lengths::of(p, v) };
        let all = [
            l.materials,
            l.indices,
            l.polygons,
            l.vertices,
            l.floats,
            l.shrunk,
            l.shrunk_floats,
            l.octants,
            l.node_bytes,
            l.tree_bytes,
            l.order,
            l.work,
        ];
        std::array::from_fn(|i| all[i].saturating_add_signed(self.slack[i]))
    }

    fn too_long(&self) -> bool {
        let g = &self.geometry;
        self.count() > LIMIT || g.vertices.len() > VERTICES || g.materials.len() > MATERIALS
    }

    fn too_short(&self) -> bool {
        let n = self.count();
        let whole = Case { slack: [0; 12], records: Vec::new(), numbers: Vec::new(), ..self.clone() }.lengths();
        let short = self.lengths().iter().zip(whole).any(|(&lent, needed)| lent < needed);
        short || self.records.len() < RECORD * n || self.numbers.len() < n
    }

    /// Whether nothing but the geometry is given.
    fn undamaged(&self) -> bool {
        let same = |(record, &p): (&[u8], &Polygon)| record == polygon::to_bytes(p);
        let n = self.count();
        let as_long = self.slack == [0; 12] && self.numbers.len() == n && self.records.len() == RECORD * n;
        as_long && self.records.chunks(RECORD).zip(&self.geometry.polygons).all(same)
    }
}

/// Random cases.
struct Cases {
    shapes: Shapes,
    points: Points,
    random: Random,
}

impl Cases {
    fn new(seed: u64) -> Cases {
        Cases { shapes: Shapes::new(seed), points: Points::new(seed ^ 1), random: Random::new(!seed) }
    }

    fn next(&mut self) -> Case {
        let r = &mut self.random;
        let kind = match r.below(60) {
            0 => r.pick(&[0, 1, 3, 5, 9, 12, 255]),
            1..=24 => 4,
            _ => 8,
        };
        let (of, mut geometry) = match r.below(24) {
            0..=2 => (Of::Many, self.many(kind)),
            3 => (Of::Materials, self.materials(kind)),
            4 => (Of::Points, self.points(kind)),
            _ => {
                let (family, geometry) = self.shapes.next(kind);
                (Of::Shape(family), geometry)
            }
        };
        if self.random.once_in(20) {
            geometry.polygons.clear();
        }
        let mut case = Case::exact(of, geometry);
        self.damage(&mut case);
        case
    }

    /// Buffers of other lengths, too few inputs, unknown kinds, and anything in bytes that a kind does not use.
    fn damage(&mut self, case: &mut Case) {
        let (r, n) = (&mut self.random, case.count());
        match r.below(30) {
            0 | 1 => case.slack[r.below(12)] = -1,
            2 => case.records.truncate(case.records.len().saturating_sub(1 + r.below(20))),
            3 => case.numbers.truncate(n.saturating_sub(1)),
            4 if n > 0 => case.records[RECORD * r.below(n)] |= r.pick(&[5, 6, 7]),
            5 | 6 => case.slack = std::array::from_fn(|_| r.pick(&[0, 0, 1, 2, 15, 33])),
            7 => {
                case.records.extend([0x55; 17]);
                case.numbers.extend([9; 3]);
            }
            _ => {}
        }
        if r.once_in(4) {
            for record in case.records.chunks_exact_mut(RECORD).filter(|record| record[0] % 8 > 0) {
                record[1] = r.u32() as u8;
                record[12..].fill(r.u32() as u8);
            }
        }
    }

    /// Polygons of any kind over vertices that are spread, not too many for the reference's rays.
    fn many(&mut self, kind: u8) -> Geometry {
        let r = &mut self.random;
        let n = if r.once_in(4) { r.below(300) } else { r.below(40) };
        let mut geometry = self.shapes.of(Family::Soup, kind);
        let r = &mut self.random;
        let size = r.pick(&[1.0, 50.0]);
        let mut at = || (r.u32() as f32 / 4294967296.0 - 0.5) * size;
        geometry.vertices = (0..n / 2 + 4).map(|_| [at(), at(), at()]).collect();
        let reach = geometry.vertices.len() + self.random.pick(&[0, 0, 0, 3]);
        let index = |r: &mut Random| r.below(reach) as u16;
        let triangles = if kind == 4 { 20 } else { 2 };
        geometry.polygons = (0..n)
            .map(|_| {
                let r = &mut self.random;
                let (material, radius) = (r.below(6) as u8, r.below(9) as f32 * 0.25);
                let v = [index(r), index(r), index(r)];
                match r.below(triangles + 4) {
                    0 => Polygon::Sphere { material, index: v[0], radius },
                    1 => Polygon::Capsule { material, i1: v[0], i2: v[1], radius },
                    2 => Polygon::Box { material, i: [v[0], v[1], v[2], index(r)].map(|i| i as i16) },
                    3 => Polygon::Cylinder { material, i1: v[0], i2: v[1], radius },
                    _ if kind == 4 && r.once_in(2) => Polygon::Sphere { material, index: v[0], radius },
                    _ => Polygon::Triangle { material, area: radius, v, links: [-1; 3] },
                }
            })
            .collect();
        geometry
    }

    fn points(&mut self, kind: u8) -> Geometry {
        let r = &mut self.random;
        let n = if r.once_in(20) { r.below(400) } else { r.below(30) };
        let style = r.pick(&STYLES);
        let mut geometry = wide(self.points.of(n, style), kind);
        if self.random.once_in(2) {
            geometry.polygons = vec![Polygon::Sphere { material: 0, index: 0, radius: 0.5 }; self.random.below(9)];
        }
        geometry
    }

    /// Spheres that use about 256 materials: 255 are taken, 256 not; (0, 0) may be given or missing.
    fn materials(&mut self, kind: u8) -> Geometry {
        let mut geometry = self.shapes.of(Family::Solid, kind);
        let r = &mut self.random;
        let given = r.pick(&[254, 255, 255, 256, 256, 256, 257]);
        let zero = r.below(2) as u32;
        geometry.materials = (0..given).map(|i| (i + zero, 0)).collect();
        let used = r.pick(&[254, 255, 255, 256, 256]);
        let sphere = |i: usize| Polygon::Sphere { material: i as u8, index: (i % 7) as u16, radius: 0.5 };
        geometry.polygons.extend((0..used).map(sphere));
        if r.once_in(2) {
            geometry.polygons.reverse();
        }
        if r.once_in(4) {
            // An infinite margin comes after the materials.
            (geometry.margin, geometry.box_max) = (f32::INFINITY, [f32::INFINITY; 3]);
        }
        geometry
    }
}

/// Points in a box that does not clamp them.
fn wide(vertices: Vec<oracle::Vec3>, kind: u8) -> Geometry {
    let mut geometry = Mesh { vertices, triangles: Vec::new() }.geometry(kind, 0.04);
    (geometry.box_min, geometry.box_max) = ([-1e37; 3], [1e37; 3]);
    geometry
}

/// Groups of 40 spheres that lie so that each split takes the farthest alone: 443 of them have too many nodes at threshold 4.
fn lonely(groups: usize) -> Geometry {
    let mut mesh = Mesh::default();
    for group in 0..groups {
        let mut x = 1e-30;
        for k in 0..40 {
            mesh.vertices.push([x, group as f32, 0.0]);
            x *= k as f32 + 3.0;
        }
    }
    let mut geometry = mesh.geometry(8, 0.04);
    let sphere = |i: usize| Polygon::Sphere { material: i as u8, index: i as u16, radius: 0.0 };
    geometry.polygons = (0..40 * groups).map(sphere).collect();
    geometry
}

/// As many polygons, vertices and materials as may be, and one more; too many nodes; and refusals in their order: every later
/// one is there too. Triangles of kind 4 only where the reference ends soon: by normals at once.
fn at_the_limit() -> Vec<Case> {
    let mut cases = Vec::new();
    let line = |v: usize| Mesh { vertices: (0..v).map(|i| [i as f32, 1.0, -1.0]).collect(), triangles: Vec::new() };
    let (p, v, m) = (LIMIT, VERTICES, MATERIALS);
    for (p, v, m) in [(p, v, m), (p + 1, v, m), (p, v + 1, m), (p, v, m + 1)] {
        for kind in [4, 8, 6] {
            let mut geometry = line(v).geometry(kind, 0.04);
            let sphere = |i: usize| Polygon::Sphere { material: (i % 200) as u8, index: i as u16, radius: 1.0 };
            geometry.polygons = (0..p).map(sphere).collect();
            geometry.materials = (0..m as u32).map(|i| (i, i)).collect();
            cases.push(Case::exact(Of::Limit, geometry));
        }
    }
    for buffer in 0..12 {
        for kind in [4, 8] {
            let mut case = Case::exact(Of::Limit, line(2).geometry(kind, 0.04));
            case.geometry.polygons = vec![Polygon::Sphere { material: 0, index: 0, radius: 1.0 }];
            case = Case::exact(Of::Limit, case.geometry);
            case.slack[buffer] = -1;
            cases.push(case);
        }
    }
    // A grid; all equal; all on one edge; a strip up to the last vertex.
    for kind in [4, 8] {
        let mut grid = sheet(127);
        grid.triangles.resize(LIMIT, [0, 1, 2]);
        cases.push(Case::exact(Of::Limit, grid.geometry(kind, 1e-6)));
        grid.triangles.fill([3, 9, 4]);
        cases.push(Case::exact(Of::Limit, grid.geometry(kind, 1e-6)));
        let mut long = line(VERTICES);
        long.triangles = (0..LIMIT).map(|i| [0, 1, i + 1]).collect();
        cases.push(Case::exact(Of::Limit, long.geometry(kind, 1e-6)));
        long.triangles = (1..LIMIT).map(|i| [i - 1, i, i + 1]).collect();
        cases.push(Case::exact(Of::Limit, long.geometry(kind, 1e-6)));
    }
    // No more: the reference takes a time by the square of what is listed.
    let mut points = Points::new(7);
    cases.extend(LONG.map(|style| Case::exact(Of::Limit, wide(points.of(2_000, style), 4))));
    let (taken, mut refused) = (lonely(442), lonely(443));
    cases.extend([taken, refused.clone()].map(|geometry| Case::exact(Of::Limit, geometry)));
    refused.materials = (0..256).map(|i| (i, 0)).collect();
    (refused.margin, refused.box_max) = (f32::INFINITY, [f32::INFINITY; 3]);
    let many = Case::exact(Of::Limit, refused);
    let mut kind = many.clone();
    kind.records[RECORD * 5_000] = 6;
    let mut short = kind.clone();
    short.slack[11] = -1;
    cases.extend([many, kind, short]);
    cases
}

/// The reference's answer, after the refusals that it has not: 2, and 6 of a record. The order is 6, 1, 2, 6.
fn expected(case: &Case) -> Result<Prepared, u32> {
    let mut geometry = case.geometry.clone();
    if geometry.kind != 4 && geometry.kind != 8 {
        return Err(6);
    }
    if case.too_long() {
        return Err(1);
    }
    if case.too_short() {
        return Err(2);
    }
    let read = |(record, &number): (&[u8], &u8)| {
        let mut polygon = polygon::read(record).map_err(|refused| refused.0 as u32)?;
        match &mut polygon {
            Polygon::Triangle { material, .. }
            | Polygon::Sphere { material, .. }
            | Polygon::Capsule { material, .. }
            | Polygon::Box { material, .. }
            | Polygon::Cylinder { material, .. } => *material = number,
        }
        Ok(polygon)
    };
    let records = case.records.chunks_exact(RECORD).zip(&case.numbers).take(case.count());
    geometry.polygons = records.map(read).collect::<Result<_, u32>>()?;
    reference::prepare(&geometry).map_err(|refused| refused.0 as u32)
}

/// What has to be in the buffers.
#[derive(Default)]
struct Written {
    materials: Vec<u8>,
    indices: Vec<u8>,
    polygons: Vec<u8>,
    vertices: Vec<u8>,
    floats: Vec<Vec3>,
    shrunk: Vec<u8>,
    shrunk_floats: Vec<Vec3>,
    octants: Vec<(usize, Vec<u32>)>,
    nodes: Vec<u8>,
    trees: Vec<u8>,
    order: Vec<u16>,
}

fn stored_bytes(q: &Quantised) -> Vec<u8> {
    q.stored.iter().flatten().flat_map(|n| n.to_le_bytes()).collect()
}

fn floats(q: &Quantised) -> Vec<Vec3> {
    q.floats.iter().copied().map(vec3).collect()
}

impl Written {
    fn of(p: &Prepared) -> Written {
        let v = p.vertices.stored.len();
        let bytes = |&(a, b): &Material| [a.to_le_bytes(), b.to_le_bytes()].concat();
        let lists = p.octants.iter().flatten().enumerate().map(|(k, list)| (k * v, list.clone())).collect();
        let mut written = Written {
            materials: p.materials.iter().flat_map(bytes).collect(),
            indices: p.material_indices.clone(),
            polygons: p.polygon_bytes.clone(),
            vertices: stored_bytes(&p.vertices),
            floats: floats(&p.vertices),
            octants: lists,
            ..Written::default()
        };
        if let Some(shrunk) = &p.shrunk {
            (written.shrunk, written.shrunk_floats) = (stored_bytes(shrunk), floats(shrunk));
        }
        if let Some(tree) = &p.tree {
            (written.nodes, written.trees) = (tree.node_bytes.clone(), tree.tree_bytes.clone());
            written.order = tree.order.iter().map(|&place| place as u16).collect();
        }
        written
    }
}

/// Every buffer, each with its own pattern.
struct Buffered {
    bytes: [Lent<u8>; 7],
    floats: [Lent<Vec3>; 2],
    words: [Lent<u32>; 2],
    order: Lent<u16>,
}

impl Buffered {
    fn new(
        [materials, indices, polygons, vertices, floats, shrunk, shrunk_floats, octants, nodes, trees, order, work]: [usize; 12],
        seed: u64,
    ) -> Buffered {
        let bytes = [materials, indices, polygons, vertices, shrunk, nodes, trees];
        Buffered {
            bytes: std::array::from_fn(|i| Lent::new(bytes[i], seed ^ i as u64)),
            floats: [Lent::new(floats, seed ^ 7), Lent::new(shrunk_floats, seed ^ 8)],
            words: [Lent::new(octants, seed ^ 9), Lent::new(work, !seed)],
            order: Lent::new(order, seed ^ 10),
        }
    }

    fn buffers(&mut self) -> Buffers<'_> {
        let [materials, indices, polygons, vertices, shrunk, node_bytes, tree_bytes] =
            self.bytes.each_mut().map(|lent| lent.buffer());
        let [floats, shrunk_floats] = self.floats.each_mut().map(|lent| lent.buffer());
        let [octants, work] = self.words.each_mut().map(|lent| lent.buffer());
        Buffers {
            materials,
            indices,
            polygons,
            vertices,
            floats,
            shrunk,
            shrunk_floats,
            octants,
            node_bytes,
            tree_bytes,
            order: self.order.buffer(),
            work,
        }
    }

    fn check(&self, w: &Written) -> Result<(), String> {
        let named = |name: &'static str| move |why: String| format!("{name}: {why}");
        let bytes = [&w.materials, &w.indices, &w.polygons, &w.vertices, &w.shrunk, &w.nodes, &w.trees];
        let names = ["materials", "indices", "polygons", "vertices", "shrunk", "nodes", "trees"];
        for ((lent, written), name) in self.bytes.iter().zip(bytes).zip(names) {
            lent.check(written).map_err(named(name))?;
        }
        self.floats[0].check(&w.floats).map_err(named("floats"))?;
        self.floats[1].check(&w.shrunk_floats).map_err(named("shrunk floats"))?;
        let parts: Vec<(usize, &[u32])> = w.octants.iter().map(|(at, list)| (*at, &list[..])).collect();
        self.words[0].check_parts(&parts).map_err(named("octants"))?;
        self.order.check(&w.order).map_err(named("order"))?;
        self.words[1].check_guards().map_err(named("work"))
    }
}

fn words(f: &Frame, word: fn(f32) -> u32) -> [u32; 13] {
    let Frame { box_min, box_max, box_center, sphere_center, sphere_radius } = *f;
    let mut all = [word(sphere_radius); 13];
    for (i, p) in [box_min, box_max, box_center, sphere_center].into_iter().enumerate() {
        all[3 * i..3 * i + 3].copy_from_slice(&[p.x, p.y, p.z].map(word));
    }
    all
}

/// What is answered beside the buffers. A tree's box is copied from boxes that were made.
fn answered(ours: &Values, theirs: &Prepared) -> Result<(), String> {
    let frame = Frame {
        box_min: vec3(theirs.box_min),
        box_max: vec3(theirs.box_max),
        box_center: vec3(theirs.box_center),
        sphere_center: vec3(theirs.sphere_center),
        sphere_radius: theirs.sphere_radius,
    };
    let word = if theirs.tree.is_some() { made } else { f32::to_bits };
    if words(&ours.frame, word) != words(&frame, word) {
        return Err(format!("{:?}, expected {frame:?}", ours.frame));
    }
    let quantum = vec3(theirs.quantum);
    let bits = |p: Vec3| [p.x, p.y, p.z].map(made);
    if bits(ours.quantum) != bits(quantum) {
        return Err(format!("quantum {:?}, expected {quantum:?}", ours.quantum));
    }
    let counts = theirs.octants.as_ref().map_or([0; 8], |lists| lists.each_ref().map(Vec::len));
    if (ours.materials_count, ours.octants) != (theirs.materials_count, counts) {
        return Err(format!("{ours:?}, expected {} materials, octants {counts:?}", theirs.materials_count));
    }
    match (&ours.built, &theirs.tree) {
        (None, None) => Ok(()),
        (Some(built), Some(tree)) => values(built, tree, theirs.material_indices.len(), made),
        (built, tree) => Err(format!("{built:?}, expected {tree:?}")),
    }
}

/// `Err` with the first thing that is not the same.
fn differs(case: &Case, expected: &Result<Prepared, u32>, ours: &Side, seed: u64) -> Result<(), String> {
    let mut lent = Buffered::new(case.lengths(), seed);
    let answer = ours(case, lent.buffers());
    match (&answer, expected) {
        (Ok(values), Ok(theirs)) => answered(values, theirs)?,
        (Err(ours), Err(theirs)) if ours == theirs => {}
        (answer, expected) => {
            let expected = expected.as_ref().map(|_| "no refusal").map_err(|number| format!("refusal {number}"));
            return Err(format!("{answer:?}, expected {expected:?}"));
        }
    }
    lent.check(&expected.as_ref().map(Written::of).unwrap_or_default())
}

/// The same of a geometry in buffers of its own.
fn whole_differs(expected: &Result<Prepared, u32>, answer: Result<bounds::Prepared, u32>) -> Result<(), String> {
    let (ours, theirs) = match (answer, expected) {
        (Ok(ours), Ok(theirs)) => (ours, theirs),
        (Err(ours), Err(theirs)) if ours == *theirs => return Ok(()),
        (answer, _) => return Err(format!("whole: {:?}", answer.err())),
    };
    let b = &ours;
    let tree = b.bvh.as_ref();
    let frame = Frame {
        box_min: b.box_min,
        box_max: b.box_max,
        box_center: b.box_center,
        sphere_center: b.sphere_center,
        sphere_radius: b.sphere_radius,
    };
    let octants = b.octants.as_ref().map_or([0; 8], |octants| octants.items.each_ref().map(Vec::len));
    let built = tree.map(|tree| tree.built);
    let values = Values { frame, quantum: b.quantum, materials_count: b.materials_count, octants, built };
    answered(&values, theirs).map_err(|why| format!("whole: {why}"))?;
    let (w, bits) =
        (Written::of(theirs), |points: &[Vec3]| points.iter().map(|p| [p.x, p.y, p.z].map(made)).collect::<Vec<_>>());
    let stored = |q: &[BoundVertex]| {
        q.iter().flat_map(|&BoundVertex(x, y, z)| [x, y, z]).flat_map(i16::to_le_bytes).collect::<Vec<_>>()
    };
    let shrunk = b.vertices_shrunk.clone().unwrap_or_default();
    let lists: Vec<_> = b.octants.iter().flat_map(|o| &o.items).cloned().collect();
    let same = [
        (b.materials.iter().flat_map(|m| [m.data1, m.data2]).flat_map(u32::to_le_bytes).eq(w.materials), "materials"),
        (b.polygon_material_indices == w.indices, "indices"),
        (b.polygons == w.polygons, "polygons"),
        (stored(&b.vertices.stored) == w.vertices && bits(&b.vertices.floats) == bits(&w.floats), "vertices"),
        (stored(&shrunk.stored) == w.shrunk && bits(&shrunk.floats) == bits(&w.shrunk_floats), "shrunk vertices"),
        (b.vertices_shrunk.is_some() == theirs.shrunk.is_some(), "whether vertices are shrunk"),
        (b.octants.is_some() == theirs.octants.is_some(), "whether there are octants"),
        (lists.iter().eq(w.octants.iter().map(|(_, list)| list)), "octants"),
        (tree.map_or(&[][..], |tree| &tree.node_bytes) == w.nodes, "nodes"),
        (tree.map_or(&[][..], |tree| &tree.tree_bytes) == w.trees, "trees"),
        (tree.map_or(&[][..], |tree| &tree.order) == w.order, "order"),
    ];
    match same.iter().find(|(same, _)| !same) {
        Some((_, what)) => Err(format!("whole: {what}")),
        None => Ok(()),
    }
}

/// What the cases came to.
#[derive(Default)]
struct Reached {
    kind: u64,
    refusals: [u64; 9],
    /// Answered and refused.
    families: [[u64; 2]; FAMILIES.len()],
    many: [u64; 2],
    materials: [u64; 2],
    points: [u64; 2],
    limits: [u64; 2],
    plain: u64,
    without_vertices: u64,
    trees: u64,
    without_polygons: u64,
    ranges: u64,
    relinked: u64,
    whole: u64,
}

impl Reached {
    fn note(&mut self, case: &Case, answer: &Result<Prepared, u32>) {
        let of = match case.of {
            Of::Shape(family) => &mut self.families[FAMILIES.iter().position(|&f| f == family).expect("one of them")],
            Of::Many => &mut self.many,
            Of::Materials => &mut self.materials,
            Of::Points => &mut self.points,
            Of::Limit => &mut self.limits,
        };
        of[answer.is_err() as usize] += 1;
        match answer {
            Err(6) if ![4, 8].contains(&case.geometry.kind) => self.kind += 1,
            Err(number) => self.refusals[*number as usize] += 1,
            Ok(p) if case.geometry.kind == 4 => {
                self.plain += 1;
                self.without_vertices += p.shrunk.is_none() as u64;
            }
            Ok(Prepared { tree: None, .. }) => self.without_polygons += 1,
            Ok(p) => {
                self.trees += 1;
                self.ranges += p.tree.iter().any(|tree| tree.trees.len() > 1) as u64;
                self.relinked += relinked(case, p) as u64;
            }
        }
    }

    fn lines(&self) -> Vec<String> {
        let mut lines = vec![format!("refused 6 by the kind: {}", self.kind)];
        lines.extend([1, 2, 6, 8, 7, 4].map(|number: usize| format!("refused {number}: {}", self.refusals[number])));
        lines.extend([
            format!("kind 4 answered: {}", self.plain),
            format!("of these without vertices: {}", self.without_vertices),
            format!("kind 8 answered, with a tree: {}", self.trees),
            format!("of these with several ranges: {}", self.ranges),
            format!("of these with links that the second pass alters: {}", self.relinked),
            format!("kind 8 answered, without polygons: {}", self.without_polygons),
            format!("in buffers of their own too: {}", self.whole),
        ]);
        let family =
            |name: String, [answered, refused]: [u64; 2]| format!("{name:9} refused {refused}, answered: {answered}");
        lines.extend(
            FAMILIES.iter().zip(self.families).map(|(f, counts)| family(format!("{f:?}").to_lowercase(), counts)),
        );
        lines.push(family("many".to_string(), self.many));
        lines.push(family("materials".to_string(), self.materials));
        lines.push(family("points".to_string(), self.points));
        lines.push(family("limits".to_string(), self.limits));
        lines
    }
}

/// Whether the links are others than those of the given order, renumbered.
fn relinked(case: &Case, p: &Prepared) -> bool {
    let (Some(tree), n) = (&p.tree, case.count()) else { return false };
    let mut given = case.records[..RECORD * n].to_vec();
    links::update(&mut given, n).expect("known kinds");
    let mut new = vec![u16::MAX; n];
    tree.order.iter().enumerate().for_each(|(at, &old)| new[old] = at as u16);
    let link = |bytes: &[u8], at: usize| u16::from_le_bytes([bytes[at], bytes[at + 1]]);
    let renumbered = |link: u16| new.get(link as usize).copied().unwrap_or(u16::MAX);
    let other = |at: usize, old: usize| {
        let (now, before) = (&p.polygon_bytes[RECORD * at..], &given[RECORD * old..]);
        now[0] % 8 == 0 && [10, 12, 14].into_iter().any(|slot| link(now, slot) != renumbered(link(before, slot)))
    };
    tree.order.iter().enumerate().any(|(at, &old)| other(at, old))
}

/// The cases at the limits, then random ones up to `cases` in all.
pub fn run(seed: u64, cases: u64, ours: &Side, whole: Option<&Whole>) -> Line {
    let mut fixed = at_the_limit();
    let total = cases.max(fixed.len() as u64);
    let mut progress = Progress::new("prepare", total);
    let (mut reached, mut mismatches, mut smallest) = (Reached::default(), 0, None::<(usize, String)>);
    let mut random = Cases::new(seed);
    for done in 0..total {
        let case = fixed.pop().unwrap_or_else(|| random.next());
        let theirs = expected(&case);
        reached.note(&case, &theirs);
        let mut found = differs(&case, &theirs, ours, seed ^ done << 20);
        if let (Ok(()), Some(whole), true) = (&found, whole, done % 8 == 0 && case.undamaged()) {
            reached.whole += 1;
            found = whole_differs(&theirs, whole(&case.geometry));
        }
        if let Err(why) = found {
            mismatches += 1;
            let size = case.count() + case.geometry.vertices.len();
            if smallest.as_ref().is_none_or(|(before, _)| size < *before) {
                smallest = Some((size, format!("{why}\n  {case:?}").chars().take(4_000).collect()));
            }
        }
        if done % 64 == 0 {
            progress.at(done);
        }
    }
    progress.end(mismatches);
    let smallest = smallest.map(|(_, text)| text);
    Line { operation: "prepare".to_string(), cases: total, mismatches, smallest, reached: reached.lines() }
}

#[cfg(test)]
mod tests {
    use super::*;
    use crate::plain::prepare::{prepare, Wrong, WRONG};
    use crate::proved;
    use bounds::BuiltTree;

    fn left_out(test: &str) -> bool {
        oracle::missing().inspect(|why| eprintln!("{test} is left out: {why}")).is_some()
    }

    /// The plain steps, or wrong ones, into lent buffers.
    fn plain(wrong: Option<Wrong>) -> impl Fn(&Case, Buffers) -> Result<Values, u32> {
        move |case, to| {
            let known = [4, 8].contains(&case.geometry.kind);
            if known && !case.too_long() && case.too_short() {
                return Err(2);
            }
            let n = case.count().min(case.numbers.len());
            let numbers = if case.too_long() { vec![0; LIMIT + 1] } else { case.numbers[..n].to_vec() };
            let made = prepare(&case.geometry, &case.records, &numbers, wrong)?;
            let w = Written::of(&made);
            fill(to, &w);
            Ok(of(&made))
        }
    }

    fn fill(to: Buffers, w: &Written) {
        fn put<T: Copy>(to: &mut [T], from: &[T]) {
            to[..from.len()].copy_from_slice(from);
        }
        put(to.materials, &w.materials);
        put(to.indices, &w.indices);
        put(to.polygons, &w.polygons);
        put(to.vertices, &w.vertices);
        put(to.floats, &w.floats);
        put(to.shrunk, &w.shrunk);
        put(to.shrunk_floats, &w.shrunk_floats);
        w.octants.iter().for_each(|(at, list)| put(&mut to.octants[*at..], list));
        put(to.node_bytes, &w.nodes);
        put(to.tree_bytes, &w.trees);
        put(to.order, &w.order);
    }

    fn of(p: &Prepared) -> Values {
        let xyz = |[x, y, z, _]: [f32; 4]| Vec3::new(x, y, z);
        Values {
            frame: Frame {
                box_min: vec3(p.box_min),
                box_max: vec3(p.box_max),
                box_center: vec3(p.box_center),
                sphere_center: vec3(p.sphere_center),
                sphere_radius: p.sphere_radius,
            },
            quantum: vec3(p.quantum),
            materials_count: p.materials_count,
            octants: p.octants.as_ref().map_or([0; 8], |lists| lists.each_ref().map(Vec::len)),
            built: p.tree.as_ref().map(|t| BuiltTree {
                nodes_count: t.nodes_count as u32,
                nodes_capacity: t.nodes.len() as u32,
                trees_count: t.trees.len() as u32,
                items_count: p.material_indices.len() as u32,
                bb_min: xyz(t.min),
                bb_max: xyz(t.max),
                bb_center: xyz(t.cen),
                quantum_inverse: xyz(t.inverse),
                quantum: xyz(t.quantum),
            }),
        }
    }

    fn holds(line: Line) {
        assert_eq!((line.mismatches, line.smallest), (0, None));
        assert!(line.reached.iter().all(|what| !what.ends_with(": 0")), "{:?}", line.reached);
    }

    #[test]
    fn prepare_matches() {
        if left_out("prepare_matches") {
            return;
        }
        oracle::on_large_stack(|| holds(run(1, 6_000, &proved::prepare, Some(&proved::prepare_whole))));
    }

    #[test]
    fn the_plain_steps_match() {
        if left_out("the_plain_steps_match") {
            return;
        }
        let line = oracle::on_large_stack(|| run(1, 4_000, &plain(None), None));
        assert_eq!((line.mismatches, line.smallest), (0, None));
    }

    #[test]
    fn wrong_steps_are_found() {
        if left_out("wrong_steps_are_found") {
            return;
        }
        let mut missed = WRONG.to_vec();
        let mut random = Cases::new(3);
        for done in 0..40_000 {
            let case = random.next();
            let theirs = expected(&case);
            missed.retain(|&wrong| differs(&case, &theirs, &plain(Some(wrong)), done).is_ok());
            if missed.is_empty() {
                return;
            }
        }
        panic!("not found: {missed:?}");
    }

    #[test]
    fn wrong_buffers_are_found() {
        if left_out("wrong_buffers_are_found") {
            return;
        }
        // Each buffer's last cell changed, after an answer and after a refusal.
        for buffer in 0..11 {
            for refused in [false, true] {
                let touching = |case: &Case, mut to: Buffers| {
                    let answer = plain(None)(case, lend(&mut to));
                    if answer.is_err() == refused {
                        touch(&mut to, buffer);
                    }
                    answer
                };
                let mut random = Cases::new(5);
                let found = |case: Case| differs(&case, &expected(&case), &touching, 1).is_err();
                assert!((0..4_000).any(|_| found(random.next())), "buffer {buffer}, refused {refused}");
            }
        }
    }

    fn lend<'a>(to: &'a mut Buffers) -> Buffers<'a> {
        Buffers {
            materials: to.materials,
            indices: to.indices,
            polygons: to.polygons,
            vertices: to.vertices,
            floats: to.floats,
            shrunk: to.shrunk,
            shrunk_floats: to.shrunk_floats,
            octants: to.octants,
            node_bytes: to.node_bytes,
            tree_bytes: to.tree_bytes,
            order: to.order,
            work: to.work,
        }
    }

    fn touch(to: &mut Buffers, buffer: usize) {
        let bytes = [&mut to.materials, &mut to.indices, &mut to.polygons, &mut to.vertices, &mut to.shrunk];
        let records = [&mut to.node_bytes, &mut to.tree_bytes];
        if let Some(bytes) = bytes.into_iter().chain(records).nth(buffer) {
            bytes.iter_mut().last().into_iter().for_each(|b| *b ^= 1);
        }
        match buffer {
            7 => to.floats.iter_mut().last().into_iter().for_each(|p| p.z += 1.0),
            8 => to.shrunk_floats.iter_mut().last().into_iter().for_each(|p| p.z += 1.0),
            9 => to.octants.iter_mut().last().into_iter().for_each(|w| *w ^= 1),
            10 => to.order.iter_mut().last().into_iter().for_each(|w| *w ^= 1),
            _ => {}
        }
    }
}
