//! `Geometry::prepare`, both kinds: every value and every cell of every buffer of one side held to the reference's. What is made
//! is compared with any NaN as one, what is copied by its bits.

use crate::build::values;
use crate::lent::{Cell, Lent};
use crate::meshes::material_bytes;
use crate::operation::{made, made3, made6};
use crate::points::{Points, LONG, STYLES};
use crate::random::Random;
use crate::report::{shown, Cases, Line, Refusals};
use crate::shapes::{sheet, Family, Mesh, Shapes, FAMILIES};
use bounds::prepare::{Buffers, Frame, Lengths, Quantised, Values, MATERIALS};
use bounds::{BoundMaterial, BoundVertex, BvhItem, Geometry, Polygon, Prepared, Refusal, Vec3};
use oracle::geometry::{self as reference, VERTICES};
use oracle::polygon::{self, LIMIT};
use plain::links;
use plain::polygon::RECORD;

/// A case in lent buffers.
pub type Side<'a> = dyn Fn(&Case, Buffers) -> Result<Values, Refusal> + 'a;

/// A geometry in buffers of its own.
pub type Whole<'a> = dyn Fn(&Geometry) -> Result<Prepared, Refusal> + 'a;

/// What a case is made for.
#[derive(Clone, Copy, Debug, PartialEq, Eq)]
pub enum Of {
    Shape(Family),
    /// Up to 300 polygons of any kind.
    Many,
    /// About 256 materials, most of them used.
    Materials,
    /// Points in a box so large that nothing is clamped, without triangles: planes, lines, spheres, ties, NaN and infinities.
    Points,
    /// At a limit.
    Limit,
}

/// A geometry; its polygons as records too, with their numbers of materials, of which there may be too few; and by how much
/// each lent buffer differs from what it needs, in the order of [`Lengths`].
#[derive(Clone, Debug)]
pub struct Case {
    pub of: Of,
    pub geometry: Geometry,
    pub records: Vec<u8>,
    pub numbers: Vec<u8>,
    pub slack: [isize; 12],
}

impl Case {
    /// All buffers as long as they have to be.
    fn exact(of: Of, geometry: Geometry) -> Case {
        let records = geometry.polygons.iter().flat_map(|&p| polygon::to_bytes(p)).collect();
        let numbers = geometry.polygons.iter().map(Polygon::material).collect();
        Case { of, geometry, records, numbers, slack: [0; 12] }
    }

    fn count(&self) -> usize {
        self.geometry.polygons.len()
    }

    /// The lengths that are lent. Of more than may be, nothing.
    fn lengths(&self) -> [usize; 12] {
        let (p, v) = (self.count(), self.geometry.vertices.len());
        let l = if p > LIMIT || v > VERTICES { Lengths::of(0, 0) } else { Lengths::of(p, v) };
        let all = lengths(l);
        std::array::from_fn(|i| all[i].saturating_add_signed(self.slack[i]))
    }

    fn too_long(&self) -> bool {
        let g = &self.geometry;
        self.count() > LIMIT || g.vertices.len() > VERTICES || g.materials.len() > MATERIALS
    }

    fn too_short(&self) -> bool {
        let n = self.count();
        let whole = Case { slack: [0; 12], records: Vec::new(), numbers: Vec::new(), ..self.clone() }.lengths();
        let short = self.lengths().iter().zip(whole).any(|(&lent, needed)| lent < needed);
        short || self.records.len() < RECORD * n || self.numbers.len() < n
    }

    /// Whether nothing but the geometry is given.
    fn undamaged(&self) -> bool {
        let same = |(record, &p): (&[u8], &Polygon)| record == polygon::to_bytes(p);
        let n = self.count();
        let as_long = self.slack == [0; 12] && self.numbers.len() == n && self.records.len() == RECORD * n;
        as_long && self.records.chunks(RECORD).zip(&self.geometry.polygons).all(same)
    }
}

/// Random cases.
struct Damaged {
    shapes: Shapes,
    points: Points,
    random: Random,
}

impl Damaged {
    fn new(seed: u64) -> Damaged {
        Damaged { shapes: Shapes::new(seed), points: Points::new(seed ^ 1), random: Random::new(!seed) }
    }

    fn next(&mut self) -> Case {
        let r = &mut self.random;
        let kind = match r.below(60) {
            0 => r.pick(&[0, 1, 3, 5, 9, 12, 255]),
            1..=24 => 4,
            _ => 8,
        };
        let (of, mut geometry) = match r.below(24) {
            0..=2 => (Of::Many, self.many(kind)),
            3 => (Of::Materials, self.materials(kind)),
            4 => (Of::Points, self.points(kind)),
            _ => {
                let (family, geometry) = self.shapes.next(kind);
                (Of::Shape(family), geometry)
            }
        };
        if self.random.once_in(20) {
            geometry.polygons.clear();
        }
        let mut case = Case::exact(of, geometry);
        self.damage(&mut case);
        case
    }

    /// Buffers of other lengths, too few inputs, unknown kinds, and anything in bytes that a kind does not use.
    fn damage(&mut self, case: &mut Case) {
        let (r, n) = (&mut self.random, case.count());
        match r.below(30) {
            0 | 1 => case.slack[r.below(12)] = -1,
            2 => case.records.truncate(case.records.len().saturating_sub(1 + r.below(20))),
            3 => case.numbers.truncate(n.saturating_sub(1)),
            4 if n > 0 => case.records[RECORD * r.below(n)] |= r.pick(&[5, 6, 7]),
            5 | 6 => case.slack = std::array::from_fn(|_| r.pick(&[0, 0, 1, 2, 15, 33])),
            7 => {
                case.records.extend([0x55; 17]);
                case.numbers.extend([9; 3]);
            }
            _ => {}
        }
        if r.once_in(4) {
            for record in case.records.chunks_exact_mut(RECORD).filter(|record| record[0] % 8 > 0) {
                record[1] = r.u32() as u8;
                record[12..].fill(r.u32() as u8);
            }
        }
    }

    /// Polygons of any kind over vertices that are spread, not too many for the reference's rays.
    fn many(&mut self, kind: u8) -> Geometry {
        let r = &mut self.random;
        let n = if r.once_in(4) { r.below(300) } else { r.below(40) };
        let mut geometry = self.shapes.of(Family::Soup, kind);
        let r = &mut self.random;
        let size = r.pick(&[1.0, 50.0]);
        let mut at = || (r.unit() - 0.5) * size;
        geometry.vertices = (0..n / 2 + 4).map(|_| Vec3::new(at(), at(), at())).collect();
        let reach = geometry.vertices.len() + self.random.pick(&[0, 0, 0, 3]);
        let index = |r: &mut Random| r.below(reach) as u16;
        let triangles = if kind == 4 { 20 } else { 2 };
        geometry.polygons = (0..n)
            .map(|_| {
                let r = &mut self.random;
                let (material, radius) = (r.below(6) as u8, r.below(9) as f32 * 0.25);
                let v = [index(r), index(r), index(r)];
                match r.below(triangles + 4) {
                    0 => Polygon::Sphere { material, index: v[0], radius },
                    1 => Polygon::Capsule { material, i1: v[0], i2: v[1], radius },
                    2 => Polygon::Box { material, i: [v[0], v[1], v[2], index(r)].map(|i| i as i16) },
                    3 => Polygon::Cylinder { material, i1: v[0], i2: v[1], radius },
                    _ if kind == 4 && r.once_in(2) => Polygon::Sphere { material, index: v[0], radius },
                    _ => Polygon::Triangle { material, area: radius, v, edges: [-1; 3] },
                }
            })
            .collect();
        geometry
    }

    fn points(&mut self, kind: u8) -> Geometry {
        let r = &mut self.random;
        let n = if r.once_in(20) { r.below(400) } else { r.below(30) };
        let style = r.pick(&STYLES);
        let mut geometry = wide(self.points.of(n, style), kind);
        if self.random.once_in(2) {
            geometry.polygons = vec![Polygon::Sphere { material: 0, index: 0, radius: 0.5 }; self.random.below(9)];
        }
        geometry
    }

    /// Spheres that use about 256 materials: 255 are taken, 256 not; (0, 0) may be given or missing.
    fn materials(&mut self, kind: u8) -> Geometry {
        let mut geometry = self.shapes.of(Family::Solid, kind);
        let r = &mut self.random;
        let given = r.pick(&[254, 255, 255, 256, 256, 256, 257]);
        let zero = r.below(2) as u32;
        geometry.materials = (0..given).map(|i| BoundMaterial { data1: i + zero, data2: 0 }).collect();
        let used = r.pick(&[254, 255, 255, 256, 256]);
        let sphere = |i: usize| Polygon::Sphere { material: i as u8, index: (i % 7) as u16, radius: 0.5 };
        geometry.polygons.extend((0..used).map(sphere));
        if r.once_in(2) {
            geometry.polygons.reverse();
        }
        if r.once_in(4) {
            // An infinite margin comes after the materials.
            (geometry.margin, geometry.box_max) = (f32::INFINITY, [f32::INFINITY; 3].into());
        }
        geometry
    }
}

/// Points in a box that does not clamp them.
fn wide(vertices: Vec<Vec3>, kind: u8) -> Geometry {
    let (box_min, box_max) = ([-1e37; 3].into(), [1e37; 3].into());
    Geometry { box_min, box_max, vertices, ..Mesh::default().geometry(kind, 0.04) }
}

/// Groups of 40 spheres that lie so that each split takes the farthest alone: 443 of them have too many nodes at threshold 4.
fn lonely(groups: usize) -> Geometry {
    let mut mesh = Mesh::default();
    for group in 0..groups {
        let mut x = 1e-30;
        for k in 0..40 {
            mesh.vertices.push([x, group as f32, 0.0]);
            x *= k as f32 + 3.0;
        }
    }
    let mut geometry = mesh.geometry(8, 0.04);
    let sphere = |i: usize| Polygon::Sphere { material: i as u8, index: i as u16, radius: 0.0 };
    geometry.polygons = (0..40 * groups).map(sphere).collect();
    geometry
}

/// As many polygons, vertices and materials as may be, and one more; too many nodes; and refusals in their order: every later
/// one is there too. Triangles of kind 4 only where the reference ends soon: by normals at once.
fn at_the_limit() -> Vec<Case> {
    let mut cases = Vec::new();
    let line = |v: usize| Mesh { vertices: (0..v).map(|i| [i as f32, 1.0, -1.0]).collect(), triangles: Vec::new() };
    let (p, v, m) = (LIMIT, VERTICES, MATERIALS);
    for (p, v, m) in [(p, v, m), (p + 1, v, m), (p, v + 1, m), (p, v, m + 1)] {
        for kind in [4, 8, 6] {
            let mut geometry = line(v).geometry(kind, 0.04);
            let sphere = |i: usize| Polygon::Sphere { material: (i % 200) as u8, index: i as u16, radius: 1.0 };
            geometry.polygons = (0..p).map(sphere).collect();
            geometry.materials = (0..m as u32).map(|i| BoundMaterial { data1: i, data2: i }).collect();
            cases.push(Case::exact(Of::Limit, geometry));
        }
    }
    for buffer in 0..12 {
        for kind in [4, 8] {
            let mut case = Case::exact(Of::Limit, line(2).geometry(kind, 0.04));
            case.geometry.polygons = vec![Polygon::Sphere { material: 0, index: 0, radius: 1.0 }];
            case = Case::exact(Of::Limit, case.geometry);
            case.slack[buffer] = -1;
            cases.push(case);
        }
    }
    // A grid; all equal; all on one edge; a strip up to the last vertex.
    for kind in [4, 8] {
        let mut grid = sheet(127);
        grid.triangles.resize(LIMIT, [0, 1, 2]);
        cases.push(Case::exact(Of::Limit, grid.geometry(kind, 1e-6)));
        grid.triangles.fill([3, 9, 4]);
        cases.push(Case::exact(Of::Limit, grid.geometry(kind, 1e-6)));
        let mut long = line(VERTICES);
        long.triangles = (0..LIMIT).map(|i| [0, 1, i + 1]).collect();
        cases.push(Case::exact(Of::Limit, long.geometry(kind, 1e-6)));
        long.triangles = (1..LIMIT).map(|i| [i - 1, i, i + 1]).collect();
        cases.push(Case::exact(Of::Limit, long.geometry(kind, 1e-6)));
    }
    // No more: the reference takes a time by the square of what is listed.
    let mut points = Points::new(7);
    cases.extend(LONG.map(|style| Case::exact(Of::Limit, wide(points.of(2_000, style), 4))));
    let (taken, mut refused) = (lonely(442), lonely(443));
    cases.extend([taken, refused.clone()].map(|geometry| Case::exact(Of::Limit, geometry)));
    refused.materials = (0..256).map(|i| BoundMaterial { data1: i, data2: 0 }).collect();
    (refused.margin, refused.box_max) = (f32::INFINITY, [f32::INFINITY; 3].into());
    let many = Case::exact(Of::Limit, refused);
    let mut kind = many.clone();
    kind.records[RECORD * 5_000] = 6;
    let mut short = kind.clone();
    short.slack[11] = -1;
    cases.extend([many, kind, short]);
    cases
}

/// The reference's answer, after the refusals that it has not: 2, and 6 of a record. The order is 6, 1, 2, 6.
fn expected(case: &Case) -> Result<Prepared, Refusal> {
    if ![Geometry::PLAIN, Geometry::BVH].contains(&case.geometry.kind) {
        return Err(Refusal::UnknownKind);
    }
    if case.too_long() {
        return Err(Refusal::ListTooLong);
    }
    if case.too_short() {
        return Err(Refusal::BufferTooShort);
    }
    let read = |(record, &number): (&[u8], &u8)| Ok(polygon::read(record)?.with_material(number));
    let records = case.records.chunks_exact(RECORD).zip(&case.numbers).take(case.count());
    let polygons = records.map(read).collect::<Result<_, _>>()?;
    reference::prepare(&Geometry { polygons, ..case.geometry.clone() })
}

/// A part of a buffer, from its place on.
type Part<T> = (usize, Vec<T>);

fn same<T: Cell>(ours: &[Part<T>], theirs: &[Part<T>]) -> bool {
    let cells = |a: &[T], b: &[T]| a.len() == b.len() && a.iter().zip(b).all(|(x, y)| x.same(*y));
    let part = |(a, b): (&Part<T>, &Part<T>)| a.0 == b.0 && cells(&a.1, &b.1);
    ours.len() == theirs.len() && ours.iter().zip(theirs).all(part)
}

/// What is done with each buffer that is written to, by its name, and with the one to work in.
macro_rules! each_buffer {
    ($($name:ident: $cell:ty,)*) => {
        fn lengths(of: Lengths) -> [usize; 12] {
            [$(of.$name,)* of.work]
        }

        /// Every buffer, each with its own pattern.
        struct Buffered {
            $($name: Lent<$cell>,)*
            work: Lent<u32>,
        }

        impl Buffered {
            fn new([$($name,)* work]: [usize; 12], seed: u64) -> Buffered {
                let mut number = seed;
                $(
                    number = number.wrapping_add(1);
                    let $name = Lent::new($name, number);
                )*
                Buffered { $($name,)* work: Lent::new(work, !seed) }
            }

            fn buffers(&mut self) -> Buffers<'_> {
                Buffers { $($name: self.$name.buffer(),)* work: self.work.buffer() }
            }

            fn check(&self, written: &Written) -> Result<(), String> {
                let named = |name: &'static str| move |why: String| format!("{name}: {why}");
                $(self.$name.check_parts(&written.$name).map_err(named(stringify!($name)))?;)*
                self.work.check_guards().map_err(named("work"))
            }
        }

        /// What has to be in the buffers.
        #[derive(Default)]
        struct Written {
            $($name: Vec<Part<$cell>>,)*
        }

        impl Written {
            /// What is not the same.
            fn differing(&self, other: &Written) -> Option<&'static str> {
                let same = [$((same(&self.$name, &other.$name), stringify!($name)),)*];
                same.into_iter().find(|(same, _)| !same).map(|(_, what)| what)
            }

            #[cfg(test)]
            fn fill(&self, to: &mut Buffers) {
                $(self.$name.iter().for_each(|(at, part)| to.$name[*at..at + part.len()].copy_from_slice(part));)*
            }
        }

        #[cfg(test)]
        fn lend<'a>(to: &'a mut Buffers) -> Buffers<'a> {
            Buffers { $($name: to.$name,)* work: to.work }
        }

        /// A buffer's last cell changed, if it has one.
        #[cfg(test)]
        fn touch(to: &mut Buffers, name: &str) {
            $(if name == stringify!($name) {
                to.$name.iter_mut().last().into_iter().for_each(|cell| *cell = cell.other());
            })*
        }

        #[cfg(test)]
        const BUFFERS: [&str; 11] = [$(stringify!($name)),*];
    };
}
each_buffer! {
    materials: u8,
    indices: u8,
    polygons: u8,
    vertices: u8,
    floats: Vec3,
    shrunk: u8,
    shrunk_floats: Vec3,
    octants: u32,
    node_bytes: u8,
    tree_bytes: u8,
    order: u16,
}

fn stored_bytes(q: &Quantised) -> Vec<u8> {
    q.stored.iter().flat_map(|&BoundVertex(x, y, z)| [x, y, z]).flat_map(i16::to_le_bytes).collect()
}

impl Written {
    fn of(p: &Prepared) -> Written {
        fn all<T>(cells: Vec<T>) -> Vec<Part<T>> {
            vec![(0, cells)]
        }
        let v = p.vertices.stored.len();
        let lists = p.octants.iter().flat_map(|octants| &octants.items);
        let mut written = Written {
            materials: all(p.materials.iter().flat_map(material_bytes).collect()),
            indices: all(p.polygon_material_indices.clone()),
            polygons: all(p.polygons.clone()),
            vertices: all(stored_bytes(&p.vertices)),
            floats: all(p.vertices.floats.clone()),
            octants: lists.enumerate().map(|(k, list)| (k * v, list.clone())).collect(),
            ..Written::default()
        };
        if let Some(shrunk) = &p.vertices_shrunk {
            (written.shrunk, written.shrunk_floats) = (all(stored_bytes(shrunk)), all(shrunk.floats.clone()));
        }
        if let Some(tree) = &p.bvh {
            (written.node_bytes, written.tree_bytes) = (all(tree.node_bytes.clone()), all(tree.tree_bytes.clone()));
            written.order = all(tree.order.clone());
        }
        written
    }
}

fn words(f: &Frame, word: fn(f32) -> u32) -> [u32; 13] {
    let Frame { box_min, box_max, box_center, sphere_center, sphere_radius } = *f;
    let mut all = [word(sphere_radius); 13];
    for (i, p) in [box_min, box_max, box_center, sphere_center].into_iter().enumerate() {
        all[3 * i..3 * i + 3].copy_from_slice(&[p.x, p.y, p.z].map(word));
    }
    all
}

/// What is answered beside the buffers.
fn values_of(p: &Prepared) -> Values {
    let &Prepared { quantum, materials_count, .. } = p;
    let &Prepared { box_min, box_max, box_center, sphere_center, sphere_radius, .. } = p;
    let frame = Frame { box_min, box_max, box_center, sphere_center, sphere_radius };
    let octants = p.octants.as_ref().map_or([0; 8], |octants| octants.items.each_ref().map(Vec::len));
    Values { frame, quantum, materials_count, octants, built: p.bvh.as_ref().map(|tree| tree.built) }
}

/// A tree's box is copied from boxes that were made.
fn answered(ours: &Values, theirs: &Values) -> Result<(), String> {
    let word = if theirs.built.is_some() { made } else { f32::to_bits };
    if words(&ours.frame, word) != words(&theirs.frame, word) {
        return Err(format!("{:?}, expected {:?}", ours.frame, theirs.frame));
    }
    if made3(ours.quantum) != made3(theirs.quantum) {
        return Err(format!("quantum {:?}, expected {:?}", ours.quantum, theirs.quantum));
    }
    let counts = |values: &Values| (values.materials_count, values.octants);
    if counts(ours) != counts(theirs) {
        return Err(format!("materials and octants {:?}, expected {:?}", counts(ours), counts(theirs)));
    }
    match (&ours.built, &theirs.built) {
        (None, None) => Ok(()),
        (Some(ours), Some(theirs)) => values(ours, theirs, made),
        (ours, theirs) => Err(format!("{ours:?}, expected {theirs:?}")),
    }
}

/// `Err` with the first thing that is not the same.
fn differs(case: &Case, expected: &Result<Prepared, Refusal>, ours: &Side, seed: u64) -> Result<(), String> {
    let mut lent = Buffered::new(case.lengths(), seed);
    let answer = ours(case, lent.buffers());
    match (&answer, expected) {
        (Ok(values), Ok(theirs)) => answered(values, &values_of(theirs))?,
        (Err(ours), Err(theirs)) if ours == theirs => {}
        (answer, expected) => {
            return Err(format!("{answer:?}, expected {:?}", expected.as_ref().map(values_of)));
        }
    }
    lent.check(&expected.as_ref().map(Written::of).unwrap_or_default())
}

/// The same of a geometry in buffers of its own.
fn whole_differs(expected: &Result<Prepared, Refusal>, answer: Result<Prepared, Refusal>) -> Result<(), String> {
    let (ours, theirs) = match (answer, expected) {
        (Ok(ours), Ok(theirs)) => (ours, theirs),
        (Err(ours), Err(theirs)) if ours == *theirs => return Ok(()),
        (answer, _) => return Err(format!("whole: {:?}", answer.err())),
    };
    answered(&values_of(&ours), &values_of(theirs)).map_err(|why| format!("whole: {why}"))?;
    let there = |p: &Prepared| [p.vertices_shrunk.is_some(), p.octants.is_some()];
    if there(&ours) != there(theirs) {
        return Err("whole: whether vertices are shrunk, and whether there are octants".to_string());
    }
    if let Some(what) = Written::of(&ours).differing(&Written::of(theirs)) {
        return Err(format!("whole: {what}"));
    }
    // A polygon's box by its place, of vertices that the transform made.
    let boxed = |b: &BvhItem| (b.present, made6(b.min, b.max));
    let boxes = |p: &Prepared| {
        p.bvh.as_ref().map(|tree| (tree.items_count, tree.boxes().iter().map(boxed).collect::<Vec<_>>()))
    };
    if boxes(&ours) != boxes(theirs) {
        return Err("whole: boxes".to_string());
    }
    Ok(())
}

/// What the cases came to.
#[derive(Default)]
struct Reached {
    kind: u64,
    refusals: Refusals,
    /// Answered and refused.
    families: [[u64; 2]; FAMILIES.len()],
    many: [u64; 2],
    materials: [u64; 2],
    points: [u64; 2],
    limits: [u64; 2],
    plain: u64,
    without_vertices: u64,
    trees: u64,
    without_polygons: u64,
    ranges: u64,
    relinked: u64,
    whole: u64,
}

impl Reached {
    fn note(&mut self, case: &Case, answer: &Result<Prepared, Refusal>) {
        let of = match case.of {
            Of::Shape(family) => &mut self.families[family as usize],
            Of::Many => &mut self.many,
            Of::Materials => &mut self.materials,
            Of::Points => &mut self.points,
            Of::Limit => &mut self.limits,
        };
        of[answer.is_err() as usize] += 1;
        match answer {
            Err(Refusal::UnknownKind) if ![4, 8].contains(&case.geometry.kind) => self.kind += 1,
            Err(_) => self.refusals.note(answer),
            Ok(p) if case.geometry.kind == 4 => {
                self.plain += 1;
                self.without_vertices += p.vertices_shrunk.is_none() as u64;
            }
            Ok(Prepared { bvh: None, .. }) => self.without_polygons += 1,
            Ok(p) => {
                self.trees += 1;
                self.ranges += p.bvh.iter().any(|tree| tree.built.trees_count > 1) as u64;
                self.relinked += relinked(case, p) as u64;
            }
        }
    }

    fn lines(&self) -> Vec<String> {
        let mut lines = vec![format!("refused 6 by the kind: {}", self.kind)];
        lines.extend(self.refusals.lines(&[1, 2, 6, 8, 7, 4]));
        lines.extend([
            format!("kind 4 answered: {}", self.plain),
            format!("of these without vertices: {}", self.without_vertices),
            format!("kind 8 answered, with a tree: {}", self.trees),
            format!("of these with several ranges: {}", self.ranges),
            format!("of these with links that the second pass alters: {}", self.relinked),
            format!("kind 8 answered, without polygons: {}", self.without_polygons),
            format!("in buffers of their own too: {}", self.whole),
        ]);
        let family =
            |name: String, [answered, refused]: [u64; 2]| format!("{name:9} refused {refused}, answered: {answered}");
        lines.extend(
            FAMILIES.iter().zip(self.families).map(|(f, counts)| family(format!("{f:?}").to_lowercase(), counts)),
        );
        lines.push(family("many".to_string(), self.many));
        lines.push(family("materials".to_string(), self.materials));
        lines.push(family("points".to_string(), self.points));
        lines.push(family("limits".to_string(), self.limits));
        lines
    }
}

/// Whether the links are others than those of the given order, renumbered.
fn relinked(case: &Case, p: &Prepared) -> bool {
    let (Some(tree), n) = (&p.bvh, case.count()) else { return false };
    let mut given = case.records[..RECORD * n].to_vec();
    links::update(&mut given, n).expect("known kinds");
    let mut new = vec![u16::MAX; n];
    tree.order.iter().enumerate().for_each(|(at, &old)| new[old as usize] = at as u16);
    let link = |bytes: &[u8], at: usize| u16::from_le_bytes([bytes[at], bytes[at + 1]]);
    let renumbered = |link: u16| new.get(link as usize).copied().unwrap_or(u16::MAX);
    let other = |at: usize, old: usize| {
        let (now, before) = (&p.polygons[RECORD * at..], &given[RECORD * old..]);
        now[0] % 8 == 0 && [10, 12, 14].into_iter().any(|slot| link(now, slot) != renumbered(link(before, slot)))
    };
    tree.order.iter().enumerate().any(|(at, &old)| other(at, old as usize))
}

/// The cases at the limits, then random ones up to `cases` in all.
pub fn run(seed: u64, cases: u64, ours: &Side, whole: Option<&Whole>) -> Line {
    let (mut reached, mut random) = (Reached::default(), Damaged::new(seed));
    let asked = |case: &Case, done: u64| {
        let theirs = expected(case);
        reached.note(case, &theirs);
        differs(case, &theirs, ours, seed ^ done << 20)?;
        match whole {
            Some(whole) if done.is_multiple_of(8) && case.undamaged() => {
                reached.whole += 1;
                whole_differs(&theirs, whole(&case.geometry))
            }
            _ => Ok(()),
        }
    };
    let size = |case: &Case| case.count() + case.geometry.vertices.len();
    let line = Cases::new("prepare", cases, at_the_limit()).compared(|_| random.next(), asked, size, shown);
    line.reaching(reached.lines())
}

#[cfg(test)]
mod tests {
    use super::*;
    use crate::proved;
    use crate::report::{all_found, needs_reference};
    use plain::mesh::{prepare, Wrong, WRONG};

    /// The plain steps, or wrong ones, into lent buffers.
    fn plain(wrong: Option<Wrong>) -> impl Fn(&Case, Buffers) -> Result<Values, Refusal> {
        move |case, mut to| {
            let known = [4, 8].contains(&case.geometry.kind);
            if known && !case.too_long() && case.too_short() {
                return Err(Refusal::BufferTooShort);
            }
            let n = case.count().min(case.numbers.len());
            let numbers = if case.too_long() { vec![0; LIMIT + 1] } else { case.numbers[..n].to_vec() };
            let made = prepare(&case.geometry, &case.records, &numbers, wrong)?;
            Written::of(&made).fill(&mut to);
            Ok(values_of(&made))
        }
    }

    #[test]
    fn prepare_matches() {
        needs_reference!();
        oracle::on_large_stack(|| run(1, 6_000, &proved::prepare, Some(&Geometry::prepare)).holds());
    }

    #[test]
    fn the_plain_steps_match() {
        needs_reference!();
        oracle::on_large_stack(|| run(1, 4_000, &plain(None), None)).same();
    }

    #[test]
    fn wrong_steps_are_found() {
        needs_reference!();
        assert_eq!(WRONG.len(), 23, "as many as floor/README says");
        let mut random = Damaged::new(3);
        let next = || {
            let case = random.next();
            (expected(&case), case)
        };
        all_found(&WRONG, next, |(theirs, case), wrong, done| {
            differs(case, theirs, &plain(Some(wrong)), done).is_err()
        });
    }

    #[test]
    fn wrong_buffers_are_found() {
        needs_reference!();
        // Each buffer's last cell changed, after an answer and after a refusal.
        for buffer in BUFFERS {
            for refused in [false, true] {
                let touching = |case: &Case, mut to: Buffers| {
                    let answer = plain(None)(case, lend(&mut to));
                    if answer.is_err() == refused {
                        touch(&mut to, buffer);
                    }
                    answer
                };
                let mut random = Damaged::new(5);
                let found = |case: Case| differs(&case, &expected(&case), &touching, 1).is_err();
                assert!((0..4_000).any(|_| found(random.next())), "buffer {buffer}, refused {refused}");
            }
        }
    }
}
