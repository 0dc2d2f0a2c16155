//! `calculate_verts_shrunk`: one side's points held to the reference's, floats by their bits and a NaN as a NaN, and how it
//! came to them: by which margin, or by normals.

use crate::lent::{Cell, Lent};
use crate::operation::made;
use crate::plain::polygon::RECORD;
use crate::random::Random;
use crate::report::{Line, Progress};
use crate::shapes::{sheet, Family, Mesh, Shapes, FAMILIES};
use bounds::shrink::work_len;
use bounds::Vec3;
use oracle::geometry::{self as reference, By, Geometry, Shrunk, VERTICES};
use oracle::polygon::{self, Polygon, LIMIT};

/// A case, the points that are lent and the words to work in.
pub type Side<'a> = dyn Fn(&Case, &mut [Vec3], &mut [u32]) -> Result<By, u32> + 'a;

/// A geometry, whose polygons are records, and how many points and words are lent.
#[derive(Clone, Debug)]
pub struct Case {
    pub family: Option<Family>,
    pub geometry: Geometry,
    pub records: Vec<u8>,
    pub count: usize,
    pub points: usize,
    pub work: usize,
}

impl Cell for Vec3 {
    /// A number: no NaN is taken for another.
    fn of(pattern: u64) -> Vec3 {
        let number = |bits: u64| f32::from_bits(bits as u32 & 0xBFFF_FFFF);
        Vec3::new(number(pattern), number(pattern >> 16), number(pattern >> 32))
    }

    fn same(self, other: Vec3) -> bool {
        words(self) == words(other)
    }
}

fn words(p: Vec3) -> [u32; 3] {
    [p.x, p.y, p.z].map(made)
}

impl Case {
    /// All buffers as long as they have to be.
    fn exact(family: Option<Family>, mut geometry: Geometry) -> Case {
        let polygons = std::mem::take(&mut geometry.polygons);
        let records = polygons.iter().flat_map(|&p| polygon::to_bytes(p)).collect();
        let (count, points) = (polygons.len(), geometry.vertices.len());
        Case { family, geometry, records, count, points, work: work_len(count, points) }
    }

    fn too_long(&self) -> bool {
        self.count > LIMIT || self.geometry.vertices.len() > VERTICES
    }

    fn too_short(&self) -> bool {
        let v = self.geometry.vertices.len();
        self.records.len() < RECORD * self.count || self.points < v || self.work < work_len(self.count, v)
    }
}

/// Random cases.
struct Cases {
    shapes: Shapes,
    random: Random,
}

impl Cases {
    fn next(&mut self) -> Case {
        let (family, geometry) = self.shapes.next(4);
        let mut case = Case::exact(Some(family), geometry);
        let r = &mut self.random;
        match r.below(40) {
            0 => case.points = case.points.saturating_sub(1),
            1 => case.work = case.work.saturating_sub(1 + r.below(3)),
            2 => case.records.truncate(case.records.len().saturating_sub(1 + r.below(20))),
            3 if case.count > 0 => case.records[RECORD * r.below(case.count)] |= r.pick(&[5, 6, 7]),
            4 => case.records.extend([0x55; 17]),
            5..=9 => (case.points, case.work) = (case.points + r.below(5), case.work + r.below(40)),
            _ => {}
        }
        // What a kind does not use may hold anything.
        if r.once_in(4) {
            for record in case.records.chunks_exact_mut(RECORD).filter(|record| record[0] % 8 > 0) {
                record[1] = r.u32() as u8;
                record[12..].fill(r.u32() as u8);
            }
        }
        case
    }
}

/// As many polygons and vertices as may be, and one more: with all that is needed, with each buffer one short, and with a
/// kind that there is not. Triangles only where the reference ends soon: by normals at once, or with a corner that is not
/// there, so that no ray is shot.
fn at_the_limit() -> Vec<Case> {
    let mut cases = Vec::new();
    let line = |v: usize| Mesh { vertices: (0..v).map(|i| [i as f32, 1.0, -1.0]).collect(), triangles: Vec::new() };
    for (p, v) in [(LIMIT, VERTICES), (LIMIT + 1, VERTICES), (LIMIT, VERTICES + 1), (LIMIT + 1, VERTICES + 1)] {
        let mut geometry = line(v).geometry(4, 0.04);
        geometry.polygons = (0..p).map(|i| Polygon::Sphere { material: 0, index: i as u16, radius: 1.0 }).collect();
        let whole = Case::exact(None, geometry);
        let (points, work) = (whole.points - 1, whole.work - 1);
        let mut kind = whole.clone();
        kind.records[RECORD * (p - 1)] = 7;
        let mut short = whole.clone();
        short.records.pop();
        let endless = Case { work: whole.work - 1, ..infinite(&kind) };
        cases.extend([Case { points, ..whole.clone() }, Case { work, ..kind.clone() }, endless, infinite(&kind)]);
        cases.extend([infinite(&whole), short, kind, whole]);
    }
    let mut grid = sheet(127);
    grid.triangles.resize(LIMIT, [0, 1, 2]);
    cases.push(Case::exact(None, grid.geometry(4, 1e-6)));
    grid.triangles[LIMIT - 1] = [0, 1, 40_000];
    cases.push(Case::exact(None, grid.geometry(4, 5e-6)));
    cases
}

/// The same with a margin that is infinite.
fn infinite(case: &Case) -> Case {
    let mut case = case.clone();
    (case.geometry.margin, case.geometry.box_max) = (f32::NAN, [f32::INFINITY; 3]);
    case
}

/// The reference's answer, after the refusals that it has not: 2, and 6 of a record.
fn expected(case: &Case) -> Result<Shrunk, u32> {
    let mut geometry = case.geometry.clone();
    if case.too_long() {
        return Err(1);
    }
    if case.too_short() {
        return Err(2);
    }
    let read = |record: &[u8]| polygon::read(record).map_err(|refused| refused.0 as u32);
    geometry.polygons = case.records.chunks_exact(RECORD).take(case.count).map(read).collect::<Result<_, _>>()?;
    reference::calculate_verts_shrunk(&geometry).map_err(|refused| refused.0 as u32)
}

fn way(by: &By) -> (u32, u32) {
    match by {
        By::NoVertices => (0, 0),
        By::Margin(margin) => (1, margin.to_bits()),
        By::Normals => (2, 0),
    }
}

/// `Err` with the first thing that is not the same.
fn differs(case: &Case, expected: &Result<Shrunk, u32>, ours: &Side, seed: u64) -> Result<(), String> {
    let (mut points, mut work) = (Lent::<Vec3>::new(case.points, seed), Lent::<u32>::new(case.work, !seed));
    let answer = ours(case, points.buffer(), work.buffer());
    let said = |by: Result<By, u32>| by.map_err(|number| format!("refusal {number}"));
    let theirs = expected.as_ref().map(|shrunk| shrunk.by).map_err(|&number| number);
    if said(answer).as_ref().map(way) != said(theirs).as_ref().map(way) {
        return Err(format!("{answer:?}, expected {theirs:?}"));
    }
    let vectors = |shrunk: &Shrunk| shrunk.points.iter().map(|&[x, y, z]| Vec3::new(x, y, z)).collect();
    let written: Vec<Vec3> = expected.as_ref().map(vectors).unwrap_or_default();
    points.check(&written).map_err(|why| format!("points: {why}"))?;
    work.check_guards().map_err(|why| format!("work: {why}"))
}

/// What the cases of a family came to.
#[derive(Clone, Copy, Default)]
struct Outcomes {
    cases: u64,
    first: u64,
    halved: u64,
    normals: u64,
    none: u64,
    refused: u64,
}

/// How often each refusal was reached, what each family came to, and the most margins that were tried before one passed.
#[derive(Default)]
struct Reached {
    refusals: [u64; 8],
    families: [Outcomes; FAMILIES.len()],
    limits: u64,
    halvings: u32,
}

impl Reached {
    fn note(&mut self, case: &Case, answer: &Result<Shrunk, u32>) {
        let mut unused = Outcomes::default();
        let of = match case.family.and_then(|family| FAMILIES.iter().position(|&f| f == family)) {
            Some(at) => &mut self.families[at],
            None => {
                self.limits += 1;
                &mut unused
            }
        };
        of.cases += 1;
        match answer.as_ref().map(|shrunk| shrunk.by) {
            Err(&number) => {
                self.refusals[number as usize] += 1;
                of.refused += 1;
            }
            Ok(By::NoVertices) => of.none += 1,
            Ok(By::Normals) => of.normals += 1,
            Ok(By::Margin(margin)) => {
                let halvings = (starting(&case.geometry) / margin).log2().round() as u32;
                self.halvings = self.halvings.max(halvings);
                *(if halvings == 0 { &mut of.first } else { &mut of.halved }) += 1;
            }
        }
    }

    fn lines(&self) -> Vec<String> {
        let refused = [1, 2, 6, 7].map(|number: usize| format!("refused {number}: {}", self.refusals[number]));
        let mut lines = refused.to_vec();
        lines.push(format!("at the limits: {}", self.limits));
        lines.push(format!("most halvings before a margin passed: {}", self.halvings));
        for (family, o) in FAMILIES.iter().zip(&self.families) {
            lines.push(format!(
                "{:9} {:7}: first margin {}, halved {}, by normals {}, no vertices {}, refused {}",
                format!("{family:?}").to_lowercase(),
                o.cases,
                o.first,
                o.halved,
                o.normals,
                o.none,
                o.refused
            ));
        }
        lines
    }
}

fn starting(g: &Geometry) -> f32 {
    (0..3).fold(g.margin, |margin, axis| margin.min((g.box_max[axis] - g.box_min[axis]).abs() * 0.5))
}

/// The cases at the limits, then random ones up to `cases` in all.
pub fn run(seed: u64, cases: u64, ours: &Side) -> Line {
    let mut fixed = at_the_limit();
    let total = cases.max(fixed.len() as u64);
    let mut progress = Progress::new("shrink", total);
    let (mut reached, mut mismatches, mut smallest) = (Reached::default(), 0, None::<(usize, String)>);
    let mut random = Cases { shapes: Shapes::new(seed), random: Random::new(!seed) };
    for done in 0..total {
        let case = fixed.pop().unwrap_or_else(|| random.next());
        let theirs = expected(&case);
        reached.note(&case, &theirs);
        if let Err(why) = differs(&case, &theirs, ours, seed ^ done << 20) {
            mismatches += 1;
            let size = case.count + case.geometry.vertices.len();
            if smallest.as_ref().is_none_or(|(before, _)| size < *before) {
                smallest = Some((size, format!("{why}\n  {case:?}").chars().take(4_000).collect()));
            }
        }
        if done % 64 == 0 {
            progress.at(done);
        }
    }
    progress.end(mismatches);
    let smallest = smallest.map(|(_, text)| text);
    Line { operation: "shrink".to_string(), cases: total, mismatches, smallest, reached: reached.lines() }
}

#[cfg(test)]
mod tests {
    use super::*;
    use crate::plain::shrink::{shrunk, Wrong, WRONG};
    use crate::proved;

    fn left_out(test: &str) -> bool {
        oracle::missing().inspect(|why| eprintln!("{test} is left out: {why}")).is_some()
    }

    /// The plain steps, or wrong ones, in lent buffers.
    fn plain(wrong: Option<Wrong>) -> impl Fn(&Case, &mut [Vec3], &mut [u32]) -> Result<By, u32> {
        move |case, points, _| {
            if case.too_short() && !case.too_long() {
                return Err(2);
            }
            let shrunk = shrunk(&case.geometry, &case.records, case.count, wrong)?;
            for (out, [x, y, z]) in points.iter_mut().zip(&shrunk.points) {
                *out = Vec3::new(*x, *y, *z);
            }
            Ok(shrunk.by)
        }
    }

    fn holds(line: Line) {
        assert_eq!((line.mismatches, line.smallest), (0, None));
        assert!(line.reached.iter().all(|what| !what.ends_with(": 0")), "{:?}", line.reached);
    }

    #[test]
    fn shrinking_matches() {
        if left_out("shrinking_matches") {
            return;
        }
        holds(run(1, 6_000, &proved::shrink));
        holds(run(1, 6_000, &plain(None)));
    }

    #[test]
    fn wrong_steps_are_found() {
        if left_out("wrong_steps_are_found") {
            return;
        }
        let mut missed = WRONG.to_vec();
        let mut random = Cases { shapes: Shapes::new(3), random: Random::new(4) };
        for done in 0..40_000 {
            let case = random.next();
            let theirs = expected(&case);
            missed.retain(|&wrong| differs(&case, &theirs, &plain(Some(wrong)), done).is_ok());
            if missed.is_empty() {
                return;
            }
        }
        panic!("not found: {missed:?}");
    }

    #[test]
    fn wrong_buffers_are_found() {
        if left_out("wrong_buffers_are_found") {
            return;
        }
        let right = plain(None);
        let behind = |case: &Case, points: &mut [Vec3], work: &mut [u32]| {
            let by = right(case, points, work)?;
            points.iter_mut().skip(case.geometry.vertices.len()).for_each(|p| p.x = 1.0);
            Ok(by)
        };
        let at_a_refusal = |case: &Case, points: &mut [Vec3], work: &mut [u32]| {
            let answer = right(case, points, work);
            points.iter_mut().take(answer.is_err() as usize).for_each(|p| p.y = 0.0);
            answer
        };
        let last = |case: &Case, points: &mut [Vec3], work: &mut [u32]| {
            let by = right(case, points, work)?;
            Ok(if let By::Margin(margin) = by { By::Margin(margin.max(0.025)) } else { by })
        };
        let sides: [&Side<'_>; 3] = [&behind, &at_a_refusal, &last];
        for (at, wrong) in sides.into_iter().enumerate() {
            assert!(run(2, 1_000, wrong).mismatches > 0, "{at}");
        }
    }
}
