//! `calculate_verts_shrunk`: one side's points held to the reference's, floats by their bits and a NaN as a NaN, and how it
//! came to them: by which margin, or by normals.

use crate::lent::Lent;
use crate::random::Random;
use crate::report::{shown, Cases, Line, Refusals};
use crate::shapes::{sheet, Family, Mesh, Shapes, FAMILIES};
use bounds::shrink::work_len;
use bounds::{Geometry, Polygon, Refusal, Shrunk, ShrunkBy, Vec3};
use oracle::geometry::{self as reference, VERTICES};
use oracle::polygon::{self, LIMIT};
use plain::polygon::RECORD;
use plain::shrink::starting_margin;

/// A case, the points that are lent and the words to work in.
pub type Side<'a> = dyn Fn(&Case, &mut [Vec3], &mut [u32]) -> Result<ShrunkBy, Refusal> + 'a;

/// A geometry, whose polygons are records, and how many points and words are lent.
#[derive(Clone, Debug)]
pub struct Case {
    pub family: Option<Family>,
    pub geometry: Geometry,
    pub records: Vec<u8>,
    pub count: usize,
    pub points: usize,
    pub work: usize,
}

impl Case {
    /// All buffers as long as they have to be.
    fn exact(family: Option<Family>, mut geometry: Geometry) -> Case {
        let polygons = std::mem::take(&mut geometry.polygons);
        let records = polygons.iter().flat_map(|&p| polygon::to_bytes(p)).collect();
        let (count, points) = (polygons.len(), geometry.vertices.len());
        Case { family, geometry, records, count, points, work: work_len(count, points) }
    }

    fn too_long(&self) -> bool {
        self.count > LIMIT || self.geometry.vertices.len() > VERTICES
    }

    fn too_short(&self) -> bool {
        let v = self.geometry.vertices.len();
        self.records.len() < RECORD * self.count || self.points < v || self.work < work_len(self.count, v)
    }
}

/// Random cases.
struct Damaged {
    shapes: Shapes,
    random: Random,
}

impl Damaged {
    fn new(seed: u64, damage: u64) -> Damaged {
        Damaged { shapes: Shapes::new(seed), random: Random::new(damage) }
    }

    fn next(&mut self) -> Case {
        let (family, geometry) = self.shapes.next(4);
        let mut case = Case::exact(Some(family), geometry);
        let r = &mut self.random;
        match r.below(40) {
            0 => case.points = case.points.saturating_sub(1),
            1 => case.work = case.work.saturating_sub(1 + r.below(3)),
            2 => case.records.truncate(case.records.len().saturating_sub(1 + r.below(20))),
            3 if case.count > 0 => case.records[RECORD * r.below(case.count)] |= r.pick(&[5, 6, 7]),
            4 => case.records.extend([0x55; 17]),
            5..=9 => (case.points, case.work) = (case.points + r.below(5), case.work + r.below(40)),
            _ => {}
        }
        // What a kind does not use may hold anything.
        if r.once_in(4) {
            for record in case.records.chunks_exact_mut(RECORD).filter(|record| record[0] % 8 > 0) {
                record[1] = r.u32() as u8;
                record[12..].fill(r.u32() as u8);
            }
        }
        case
    }
}

/// As many polygons and vertices as may be, and one more: with all that is needed, with each buffer one short, and with a
/// kind that there is not. Triangles only where the reference ends soon: by normals at once, or with a corner that is not
/// there, so that no ray is shot.
fn at_the_limit() -> Vec<Case> {
    let mut cases = Vec::new();
    let line = |v: usize| Mesh { vertices: (0..v).map(|i| [i as f32, 1.0, -1.0]).collect(), triangles: Vec::new() };
    for (p, v) in [(LIMIT, VERTICES), (LIMIT + 1, VERTICES), (LIMIT, VERTICES + 1), (LIMIT + 1, VERTICES + 1)] {
        let mut geometry = line(v).geometry(4, 0.04);
        geometry.polygons = (0..p).map(|i| Polygon::Sphere { material: 0, index: i as u16, radius: 1.0 }).collect();
        let whole = Case::exact(None, geometry);
        let (points, work) = (whole.points - 1, whole.work - 1);
        let mut kind = whole.clone();
        kind.records[RECORD * (p - 1)] = 7;
        let mut short = whole.clone();
        short.records.pop();
        let endless = Case { work: whole.work - 1, ..infinite(&kind) };
        cases.extend([Case { points, ..whole.clone() }, Case { work, ..kind.clone() }, endless, infinite(&kind)]);
        cases.extend([infinite(&whole), short, kind, whole]);
    }
    let mut grid = sheet(127);
    grid.triangles.resize(LIMIT, [0, 1, 2]);
    cases.push(Case::exact(None, grid.geometry(4, 1e-6)));
    grid.triangles[LIMIT - 1] = [0, 1, 40_000];
    cases.push(Case::exact(None, grid.geometry(4, 5e-6)));
    cases
}

/// The same with a margin that is infinite.
fn infinite(case: &Case) -> Case {
    let mut case = case.clone();
    (case.geometry.margin, case.geometry.box_max) = (f32::NAN, [f32::INFINITY; 3].into());
    case
}

/// The reference's answer, after the refusals that it has not: 2, and 6 of a record.
fn expected(case: &Case) -> Result<Shrunk, Refusal> {
    if case.too_long() {
        return Err(Refusal::ListTooLong);
    }
    if case.too_short() {
        return Err(Refusal::BufferTooShort);
    }
    let records = case.records.chunks_exact(RECORD).take(case.count);
    let polygons = records.map(polygon::read).collect::<Result<_, _>>()?;
    reference::calculate_verts_shrunk(&Geometry { polygons, ..case.geometry.clone() })
}

/// `Err` with the first thing that is not the same. Margins are numbers above 0, and the same where they are equal.
fn differs(case: &Case, expected: &Result<Shrunk, Refusal>, ours: &Side, seed: u64) -> Result<(), String> {
    let (mut points, mut work) = (Lent::<Vec3>::new(case.points, seed), Lent::<u32>::new(case.work, !seed));
    let answer = ours(case, points.buffer(), work.buffer());
    let theirs = expected.as_ref().map(|shrunk| shrunk.by).map_err(|&refusal| refusal);
    if answer != theirs {
        return Err(format!("{answer:?}, expected {theirs:?}"));
    }
    let written = expected.as_ref().map_or(&[][..], |shrunk| &shrunk.vertices);
    points.check(written).map_err(|why| format!("points: {why}"))?;
    work.check_guards().map_err(|why| format!("work: {why}"))
}

/// What the cases of a family came to.
#[derive(Clone, Copy, Default)]
struct Outcomes {
    cases: u64,
    first: u64,
    halved: u64,
    normals: u64,
    none: u64,
    refused: u64,
}

/// How often each refusal was reached, what each family came to, and the most margins that were tried before one passed.
#[derive(Default)]
struct Reached {
    refusals: Refusals,
    families: [Outcomes; FAMILIES.len()],
    limits: u64,
    halvings: u32,
}

impl Reached {
    fn note(&mut self, case: &Case, answer: &Result<Shrunk, Refusal>) {
        self.refusals.note(answer);
        let mut unused = Outcomes::default();
        let of = match case.family {
            Some(family) => &mut self.families[family as usize],
            None => {
                self.limits += 1;
                &mut unused
            }
        };
        of.cases += 1;
        match answer.as_ref().map(|shrunk| shrunk.by) {
            Err(_) => of.refused += 1,
            Ok(ShrunkBy::NoVertices) => of.none += 1,
            Ok(ShrunkBy::Normals) => of.normals += 1,
            Ok(ShrunkBy::Margin(margin)) => {
                let halvings = (starting_margin(&case.geometry) / margin).log2().round() as u32;
                self.halvings = self.halvings.max(halvings);
                *(if halvings == 0 { &mut of.first } else { &mut of.halved }) += 1;
            }
        }
    }

    fn lines(&self) -> Vec<String> {
        let mut lines: Vec<String> = self.refusals.lines(&[1, 2, 6, 7]).collect();
        lines.push(format!("at the limits: {}", self.limits));
        lines.push(format!("most halvings before a margin passed: {}", self.halvings));
        for (family, o) in FAMILIES.iter().zip(&self.families) {
            lines.push(format!(
                "{:9} {:7}: first margin {}, halved {}, by normals {}, no vertices {}, refused {}",
                format!("{family:?}").to_lowercase(),
                o.cases,
                o.first,
                o.halved,
                o.normals,
                o.none,
                o.refused
            ));
        }
        lines
    }
}

/// The cases at the limits, then random ones up to `cases` in all.
pub fn run(seed: u64, cases: u64, ours: &Side) -> Line {
    let (mut reached, mut random) = (Reached::default(), Damaged::new(seed, !seed));
    let asked = |case: &Case, done: u64| {
        let theirs = expected(case);
        reached.note(case, &theirs);
        differs(case, &theirs, ours, seed ^ done << 20)
    };
    let size = |case: &Case| case.count + case.geometry.vertices.len();
    let line = Cases::new("shrink", cases, at_the_limit()).compared(|_| random.next(), asked, size, shown);
    line.reaching(reached.lines())
}

#[cfg(test)]
mod tests {
    use super::*;
    use crate::proved;
    use crate::report::{all_found, needs_reference};
    use plain::shrink::{shrunk, Wrong, WRONG};

    /// The plain steps, or wrong ones, in lent buffers.
    fn plain(wrong: Option<Wrong>) -> impl Fn(&Case, &mut [Vec3], &mut [u32]) -> Result<ShrunkBy, Refusal> {
        move |case, points, _| {
            if case.too_short() && !case.too_long() {
                return Err(Refusal::BufferTooShort);
            }
            let shrunk = shrunk(&case.geometry, &case.records, case.count, wrong)?;
            points[..shrunk.vertices.len()].copy_from_slice(&shrunk.vertices);
            Ok(shrunk.by)
        }
    }

    #[test]
    fn shrinking_matches() {
        needs_reference!();
        run(1, 6_000, &proved::shrink).holds();
        run(1, 6_000, &plain(None)).holds();
    }

    #[test]
    fn wrong_steps_are_found() {
        needs_reference!();
        assert_eq!(WRONG.len(), 25, "as many as floor/README says");
        let mut random = Damaged::new(3, 4);
        let next = || {
            let case = random.next();
            (expected(&case), case)
        };
        all_found(&WRONG, next, |(theirs, case), wrong, done| {
            differs(case, theirs, &plain(Some(wrong)), done).is_err()
        });
    }

    #[test]
    fn wrong_buffers_are_found() {
        needs_reference!();
        let right = plain(None);
        let behind = |case: &Case, points: &mut [Vec3], work: &mut [u32]| {
            let by = right(case, points, work)?;
            points.iter_mut().skip(case.geometry.vertices.len()).for_each(|p| p.x = 1.0);
            Ok(by)
        };
        let at_a_refusal = |case: &Case, points: &mut [Vec3], work: &mut [u32]| {
            let answer = right(case, points, work);
            points.iter_mut().take(answer.is_err() as usize).for_each(|p| p.y = 0.0);
            answer
        };
        let last = |case: &Case, points: &mut [Vec3], work: &mut [u32]| {
            let by = right(case, points, work)?;
            Ok(if let ShrunkBy::Margin(margin) = by { ShrunkBy::Margin(margin.max(0.025)) } else { by })
        };
        let sides: [&Side<'_>; 3] = [&behind, &at_a_refusal, &last];
        for (at, wrong) in sides.into_iter().enumerate() {
            assert!(run(2, 1_000, wrong).mismatches > 0, "{at}");
        }
    }
}
