//! Lists of polygons: the materials that they use, and the links between their triangles. One side's answers held to the
//! reference's.

use crate::lent::Lent;
use crate::plain::materials::{LIST, MATERIAL};
use crate::plain::polygon::{kind, RECORD};
use crate::random::Random;
use crate::report::{Line, Progress};
use oracle::polygon::{self as reference, Material, Polygon, LIMIT};

/// Numbers of polygons, the given materials, the list's bytes and the indices that are lent; answers how many were built.
pub type BuildMaterials = fn(&[u8], &[Material], &mut [u8], &mut [u8]) -> Result<usize, u32>;

/// Records, of which the first so many get their links.
pub type UpdateLinks = fn(&mut [u8], usize) -> Result<(), u32>;

/// Random lists.
pub struct Meshes {
    random: Random,
}

/// Numbers and materials, and how many bytes are lent for the list and for the indices.
#[derive(Clone, Debug)]
pub struct Materials {
    pub numbers: Vec<u8>,
    pub given: Vec<Material>,
    pub list: usize,
    pub indices: usize,
}

/// Records and their number, for which there may be too few bytes.
#[derive(Clone, Debug)]
pub struct Links {
    pub records: Vec<u8>,
    pub count: usize,
}

/// How the corners of a mesh's triangles are chosen.
#[derive(Clone, Copy, Debug)]
enum Corners {
    /// Few vertices: most sides are shared by several triangles.
    Few,
    /// Any of 16 bits, past every list and above the mask.
    Any,
    /// A strip: each triangle shares a side with the one before it.
    Strip,
    /// All around one edge.
    Fan,
    /// All the same triangle, some turned.
    Same,
    /// Corners that are equal.
    Doubled,
}

const CORNERS: [Corners; 6] =
    [Corners::Few, Corners::Any, Corners::Strip, Corners::Fan, Corners::Same, Corners::Doubled];

impl Meshes {
    pub fn new(seed: u64) -> Meshes {
        Meshes { random: Random::new(seed) }
    }

    /// Most lists are short; some are as long as they may be, or one longer.
    fn size(&mut self) -> usize {
        match self.random.below(4_000) {
            0 | 1 => LIMIT + 1,
            2..=4 => LIMIT,
            5..=20 => self.random.below(2_000),
            21..=400 => self.random.below(200),
            _ => self.random.below(12),
        }
    }

    pub fn materials(&mut self) -> Materials {
        let n = self.size();
        let r = &mut self.random;
        let given = match r.below(16) {
            0 => r.pick(&[255, 256, 257]),
            1..=4 => r.below(257),
            _ => r.below(9),
        };
        // Few values, so that a material is given twice, and (0, 0) now and then.
        let values = r.pick(&[1, 2, 5, 400]);
        let mut word = || (r.below(values) as u32).wrapping_mul(r.pick(&[1, 1, 0x0101_0101]));
        let mut given: Vec<Material> = (0..given).map(|_| (word(), word())).collect();
        let reach = if r.once_in(4) { 256 } else { given.len() + 2 };
        let mut numbers: Vec<u8> = (0..n).map(|_| r.below(reach) as u8).collect();
        if r.once_in(50) {
            // Every material another, and every number used: the list is full, be the last given or not.
            given = (1..=r.pick(&[255, 256])).map(|i| (i, i)).collect();
            (0..n).for_each(|i| numbers[i] = !i as u8);
        }
        let (mut list, mut indices) = (LIST, n);
        match r.below(16) {
            0 => list = r.pick(&[0, MATERIAL * given.len().min(255), LIST - 1]),
            1 => indices = n.saturating_sub(1 + r.below(3)),
            2..=4 => (list, indices) = (list + r.below(20), indices + r.below(20)),
            _ => {}
        }
        Materials { numbers, given, list, indices }
    }

    pub fn links(&mut self) -> Links {
        let count = self.size();
        let corners = self.random.pick(&CORNERS);
        let others = self.random.pick(&[0, 0, 4, 1]);
        let mut records = vec![0; RECORD * count];
        for (at, record) in records.chunks_exact_mut(RECORD).enumerate() {
            self.record(record, at, corners, others);
        }
        let r = &mut self.random;
        match r.below(24) {
            0 if count > 0 => records[RECORD * r.below(count)] |= 7,
            1 => records.truncate(records.len().saturating_sub(1 + r.below(20))),
            2 => records.extend([0x55; 33]),
            _ => {}
        }
        Links { records, count }
    }

    /// One in `others` is no triangle; each unused byte may hold anything.
    fn record(&mut self, record: &mut [u8], at: usize, corners: Corners, others: usize) {
        let r = &mut self.random;
        record.iter_mut().for_each(|byte| *byte = r.u32() as u8);
        let kind = if others > 0 && r.once_in(others) { 1 + r.below(4) as u8 } else { 0 };
        record[0] = record[0] & 0xF8 | kind;
        if kind > 0 {
            return;
        }
        let corners = match corners {
            Corners::Few => std::array::from_fn(|_| r.below(6) as u16),
            Corners::Any => std::array::from_fn(|_| r.u32() as u16),
            Corners::Strip => [at, at + 1, at + 2].map(|v| v as u16),
            Corners::Fan => [3, 9, at as u16],
            Corners::Same => r.pick(&[[1, 2, 3], [2, 3, 1], [3, 2, 1]]),
            Corners::Doubled => {
                let (a, b) = (r.below(4) as u16, r.below(4) as u16);
                r.pick(&[[a, a, b], [a, b, a], [b, a, a], [a, a, a]])
            }
        };
        // The bit above the mask means nothing.
        let bit = if r.once_in(4) { 0x8000 } else { 0 };
        (0..3).for_each(|i| record[4 + 2 * i..6 + 2 * i].copy_from_slice(&(corners[i] ^ bit).to_le_bytes()));
    }
}

/// What a side may have: the count, and the bytes of list and indices; or a refusal.
fn expected_materials(case: &Materials) -> Result<(Vec<u8>, Vec<u8>), u32> {
    let built = reference::materials(&case.numbers, &case.given).map_err(|refused| refused.0 as u32)?;
    if case.list < LIST || case.indices < case.numbers.len() {
        return Err(2);
    }
    let bytes = built.list.iter().flat_map(|(a, b)| [a.to_le_bytes(), b.to_le_bytes()]).flatten().collect();
    Ok((bytes, built.indices))
}

/// How large an answer is, or the refusal; `Err` with what is not the same.
pub(crate) type Outcome = Result<Result<usize, u32>, String>;

fn materials_differ(case: &Materials, ours: BuildMaterials, seed: u64) -> Outcome {
    let expected = expected_materials(case);
    let (mut list, mut indices) = (Lent::<u8>::new(case.list, seed), Lent::<u8>::new(case.indices, !seed));
    let answer = ours(&case.numbers, &case.given, list.buffer(), indices.buffer());
    let count = expected.as_ref().map(|(bytes, _)| bytes.len() / MATERIAL).map_err(|&number| number);
    if answer != count {
        return Err(format!("{answer:?}, expected {count:?}"));
    }
    let (bytes, places) = expected.unwrap_or_default();
    list.check(&bytes).map_err(|why| format!("list: {why}"))?;
    indices.check(&places).map_err(|why| format!("indices: {why}"))?;
    Ok(count)
}

/// The records with the reference's links put in; refusals in the order 1, 2, 6.
fn expected_links(case: &Links) -> Result<Vec<u8>, u32> {
    if case.count > LIMIT {
        return Err(1);
    }
    let mut records = case.records.get(..RECORD * case.count).ok_or(2u32)?.to_vec();
    let read = |record: &[u8]| reference::read(record).map_err(|refused| refused.0 as u32);
    let polygons: Vec<Polygon> = records.chunks_exact(RECORD).map(read).collect::<Result<_, _>>()?;
    let linked = reference::edges(&polygons).map_err(|refused| refused.0 as u32)?;
    for (record, polygon) in records.chunks_exact_mut(RECORD).zip(linked) {
        if let Polygon::Triangle { links, .. } = polygon {
            (0..3).for_each(|i| record[10 + 2 * i..12 + 2 * i].copy_from_slice(&links[i].to_le_bytes()));
        }
    }
    Ok(records)
}

fn links_differ(case: &Links, ours: UpdateLinks, seed: u64) -> Outcome {
    let mut records = Lent::<u8>::new(case.records.len(), seed);
    records.buffer().copy_from_slice(&case.records);
    let answer = ours(records.buffer(), case.count);
    let expected = expected_links(case);
    if answer != expected.as_ref().map(|_| ()).map_err(|&number| number) {
        return Err(format!("{answer:?}, expected {:?}", expected.map(|_| ())));
    }
    let written = expected.as_deref().unwrap_or_default();
    let after = case.records.get(written.len()..).unwrap_or_default();
    records.check(&[written, after].concat())?;
    Ok(expected.map(|records| records.chunks_exact(RECORD).filter(|r| kind(r) == 0).count()))
}

/// An operation's name, what its answers count, its refusals, and its longest lists.
pub(crate) struct Operation {
    pub name: &'static str,
    pub what: &'static str,
    pub refusals: &'static [usize],
    pub limit: usize,
}

/// How often each refusal was reached, how many answers, the largest of them, and how many lists were as long as can be.
#[derive(Default)]
struct Reached {
    refusals: [u64; 14],
    largest: usize,
    longest: u64,
}

impl Reached {
    fn note(&mut self, outcome: Result<usize, u32>, longest: bool) {
        self.refusals[outcome.err().unwrap_or(0) as usize] += 1;
        self.largest = self.largest.max(outcome.unwrap_or(0));
        self.longest += longest as u64;
    }

    fn lines(&self, of: &Operation) -> Vec<String> {
        let refused = of.refusals.iter().map(|&number| format!("refused {number}: {}", self.refusals[number]));
        let answered = format!("answered: {}; most {}: {}", self.refusals[0], of.what, self.largest);
        refused.chain([answered, format!("lists of {}: {}", of.limit, self.longest)]).collect()
    }
}

/// `cases` lists with their lengths; of those that differ the shortest is shown.
pub(crate) fn compared<C: std::fmt::Debug>(
    of: Operation,
    cases: u64,
    mut case: impl FnMut() -> (C, usize),
    differs: impl Fn(&C, u64) -> Outcome,
) -> Line {
    let mut progress = Progress::new(of.name, cases);
    let (mut reached, mut mismatches, mut shortest) = (Reached::default(), 0, None::<(usize, String)>);
    for done in 0..cases {
        let (case, len) = case();
        match differs(&case, done) {
            Ok(outcome) => reached.note(outcome, len == of.limit),
            Err(why) => {
                mismatches += 1;
                if shortest.as_ref().is_none_or(|(before, _)| len < *before) {
                    shortest = Some((len, format!("{why}\n  {case:?}")));
                }
            }
        }
        if done % 1024 == 0 {
            progress.at(done);
        }
    }
    progress.end(mismatches);
    let smallest = shortest.map(|(_, text)| text.chars().take(4_000).collect());
    Line { operation: of.name.to_string(), cases, mismatches, smallest, reached: reached.lines(&of) }
}

pub fn materials(seed: u64, cases: u64, ours: BuildMaterials) -> Line {
    let of = Operation { name: "materials", what: "materials", refusals: &[1, 2], limit: LIMIT };
    let mut meshes = Meshes::new(seed);
    let case = || {
        let case = meshes.materials();
        let len = case.numbers.len();
        (case, len)
    };
    compared(of, cases, case, |case, done| materials_differ(case, ours, seed ^ done << 20))
}

pub fn links(seed: u64, cases: u64, ours: UpdateLinks) -> Line {
    let of = Operation { name: "links", what: "triangles", refusals: &[1, 2, 6], limit: LIMIT };
    let mut meshes = Meshes::new(seed);
    let case = || {
        let case = meshes.links();
        let len = case.count;
        (case, len)
    };
    compared(of, cases, case, |case, done| links_differ(case, ours, seed ^ done << 20))
}

#[cfg(test)]
mod tests {
    use super::*;
    use crate::plain;

    fn left_out(test: &str) -> bool {
        oracle::missing().inspect(|why| eprintln!("{test} is left out: {why}")).is_some()
    }

    fn holds(line: Line, refusals: &[usize]) {
        assert_eq!((line.mismatches, line.smallest), (0, None));
        for number in refusals {
            let none = format!("refused {number}: 0");
            assert!(!line.reached.contains(&none), "{:?}", line.reached);
        }
        assert!(!line.reached.contains(&format!("lists of {LIMIT}: 0")), "{:?}", line.reached);
    }

    #[test]
    fn materials_match() {
        if left_out("materials_match") {
            return;
        }
        for ours in [crate::proved::materials, plain::materials::build] {
            holds(materials(1, 16_000, ours), &[1, 2]);
        }
    }

    #[test]
    fn links_match() {
        if left_out("links_match") {
            return;
        }
        for ours in [crate::proved::links, plain::links::update] {
            holds(links(1, 16_000, ours), &[1, 2, 6]);
        }
    }

    #[test]
    fn wrong_sides_are_found() {
        if left_out("wrong_sides_are_found") {
            return;
        }
        let unlisted = |numbers: &[u8], given: &[Material], list: &mut [u8], indices: &mut [u8]| {
            let count = plain::materials::build(numbers, given, list, indices)?;
            indices[..numbers.len()].copy_from_slice(numbers);
            Ok(count)
        };
        assert!(materials(2, 500, unlisted).mismatches > 0);
        let forgotten = |records: &mut [u8], n: usize| plain::links::update(records, n.saturating_sub(1));
        assert!(links(2, 500, forgotten).mismatches > 0);
        let cleared = |records: &mut [u8], n: usize| {
            plain::links::update(records, n)?;
            records.chunks_exact_mut(RECORD).take(n).filter(|r| kind(r) == 1).for_each(|r| r[12] = 0);
            Ok(())
        };
        assert!(links(2, 500, cleared).mismatches > 0);
    }
}
