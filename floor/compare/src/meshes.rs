//! Lists of polygons: the materials that they use, and the links between their triangles. One side's answers held to the
//! reference's.

use crate::lent::Lent;
use crate::random::Random;
use crate::report::{shown, Cases, Line, Refusals};
use bounds::{BoundMaterial, Polygon, Refusal};
use oracle::polygon::{self as reference, LIMIT};
use plain::materials::{LIST, MATERIAL};
use plain::polygon::{kind_at, RECORD};

/// Numbers of polygons, the given materials, the list's bytes and the indices that are lent; answers how many were built.
pub type BuildMaterials = fn(&[u8], &[BoundMaterial], &mut [u8], &mut [u8]) -> Result<usize, Refusal>;

/// Records, of which the first so many get their links.
pub type UpdateLinks = fn(&mut [u8], usize) -> Result<(), Refusal>;

/// Random lists.
pub struct Meshes {
    random: Random,
}

/// Numbers and materials, and how many bytes are lent for the list and for the indices.
#[derive(Clone, Debug)]
pub struct Materials {
    pub numbers: Vec<u8>,
    pub given: Vec<BoundMaterial>,
    pub list: usize,
    pub indices: usize,
}

/// Records and their number, for which there may be too few bytes.
#[derive(Clone, Debug)]
pub struct Links {
    pub records: Vec<u8>,
    pub count: usize,
}

plain::listed! {
    /// How the corners of a mesh's triangles are chosen.
    enum Corners in CORNERS {
        /// Few vertices: most sides are shared by several triangles.
        Few,
        /// Any of 16 bits, past every list and above the mask.
        Any,
        /// A strip: each triangle shares a side with the one before it.
        Strip,
        /// All around one edge.
        Fan,
        /// All the same triangle, some turned.
        Same,
        /// Corners that are equal.
        Doubled,
    }
}

impl Meshes {
    pub fn new(seed: u64) -> Meshes {
        Meshes { random: Random::new(seed) }
    }

    /// Most lists are short; some are as long as they may be, or one longer.
    fn size(&mut self) -> usize {
        match self.random.below(4_000) {
            0 | 1 => LIMIT + 1,
            2..=4 => LIMIT,
            5..=20 => self.random.below(2_000),
            21..=400 => self.random.below(200),
            _ => self.random.below(12),
        }
    }

    pub fn materials(&mut self) -> Materials {
        let n = self.size();
        let r = &mut self.random;
        let given = match r.below(16) {
            0 => r.pick(&[255, 256, 257]),
            1..=4 => r.below(257),
            _ => r.below(9),
        };
        // Few values, so that a material is given twice, and (0, 0) now and then.
        let values = r.pick(&[1, 2, 5, 400]);
        let mut word = || (r.below(values) as u32).wrapping_mul(r.pick(&[1, 1, 0x0101_0101]));
        let mut given: Vec<_> = (0..given).map(|_| BoundMaterial { data1: word(), data2: word() }).collect();
        let reach = if r.once_in(4) { 256 } else { given.len() + 2 };
        let mut numbers: Vec<u8> = (0..n).map(|_| r.below(reach) as u8).collect();
        if r.once_in(50) {
            // Every material another, and every number used: the list is full, be the last given or not.
            given = (1..=r.pick(&[255, 256])).map(|i| BoundMaterial { data1: i, data2: i }).collect();
            (0..n).for_each(|i| numbers[i] = !i as u8);
        }
        let (mut list, mut indices) = (LIST, n);
        match r.below(16) {
            0 => list = r.pick(&[0, MATERIAL * given.len().min(255), LIST - 1]),
            1 => indices = n.saturating_sub(1 + r.below(3)),
            2..=4 => (list, indices) = (list + r.below(20), indices + r.below(20)),
            _ => {}
        }
        Materials { numbers, given, list, indices }
    }

    pub fn links(&mut self) -> Links {
        let count = self.size();
        let corners = self.random.pick(&CORNERS);
        let others = self.random.pick(&[0, 0, 4, 1]);
        let mut records = vec![0; RECORD * count];
        for (at, record) in records.chunks_exact_mut(RECORD).enumerate() {
            self.record(record, at, corners, others);
        }
        let r = &mut self.random;
        match r.below(24) {
            0 if count > 0 => records[RECORD * r.below(count)] |= 7,
            1 => records.truncate(records.len().saturating_sub(1 + r.below(20))),
            2 => records.extend([0x55; 33]),
            _ => {}
        }
        Links { records, count }
    }

    /// One in `others` is no triangle; each unused byte may hold anything.
    fn record(&mut self, record: &mut [u8], at: usize, corners: Corners, others: usize) {
        let r = &mut self.random;
        record.iter_mut().for_each(|byte| *byte = r.u32() as u8);
        let kind = if others > 0 && r.once_in(others) { 1 + r.below(4) as u8 } else { 0 };
        record[0] = record[0] & 0xF8 | kind;
        if kind > 0 {
            return;
        }
        let corners = match corners {
            Corners::Few => std::array::from_fn(|_| r.below(6) as u16),
            Corners::Any => std::array::from_fn(|_| r.u32() as u16),
            Corners::Strip => [at, at + 1, at + 2].map(|v| v as u16),
            Corners::Fan => [3, 9, at as u16],
            Corners::Same => r.pick(&[[1, 2, 3], [2, 3, 1], [3, 2, 1]]),
            Corners::Doubled => {
                let (a, b) = (r.below(4) as u16, r.below(4) as u16);
                r.pick(&[[a, a, b], [a, b, a], [b, a, a], [a, a, a]])
            }
        };
        // The bit above the mask means nothing.
        let bit = if r.once_in(4) { 0x8000 } else { 0 };
        (0..3).for_each(|i| record[4 + 2 * i..6 + 2 * i].copy_from_slice(&(corners[i] ^ bit).to_le_bytes()));
    }
}

/// What a side may have: the count, and the bytes of list and indices; or a refusal.
fn expected_materials(case: &Materials) -> Result<(Vec<u8>, Vec<u8>), Refusal> {
    let built = reference::materials(&case.numbers, &case.given)?;
    if case.list < LIST || case.indices < case.numbers.len() {
        return Err(Refusal::BufferTooShort);
    }
    Ok((built.list.iter().flat_map(material_bytes).collect(), built.indices))
}

/// A material as it is written.
pub(crate) fn material_bytes(m: &BoundMaterial) -> impl Iterator<Item = u8> {
    [m.data1, m.data2].into_iter().flat_map(u32::to_le_bytes)
}

/// How large an answer is, or the refusal; `Err` with what is not the same.
pub(crate) type Outcome = Result<Result<usize, Refusal>, String>;

fn materials_differ(case: &Materials, ours: BuildMaterials, seed: u64) -> Outcome {
    let expected = expected_materials(case);
    let (mut list, mut indices) = (Lent::<u8>::new(case.list, seed), Lent::<u8>::new(case.indices, !seed));
    let answer = ours(&case.numbers, &case.given, list.buffer(), indices.buffer());
    let count = expected.as_ref().map(|(bytes, _)| bytes.len() / MATERIAL).map_err(|&refusal| refusal);
    if answer != count {
        return Err(format!("{answer:?}, expected {count:?}"));
    }
    let (bytes, places) = expected.unwrap_or_default();
    list.check(&bytes).map_err(|why| format!("list: {why}"))?;
    indices.check(&places).map_err(|why| format!("indices: {why}"))?;
    Ok(count)
}

/// The records with the reference's links put in; refusals in the order 1, 2, 6.
fn expected_links(case: &Links) -> Result<Vec<u8>, Refusal> {
    if case.count > LIMIT {
        return Err(Refusal::ListTooLong);
    }
    let mut records = case.records.get(..RECORD * case.count).ok_or(Refusal::BufferTooShort)?.to_vec();
    let polygons: Vec<Polygon> = records.chunks_exact(RECORD).map(reference::read).collect::<Result<_, _>>()?;
    for (record, polygon) in records.chunks_exact_mut(RECORD).zip(reference::edges(&polygons)?) {
        if let Polygon::Triangle { edges, .. } = polygon {
            (0..3).for_each(|i| record[10 + 2 * i..12 + 2 * i].copy_from_slice(&edges[i].to_le_bytes()));
        }
    }
    Ok(records)
}

fn links_differ(case: &Links, ours: UpdateLinks, seed: u64) -> Outcome {
    let mut records = Lent::<u8>::new(case.records.len(), seed);
    records.buffer().copy_from_slice(&case.records);
    let answer = ours(records.buffer(), case.count);
    let expected = expected_links(case);
    if answer != expected.as_ref().map(drop).map_err(|&refusal| refusal) {
        return Err(format!("{answer:?}, expected {:?}", expected.map(drop)));
    }
    let written = expected.as_deref().unwrap_or_default();
    let after = case.records.get(written.len()..).unwrap_or_default();
    records.check(&[written, after].concat())?;
    Ok(expected.map(|records| records.chunks_exact(RECORD).filter(|r| kind_at(r) == 0).count()))
}

/// What an operation's answers count, its refusals, and its longest lists.
pub(crate) struct Operation {
    pub what: &'static str,
    pub refusals: &'static [usize],
    pub limit: usize,
}

/// `cases` lists with their lengths, the fixed ones first; of those that differ the shortest is shown. How often each refusal
/// was reached, how many answers, the largest of them, and how many lists were as long as can be.
pub(crate) fn compared<C: std::fmt::Debug>(
    of: Operation,
    cases: Cases<C>,
    next: impl FnMut(Option<C>) -> C,
    len: impl Fn(&C) -> usize + Copy,
    differs: impl Fn(&C, u64) -> Outcome,
) -> Line {
    let (mut refusals, mut largest, mut longest) = (Refusals::default(), 0, 0u64);
    let asked = |case: &C, done: u64| {
        let outcome = differs(case, done)?;
        refusals.note(&outcome);
        largest = largest.max(outcome.unwrap_or(0));
        longest += (len(case) == of.limit) as u64;
        Ok(())
    };
    let line = cases.compared(next, asked, len, shown);
    let answered = format!("answered: {}; most {}: {largest}", refusals.none(), of.what);
    let lists = format!("lists of {}: {longest}", of.limit);
    line.reaching(refusals.lines(of.refusals).chain([answered, lists]).collect())
}

pub fn materials(seed: u64, cases: u64, ours: BuildMaterials) -> Line {
    let of = Operation { what: "materials", refusals: &[1, 2], limit: LIMIT };
    let (cases, mut meshes) = (Cases::new("materials", cases, Vec::new()), Meshes::new(seed));
    let differs = |case: &Materials, done: u64| materials_differ(case, ours, seed ^ done << 20);
    compared(of, cases, |_| meshes.materials(), |case| case.numbers.len(), differs)
}

pub fn links(seed: u64, cases: u64, ours: UpdateLinks) -> Line {
    let of = Operation { what: "triangles", refusals: &[1, 2, 6], limit: LIMIT };
    let (cases, mut meshes) = (Cases::new("links", cases, Vec::new()), Meshes::new(seed));
    let differs = |case: &Links, done: u64| links_differ(case, ours, seed ^ done << 20);
    compared(of, cases, |_| meshes.links(), |case| case.count, differs)
}

#[cfg(test)]
mod tests {
    use super::*;
    use crate::report::needs_reference;

    #[test]
    fn materials_match() {
        needs_reference!();
        for ours in [bounds::build_materials, plain::materials::build] {
            materials(1, 16_000, ours).holds();
        }
    }

    #[test]
    fn links_match() {
        needs_reference!();
        for ours in [crate::proved::links, plain::links::update] {
            links(1, 16_000, ours).holds();
        }
    }

    #[test]
    fn wrong_sides_are_found() {
        needs_reference!();
        let unlisted = |numbers: &[u8], given: &[BoundMaterial], list: &mut [u8], indices: &mut [u8]| {
            let count = plain::materials::build(numbers, given, list, indices)?;
            indices[..numbers.len()].copy_from_slice(numbers);
            Ok(count)
        };
        assert!(materials(2, 500, unlisted).mismatches > 0);
        let forgotten = |records: &mut [u8], n: usize| plain::links::update(records, n.saturating_sub(1));
        assert!(links(2, 500, forgotten).mismatches > 0);
        let cleared = |records: &mut [u8], n: usize| {
            plain::links::update(records, n)?;
            records.chunks_exact_mut(RECORD).take(n).filter(|r| kind_at(r) == 1).for_each(|r| r[12] = 0);
            Ok(())
        };
        assert!(links(2, 500, cleared).mismatches > 0);
    }
}
