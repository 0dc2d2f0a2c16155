//! Polygon records read and written, and boxes of polygons: one side's answers held to the reference's.

use crate::inputs::{Input, Inputs};
use crate::lent::Lent;
use crate::operation::made;
use crate::plain::polygon as plain;
use crate::random::Random;
use crate::report::{Line, Progress};
use oracle::polygon::{self as reference, Polygon, LIMIT};
use oracle::{Aabb, Vec3};

/// What is compared. Refusals are numbers.
pub struct Sides {
    pub read: fn(&[u8]) -> Result<Polygon, u32>,
    pub write: fn(&mut [u8], Polygon) -> Result<(), u32>,
    pub bbox: fn(Polygon, &[Vec3]) -> Aabb,
}

pub const PLAIN: Sides = Sides { read: plain::read, write: plain::write, bbox: plain::bbox };

/// A record to read, and a polygon to write into so many bytes and to take the box of.
#[derive(Clone, Debug)]
pub struct Case {
    pub record: Vec<u8>,
    pub polygon: Polygon,
    pub room: usize,
    pub vertices: Vec<Vec3>,
}

/// Random cases.
pub struct Polygons {
    random: Random,
    inputs: Inputs,
}

impl Polygons {
    pub fn new(seed: u64) -> Polygons {
        Polygons { random: Random::new(seed), inputs: Inputs::new(seed) }
    }

    pub fn case(&mut self) -> Case {
        let count = match self.random.below(1_000) {
            0 => self.random.pick(&[32_767, 32_768]),
            _ => self.random.below(9),
        };
        let vertices = self.vertices(count);
        let r = &mut self.random;
        let room = r.pick(&[16, 16, 16, 16, 16, 16, 17, 33, 15, 0]);
        let len = r.pick(&[16, 16, 16, 16, 16, 16, 17, 40, 15, 0]);
        let mut record: Vec<u8> = (0..len).map(|_| r.u32() as u8).collect();
        if let (Some(first), false) = (record.first_mut(), r.once_in(4)) {
            // The five kinds mostly, with any bits above them.
            *first = *first & 0xF8 | r.below(5) as u8;
        }
        let polygon = self.polygon(count);
        Case { record, polygon, room, vertices }
    }

    /// Of the same few floats, so that coordinates are equal now and then.
    fn vertices(&mut self, count: usize) -> Vec<Vec3> {
        let mut words = [0; 12];
        self.inputs.fill(&[Input::Float; 12], &mut words);
        let mut float = || f32::from_bits(self.random.pick(&words));
        (0..count).map(|_| std::array::from_fn(|_| float())).collect()
    }

    fn polygon(&mut self, vertices: usize) -> Polygon {
        let mut float = [0];
        self.inputs.fill(&[Input::Float], &mut float);
        let float = f32::from_bits(float[0]);
        let r = &mut self.random;
        let mut number = || match r.below(8) {
            0 => r.pick(&[0, 0x7FFF, 0x8000, 0x8001, 0xFFFF, vertices as u16]),
            1 => r.u32() as u16,
            2 => r.below(vertices + 2) as u16 | 0x8000,
            _ => r.below(vertices + 2) as u16,
        };
        let (i, material) = ([number(), number(), number(), number()], number() as u8);
        let [i1, i2, ..] = i;
        match self.random.below(5) {
            0 => {
                let links = std::array::from_fn(|_| self.random.u32() as i16);
                Polygon::Triangle { material, area: float, v: [i[0], i[1], i[2]], links }
            }
            1 => Polygon::Sphere { material, index: i1, radius: float },
            2 => Polygon::Capsule { material, i1, i2, radius: float },
            3 => Polygon::Box { material, i: i.map(|n| n as i16) },
            _ => Polygon::Cylinder { material, i1, i2, radius: float },
        }
    }
}

/// Each number of a polygon, floats by their bits; the material is not in a record.
fn numbers(p: Polygon) -> [u32; 8] {
    let signed = |n: i16| n as u16 as u32;
    match p {
        Polygon::Triangle { area, v, links, .. } => {
            let ([a, b, c], [d, e, f]) = (v.map(u32::from), links.map(signed));
            [0, area.to_bits(), a, b, c, d, e, f]
        }
        Polygon::Sphere { index, radius, .. } => [1, radius.to_bits(), index.into(), 0, 0, 0, 0, 0],
        Polygon::Capsule { i1, i2, radius, .. } => [2, radius.to_bits(), i1.into(), i2.into(), 0, 0, 0, 0],
        Polygon::Box { i, .. } => {
            let [a, b, c, d] = i.map(signed);
            [3, 0, a, b, c, d, 0, 0]
        }
        Polygon::Cylinder { i1, i2, radius, .. } => [4, radius.to_bits(), i1.into(), i2.into(), 0, 0, 0, 0],
    }
}

/// Corners that were copied have their bits; those that arithmetic made, a NaN as a NaN.
fn corners(p: Polygon, b: Aabb) -> [u32; 6] {
    let copied = matches!(p, Polygon::Triangle { .. } | Polygon::Box { .. });
    let word = |x: f32| if copied { x.to_bits() } else { made(x) };
    let ([a, b, c], [d, e, f]) = (b.min.map(word), b.max.map(word));
    [a, b, c, d, e, f]
}

/// `cases` of each: a record read, a polygon written, a box taken.
pub fn run(seed: u64, cases: u64, ours: &Sides) -> Line {
    let mut progress = Progress::new("polygon", cases);
    let (mut reached, mut mismatches, mut first) = ([0u64; 8], 0, None);
    let mut polygons = Polygons::new(seed);
    for done in 0..cases {
        let case = polygons.case();
        let read = reference::read(&case.record).map_err(|refused| refused.0 as u32);
        reached[read.map_or_else(|number| number as usize, |p| numbers(p)[0] as usize)] += 1;
        reached[7] += (case.room < plain::RECORD) as u64;
        if let Err(why) = differs(&case, read, ours, seed ^ done << 20) {
            mismatches += 1;
            first.get_or_insert_with(|| format!("{why}\n  {case:?}"));
        }
        if done % 4096 == 0 {
            progress.at(done);
        }
    }
    progress.end(mismatches);
    let names = ["triangles", "spheres", "capsules", "boxes", "cylinders"];
    let mut lines: Vec<String> = names.iter().zip(reached).map(|(name, n)| format!("read as {name}: {n}")).collect();
    lines.push(format!("refused 5: {}; 6: {}; written into too few bytes, 2: {}", reached[5], reached[6], reached[7]));
    Line { operation: "polygon".to_string(), cases, mismatches, smallest: first, reached: lines }
}

fn differs(case: &Case, read: Result<Polygon, u32>, ours: &Sides, seed: u64) -> Result<(), String> {
    let answer = (ours.read)(&case.record);
    if answer.map(numbers) != read.map(numbers) {
        return Err(format!("read: {answer:?}, expected {read:?}"));
    }
    let mut out = Lent::<u8>::new(case.room, seed);
    let written = (ours.write)(out.buffer(), case.polygon);
    let (expected, bytes) = match case.room < plain::RECORD {
        true => (Err(2), Vec::new()),
        false => (Ok(()), reference::to_bytes(case.polygon).to_vec()),
    };
    if written != expected {
        return Err(format!("write: {written:?}, expected {expected:?}"));
    }
    out.check(&bytes).map_err(|why| format!("write: {why}"))?;
    let (found, expected) = ((ours.bbox)(case.polygon, &case.vertices), reference::bbox(case.polygon, &case.vertices));
    if corners(case.polygon, found) != corners(case.polygon, expected) {
        return Err(format!("bbox: {found:?}, expected {expected:?}"));
    }
    Ok(())
}

/// Records, of which the first so many get their items, over vertices and into words, seven an item.
pub type PutItems = fn(&[u8], usize, &[Vec3], &mut [u32]) -> Result<(), u32>;

/// The items of lists of polygons, held to the reference's boxes, one by one. A made NaN is held as a NaN.
pub fn items(seed: u64, cases: u64, ours: PutItems) -> Line {
    let mut progress = Progress::new("items", cases);
    let (mut reached, mut mismatches, mut first) = ([0u64; 5], 0, None);
    let mut polygons = Polygons::new(seed);
    for done in 0..cases {
        if let Err(why) = polygons.list(ours, &mut reached) {
            mismatches += 1;
            first.get_or_insert(why);
        }
        if done % 1024 == 0 {
            progress.at(done);
        }
    }
    progress.end(mismatches);
    let [boxed, many, short, kind, nan] = reached;
    let lines = vec![
        format!("lists boxed: {boxed}; with a NaN among the vertices: {nan}"),
        format!("refused 1: {many}; 2: {short}; 6: {kind}"),
    ];
    Line { operation: "items".to_string(), cases, mismatches, smallest: first, reached: lines }
}

impl Polygons {
    fn list(&mut self, ours: PutItems, reached: &mut [u64; 5]) -> Result<(), String> {
        let r = &mut self.random;
        let n = if r.once_in(2_000) { r.pick(&[LIMIT, LIMIT + 1]) } else { r.below(20) };
        let count = if r.once_in(20) { 8 * n + r.below(40) } else { r.below(9) };
        let mut vertices = self.vertices(count.min(0x8000));
        if self.random.once_in(2) {
            vertices.iter_mut().flatten().filter(|x| x.is_nan()).for_each(|x| *x = -0.0);
        }
        reached[4] += vertices.iter().flatten().any(|x| x.is_nan()) as u64;
        let list: Vec<Polygon> = (0..n).map(|_| self.polygon(count)).collect();
        let mut records: Vec<u8> = list.iter().flat_map(|&p| reference::to_bytes(p)).collect();
        let (mut room, r) = (n, &mut self.random);
        match r.below(24) {
            0 => room = n.saturating_sub(1 + r.below(3)),
            1 => records.truncate(records.len().saturating_sub(1 + r.below(20))),
            2 if n > 0 && n <= LIMIT => records[plain::RECORD * r.below(n)] |= 7,
            3 => room += r.below(3),
            _ => {}
        }
        let kinds = records.iter().step_by(plain::RECORD).take(n);
        let expected = if n > LIMIT {
            Err(1)
        } else if records.len() < plain::RECORD * n || room < n {
            Err(2)
        } else if kinds.clone().any(|byte| byte % 8 > 4) {
            Err(6)
        } else {
            Ok(())
        };
        reached[expected.map_or_else(|number: u32| number.min(3) as usize, |_| 0)] += 1;
        let before: Vec<u32> = (0..7 * room as u32).map(|i| i.wrapping_mul(0x9E37_79B9) & 0x7F7F_FFFF).collect();
        let mut words = before.clone();
        let found = ours(&records, n, &vertices, &mut words);
        if found != expected {
            return Err(format!("items: {found:?}, expected {expected:?}"));
        }
        let written = if expected.is_ok() { 7 * n } else { 0 };
        if words[written..] != before[written..] {
            return Err("items: a word is changed that is none of theirs".to_string());
        }
        for (p, item) in list.iter().zip(words[..written].chunks_exact(7)) {
            let vector = |w: &[u32]| [w[0], w[1], w[2]].map(f32::from_bits);
            let (b, e) = (Aabb { min: vector(&item[1..]), max: vector(&item[4..]) }, reference::bbox(*p, &vertices));
            if item[0] != 1 || corners(*p, b) != corners(*p, e) {
                return Err(format!("items: {b:?}, expected {e:?}\n  {p:?} over {vertices:?}"));
            }
        }
        Ok(())
    }
}

#[cfg(test)]
mod tests {
    use super::*;

    fn left_out(test: &str) -> bool {
        oracle::missing().inspect(|why| eprintln!("{test} is left out: {why}")).is_some()
    }

    #[test]
    fn polygons_match_and_every_kind_is_reached() {
        if left_out("polygons_match_and_every_kind_is_reached") {
            return;
        }
        for sides in [crate::proved::POLYGON, PLAIN] {
            let line = run(1, 50_000, &sides);
            assert_eq!((line.mismatches, line.smallest), (0, None));
            assert!(line.reached.iter().all(|what| !what.contains(": 0")), "{:?}", line.reached);
        }
    }

    #[test]
    fn items_match_and_a_wrong_one_is_found() {
        if left_out("items_match_and_a_wrong_one_is_found") {
            return;
        }
        let line = items(1, 20_000, crate::proved::items);
        assert_eq!((line.mismatches, line.smallest), (0, None));
        assert!(line.reached.iter().all(|what| !what.contains(": 0")), "{:?}", line.reached);
        let swapped: PutItems = |records, n, vertices, words| {
            crate::proved::items(records, n, vertices, words)?;
            words[..7 * n].chunks_exact_mut(7).for_each(|item| item.swap(3, 6));
            Ok(())
        };
        assert!(items(2, 2_000, swapped).mismatches > 0);
    }

    #[test]
    fn wrong_polygons_are_found() {
        if left_out("wrong_polygons_are_found") {
            return;
        }
        let no_mask = |p: Polygon, vertices: &[Vec3]| match p {
            Polygon::Triangle { v, .. } => {
                plain::bbox(Polygon::Box { material: 0, i: [v[0], v[0], v[1], v[2]].map(|n| n as i16) }, vertices)
            }
            _ => plain::bbox(p, vertices),
        };
        let misplaced = |out: &mut [u8], p: Polygon| {
            plain::write(out, p)?;
            if let Polygon::Capsule { .. } = p {
                out.copy_within(8..10, 6);
            }
            Ok(())
        };
        let any_kind = |bytes: &[u8]| match plain::read(bytes) {
            Err(6) => Ok(Polygon::Box { material: 0, i: [0; 4] }),
            answer => answer,
        };
        for wrong in
            [Sides { bbox: no_mask, ..PLAIN }, Sides { write: misplaced, ..PLAIN }, Sides { read: any_kind, ..PLAIN }]
        {
            assert!(run(2, 5_000, &wrong).mismatches > 0);
        }
    }
}
