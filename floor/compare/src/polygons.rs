//! Polygon records read and written, and boxes of polygons: one side's answers held to the reference's.

use crate::inputs::{Input, Inputs};
use crate::lent::Lent;
use crate::operation::made;
use crate::random::Random;
use crate::report::{shown, Cases, Line, Refusals};
use bounds::{BvhItem, Polygon, Refusal, Vec3};
use oracle::polygon::{self as reference, LIMIT};
use oracle::Aabb;
use plain::polygon as plain;

/// What is compared.
pub struct Sides {
    pub read: fn(&[u8]) -> Result<Polygon, Refusal>,
    pub write: fn(&mut [u8], Polygon) -> Result<(), Refusal>,
    pub bbox: fn(Polygon, &[Vec3]) -> Aabb,
}

pub const PLAIN: Sides = Sides { read: plain::read, write: plain::write, bbox };

/// The plain box.
fn bbox(polygon: Polygon, vertices: &[Vec3]) -> Aabb {
    let stands = |number: usize| vertices.get(number).map_or([0.0; 3], |&v| v.into());
    let [a, b, c, d, e, f] = plain::bbox(&polygon, stands);
    Aabb { min: Vec3::new(a, b, c), max: Vec3::new(d, e, f) }
}

/// A record to read, and a polygon to write into so many bytes and to take the box of.
#[derive(Clone, Debug)]
pub struct Case {
    pub record: Vec<u8>,
    pub polygon: Polygon,
    pub room: usize,
    pub vertices: Vec<Vec3>,
}

/// Random cases.
pub struct Polygons {
    random: Random,
    inputs: Inputs,
}

impl Polygons {
    pub fn new(seed: u64) -> Polygons {
        Polygons { random: Random::new(seed), inputs: Inputs::new(seed) }
    }

    pub fn case(&mut self) -> Case {
        let count = match self.random.below(1_000) {
            0 => self.random.pick(&[32_767, 32_768]),
            _ => self.random.below(9),
        };
        let vertices = self.vertices(count);
        let r = &mut self.random;
        let room = r.pick(&[16, 16, 16, 16, 16, 16, 17, 33, 15, 0]);
        let len = r.pick(&[16, 16, 16, 16, 16, 16, 17, 40, 15, 0]);
        let mut record: Vec<u8> = (0..len).map(|_| r.u32() as u8).collect();
        if let (Some(first), false) = (record.first_mut(), r.once_in(4)) {
            // The five kinds mostly, with any bits above them.
            *first = *first & 0xF8 | r.below(5) as u8;
        }
        let polygon = self.polygon(count);
        Case { record, polygon, room, vertices }
    }

    /// Of the same few floats, so that coordinates are equal now and then.
    fn vertices(&mut self, count: usize) -> Vec<Vec3> {
        let mut words = [0; 12];
        self.inputs.fill(&[Input::Float; 12], &mut words);
        let mut float = || f32::from_bits(self.random.pick(&words));
        (0..count).map(|_| std::array::from_fn(|_| float()).into()).collect()
    }

    fn polygon(&mut self, vertices: usize) -> Polygon {
        let mut float = [0];
        self.inputs.fill(&[Input::Float], &mut float);
        let float = f32::from_bits(float[0]);
        let r = &mut self.random;
        let mut number = || match r.below(8) {
            0 => r.pick(&[0, 0x7FFF, 0x8000, 0x8001, 0xFFFF, vertices as u16]),
            1 => r.u32() as u16,
            2 => r.below(vertices + 2) as u16 | 0x8000,
            _ => r.below(vertices + 2) as u16,
        };
        let (i, material) = ([number(), number(), number(), number()], number() as u8);
        let [i1, i2, ..] = i;
        match self.random.below(5) {
            0 => {
                let edges = std::array::from_fn(|_| self.random.u32() as i16);
                Polygon::Triangle { material, area: float, v: [i[0], i[1], i[2]], edges }
            }
            1 => Polygon::Sphere { material, index: i1, radius: float },
            2 => Polygon::Capsule { material, i1, i2, radius: float },
            3 => Polygon::Box { material, i: i.map(|n| n as i16) },
            _ => Polygon::Cylinder { material, i1, i2, radius: float },
        }
    }
}

/// Each number of a polygon, floats by their bits; the material is not in a record.
fn numbers(p: Polygon) -> [u32; 8] {
    let signed = |n: i16| n as u16 as u32;
    match p {
        Polygon::Triangle { area, v, edges, .. } => {
            let ([a, b, c], [d, e, f]) = (v.map(u32::from), edges.map(signed));
            [0, area.to_bits(), a, b, c, d, e, f]
        }
        Polygon::Sphere { index, radius, .. } => [1, radius.to_bits(), index.into(), 0, 0, 0, 0, 0],
        Polygon::Capsule { i1, i2, radius, .. } => [2, radius.to_bits(), i1.into(), i2.into(), 0, 0, 0, 0],
        Polygon::Box { i, .. } => {
            let [a, b, c, d] = i.map(signed);
            [3, 0, a, b, c, d, 0, 0]
        }
        Polygon::Cylinder { i1, i2, radius, .. } => [4, radius.to_bits(), i1.into(), i2.into(), 0, 0, 0, 0],
    }
}

/// Corners that were copied have their bits; those that arithmetic made, a NaN as a NaN.
fn corners(p: Polygon, b: Aabb) -> [u32; 6] {
    let copied = matches!(p, Polygon::Triangle { .. } | Polygon::Box { .. });
    let word = if copied { f32::to_bits } else { made };
    [b.min.x, b.min.y, b.min.z, b.max.x, b.max.y, b.max.z].map(word)
}

/// `cases` of each: a record read, a polygon written, a box taken.
pub fn run(seed: u64, cases: u64, ours: &Sides) -> Line {
    let (mut kinds, mut refused, mut short) = ([0u64; 5], Refusals::default(), 0);
    let mut polygons = Polygons::new(seed);
    let asked = |case: &Case, done: u64| {
        let read = reference::read(&case.record);
        refused.note(&read);
        read.iter().for_each(|&p| kinds[numbers(p)[0] as usize] += 1);
        short += (case.room < plain::RECORD) as u64;
        differs(case, read, ours, seed ^ done << 20)
    };
    let size = |case: &Case| case.vertices.len();
    let line = Cases::new("polygon", cases, Vec::new()).compared(|_| polygons.case(), asked, size, shown);
    let names = ["triangles", "spheres", "capsules", "boxes", "cylinders"];
    let mut lines: Vec<String> = names.iter().zip(kinds).map(|(name, n)| format!("read as {name}: {n}")).collect();
    lines.push(format!("refused 5: {}; 6: {}; written into too few bytes, 2: {short}", refused.of(5), refused.of(6)));
    line.reaching(lines)
}

fn differs(case: &Case, read: Result<Polygon, Refusal>, ours: &Sides, seed: u64) -> Result<(), String> {
    let answer = (ours.read)(&case.record);
    if answer.map(numbers) != read.map(numbers) {
        return Err(format!("read: {answer:?}, expected {read:?}"));
    }
    let mut out = Lent::<u8>::new(case.room, seed);
    let written = (ours.write)(out.buffer(), case.polygon);
    let (expected, bytes) = match case.room < plain::RECORD {
        true => (Err(Refusal::BufferTooShort), Vec::new()),
        false => (Ok(()), reference::to_bytes(case.polygon).to_vec()),
    };
    if written != expected {
        return Err(format!("write: {written:?}, expected {expected:?}"));
    }
    out.check(&bytes).map_err(|why| format!("write: {why}"))?;
    let (found, expected) = ((ours.bbox)(case.polygon, &case.vertices), reference::bbox(case.polygon, &case.vertices));
    if corners(case.polygon, found) != corners(case.polygon, expected) {
        return Err(format!("bbox: {found:?}, expected {expected:?}"));
    }
    Ok(())
}

/// Records, of which the first so many get their items, over vertices.
pub type PutItems = fn(&[u8], usize, &[Vec3], &mut [BvhItem]) -> Result<(), Refusal>;

/// A list of polygons as records, of which there may be too few or too many, and how many items are lent.
#[derive(Clone, Debug)]
pub struct ListCase {
    pub polygons: Vec<Polygon>,
    pub records: Vec<u8>,
    pub vertices: Vec<Vec3>,
    pub room: usize,
}

impl Polygons {
    fn list(&mut self) -> ListCase {
        let r = &mut self.random;
        let n = if r.once_in(2_000) { r.pick(&[LIMIT, LIMIT + 1]) } else { r.below(20) };
        let count = if r.once_in(20) { 8 * n + r.below(40) } else { r.below(9) };
        let mut vertices = self.vertices(count.min(0x8000));
        if self.random.once_in(2) {
            let number = |x: f32| if x.is_nan() { -0.0 } else { x };
            vertices.iter_mut().for_each(|v| *v = <[f32; 3]>::from(*v).map(number).into());
        }
        let polygons: Vec<Polygon> = (0..n).map(|_| self.polygon(count)).collect();
        let mut records: Vec<u8> = polygons.iter().flat_map(|&p| reference::to_bytes(p)).collect();
        let (mut room, r) = (n, &mut self.random);
        match r.below(24) {
            0 => room = n.saturating_sub(1 + r.below(3)),
            1 => records.truncate(records.len().saturating_sub(1 + r.below(20))),
            2 if n > 0 && n <= LIMIT => records[plain::RECORD * r.below(n)] |= 7,
            3 => room += r.below(3),
            _ => {}
        }
        ListCase { polygons, records, vertices, room }
    }
}

impl ListCase {
    fn refused(&self) -> Result<(), Refusal> {
        let n = self.polygons.len();
        if n > LIMIT {
            Err(Refusal::ListTooLong)
        } else if self.records.len() < plain::RECORD * n || self.room < n {
            Err(Refusal::BufferTooShort)
        } else if self.records.chunks(plain::RECORD).take(n).any(|record| plain::kind_at(record) > 4) {
            Err(Refusal::UnknownKind)
        } else {
            Ok(())
        }
    }

    fn has_nan(&self) -> bool {
        self.vertices.iter().any(|v| [v.x, v.y, v.z].iter().any(|x| x.is_nan()))
    }

    /// Held to the reference's boxes, one by one. A made NaN is held as a NaN.
    fn differs(&self, expected: Result<(), Refusal>, ours: PutItems) -> Result<(), String> {
        let number = |i: u32| f32::from_bits(i.wrapping_mul(0x9E37_79B9) & 0x7F7F_FFFF);
        let point = |i: u32| Vec3::from([i + 1, i + 2, i + 3].map(number));
        let before: Vec<BvhItem> =
            (0..self.room as u32).map(|i| BvhItem { present: i, min: point(7 * i), max: point(7 * i + 3) }).collect();
        let (n, mut items) = (self.polygons.len(), before.clone());
        let found = ours(&self.records, n, &self.vertices, &mut items);
        if found != expected {
            return Err(format!("items: {found:?}, expected {expected:?}"));
        }
        let written = if expected.is_ok() { n } else { 0 };
        if items[written..] != before[written..] {
            return Err("items: one is changed that is none of theirs".to_string());
        }
        for (&p, &BvhItem { present, min, max }) in self.polygons.iter().zip(&items[..written]) {
            let (b, e) = (Aabb { min, max }, reference::bbox(p, &self.vertices));
            if present != 1 || corners(p, b) != corners(p, e) {
                return Err(format!("items: {b:?}, expected {e:?}\n  {p:?}"));
            }
        }
        Ok(())
    }
}

/// The items of lists of polygons.
pub fn items(seed: u64, cases: u64, ours: PutItems) -> Line {
    let (mut reached, mut nan, mut polygons) = (Refusals::default(), 0, Polygons::new(seed));
    let asked = |case: &ListCase, _| {
        let expected = case.refused();
        reached.note(&expected);
        nan += case.has_nan() as u64;
        case.differs(expected, ours)
    };
    let size = |case: &ListCase| case.polygons.len();
    let line = Cases::new("items", cases, Vec::new()).compared(|_| polygons.list(), asked, size, shown);
    line.reaching(vec![
        format!("lists boxed: {}; with a NaN among the vertices: {nan}", reached.none()),
        format!("refused 1: {}; 2: {}; 6: {}", reached.of(1), reached.of(2), reached.of(6)),
    ])
}

#[cfg(test)]
mod tests {
    use super::*;
    use crate::report::needs_reference;

    #[test]
    fn polygons_match_and_every_kind_is_reached() {
        needs_reference!();
        for sides in [crate::proved::POLYGON, PLAIN] {
            run(1, 50_000, &sides).holds();
        }
    }

    #[test]
    fn items_match_and_a_wrong_one_is_found() {
        needs_reference!();
        items(1, 20_000, bounds::polygon_items).holds();
        let swapped: PutItems = |records, n, vertices, items| {
            bounds::polygon_items(records, n, vertices, items)?;
            items[..n].iter_mut().for_each(|item| std::mem::swap(&mut item.min.z, &mut item.max.z));
            Ok(())
        };
        assert!(items(2, 2_000, swapped).mismatches > 0);
    }

    #[test]
    fn wrong_polygons_are_found() {
        needs_reference!();
        let no_mask = |p: Polygon, vertices: &[Vec3]| match p {
            Polygon::Triangle { v, .. } => {
                bbox(Polygon::Box { material: 0, i: [v[0], v[0], v[1], v[2]].map(|n| n as i16) }, vertices)
            }
            _ => bbox(p, vertices),
        };
        let misplaced = |out: &mut [u8], p: Polygon| {
            plain::write(out, p)?;
            if let Polygon::Capsule { .. } = p {
                out.copy_within(8..10, 6);
            }
            Ok(())
        };
        let any_kind = |bytes: &[u8]| match plain::read(bytes) {
            Err(Refusal::UnknownKind) => Ok(Polygon::Box { material: 0, i: [0; 4] }),
            answer => answer,
        };
        for wrong in
            [Sides { bbox: no_mask, ..PLAIN }, Sides { write: misplaced, ..PLAIN }, Sides { read: any_kind, ..PLAIN }]
        {
            assert!(run(2, 5_000, &wrong).mismatches > 0);
        }
    }
}
