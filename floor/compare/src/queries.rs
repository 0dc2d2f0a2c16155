//! Lists of boxes and queries over them, for builds and walks together: some seven of ten lists within the premises, many
//! at their edge.

use crate::lists::{Case, Lists, Style, STYLES};
use crate::random::Random;
use bounds::{BvhItem, Vec3};
use oracle::Aabb;

plain::listed! {
    /// Sorts of lists that [`Lists`] has not.
    enum Edge in EDGES {
        /// A few floats apart, far from 0.
        Near,
        /// Small multiples of a unit around 2^-100: half extents at the least that is allowed, and below; or of 2^-130.
        Fine,
        /// Up to 2^100, now and then just above.
        Huge,
        /// Of any size from the least subnormal up.
        Mixed,
        /// Points, and flat boxes: no extent on some axes.
        Flat,
    }
}

/// The query that meets all.
pub const EVERYWHERE: Aabb = {
    const FAR: f32 = f32::INFINITY;
    Aabb { min: Vec3 { x: -FAR, y: -FAR, z: -FAR }, max: Vec3 { x: FAR, y: FAR, z: FAR } }
};

/// Random lists, and random queries over them.
pub struct Queries {
    random: Random,
    lists: Lists,
}

impl Queries {
    pub fn new(seed: u64) -> Queries {
        Queries { random: Random::new(seed ^ 0x9A12), lists: Lists::new(seed) }
    }

    /// A list and a threshold; buffers as long as they have to be. Most lists are small; one in 25 has over 64 entries
    /// and may have a split tree, one in 2,500 up to some thousands, one in 50,000 any number.
    pub fn case(&mut self) -> Case {
        let n = self.size();
        let mut items = if self.random.once_in(3) {
            let edge = self.random.pick(&EDGES);
            self.edge(n, edge)
        } else {
            let style = self.style(n);
            self.lists.items(n, style)
        };
        if !self.random.once_in(4) {
            items.iter_mut().for_each(|b| in_order(&mut b.min, &mut b.max));
        }
        let r = &mut self.random;
        if n > 0 && r.once_in(40) {
            let b = &mut items[r.below(n)];
            if b.present != 0 {
                let axis = r.below(3);
                (b.min[axis], b.max[axis]) = r.pick(&[
                    (f32::NEG_INFINITY, b.max[axis]),
                    (b.min[axis], f32::INFINITY),
                    (f32::NEG_INFINITY, f32::INFINITY),
                ]);
            }
        }
        let threshold = match r.below(20) {
            0 => r.pick(&[9, 16, 127, 1_000, 32_767]),
            1 => n.max(1) as u32,
            2..=7 => 1,
            _ => 1 + r.below(8) as u32,
        };
        Case::exact(items, threshold)
    }

    fn size(&mut self) -> usize {
        let r = &mut self.random;
        match r.below(50_000) {
            0 => r.below(32_768),
            1..=20 => r.below(4_000),
            21..=2_000 => r.below(300),
            2_001..=8_000 => r.below(70),
            _ => r.below(17),
        }
    }

    /// Ordinary ones more often. The reference takes long over deep trees.
    fn style(&mut self, n: usize) -> Style {
        let r = &mut self.random;
        let style =
            if r.once_in(2) { r.pick(&[Style::Tame, Style::Row, Style::Scaled, Style::Few]) } else { r.pick(&STYLES) };
        if style == Style::Deep && n > 800 {
            Style::Tame
        } else {
            style
        }
    }

    fn edge(&mut self, n: usize, edge: Edge) -> Vec<BvhItem> {
        let r = &mut self.random;
        let power = r.below(190) as i32 - 90;
        let base: [f32; 3] = match edge {
            Edge::Fine => std::array::from_fn(|_| 2f32.powi(r.pick(&[-100, -99, -99, -98, -98, -90, -101, -130]))),
            _ => std::array::from_fn(|_| float(r, power)),
        };
        let flat: [bool; 3] = std::array::from_fn(|_| r.once_in(2));
        let (absent, points) = (r.pick(&[0, 0, 0, 4]), r.once_in(2));
        let mut one = || {
            let mut corner = || Vec3::from(std::array::from_fn(|axis| coordinate(r, edge, base[axis])));
            let mut b = BvhItem::new(corner(), corner());
            if let Edge::Flat = edge {
                for axis in (0..3).filter(|&axis| flat[axis]) {
                    (b.min[axis], b.max[axis]) = (base[axis], base[axis]);
                }
                if points {
                    b.max = b.min;
                }
            }
            if absent == 0 || !r.once_in(absent) {
                b
            } else {
                BvhItem::ABSENT
            }
        };
        (0..n).map(|_| one()).collect()
    }

    /// A query over a list: around a box, at its face, a point, all, without end, inside out, between the boxes' own
    /// corners, anywhere, or with a NaN.
    pub fn query(&mut self, items: &[BvhItem]) -> Aabb {
        let (b, other) = (self.one_of(items), self.one_of(items));
        let r = &mut self.random;
        let axis = r.below(3);
        let mut query = b;
        match r.below(16) {
            0 => {}
            1 | 2 => {
                // Wider by a part of the box.
                for i in 0..3 {
                    let by = (b.max[i] - b.min[i]).abs() * r.pick(&[0.0, 0.001, 0.25, 3.0]);
                    (query.min[i], query.max[i]) = (b.min[i] - by, b.max[i] + by);
                }
            }
            3 => {
                (query.min[axis], query.max[axis]) = (b.max[axis], b.max[axis] + (other.max[axis] - b.min[axis]).abs())
            }
            4 => {
                (query.max[axis], query.min[axis]) = (b.min[axis], b.min[axis] - (other.max[axis] - b.min[axis]).abs())
            }
            5 => {
                // The next float beyond a face, or the last one before it.
                let [past, before] = [b.max[axis].next_up(), b.min[axis].next_down()];
                (query.min[axis], query.max[axis]) =
                    r.pick(&[(past, past), (before, before), (b.max[axis], past), (before, b.min[axis])]);
            }
            6 => query.max = b.min,
            7 => query.min = b.max,
            8 => query = EVERYWHERE,
            9 => {
                let mut end = |x: &mut f32, infinite: f32| {
                    if r.once_in(2) {
                        *x = infinite;
                    }
                };
                (0..3).for_each(|axis| end(&mut query.min[axis], f32::NEG_INFINITY));
                (0..3).for_each(|axis| end(&mut query.max[axis], f32::INFINITY));
            }
            10 => query = Aabb { min: b.max, max: b.min },
            11 => {
                let part = |axis: usize| b.min[axis] * 0.5 + b.max[axis] * 0.5;
                (query.min[axis], query.max[axis]) = (part(axis).next_up(), part(axis));
            }
            12 => query = Aabb { min: b.min, max: other.max },
            13 => {
                query = Aabb { min: b.min, max: other.min };
                in_order(&mut query.min, &mut query.max);
            }
            14 => {
                let corner = if r.once_in(2) { &mut query.min } else { &mut query.max };
                corner[axis] = f32::from_bits(r.hard());
            }
            _ => {
                let reach = r.pick(&[1.0, 100.0, 400.0, 1e30]);
                let mut at = || (2.0 * r.unit() - 1.0) * reach;
                let mut corner = || Vec3::from(std::array::from_fn(|_| at()));
                query = Aabb { min: corner(), max: corner() };
                in_order(&mut query.min, &mut query.max);
            }
        }
        if r.once_in(24) {
            let corner = if r.once_in(2) { &mut query.min } else { &mut query.max };
            corner[r.below(3)] = f32::NAN;
        }
        query
    }

    /// Places of the output, for so many items: now and then too few, or more.
    pub fn room(&mut self, items: usize) -> usize {
        let r = &mut self.random;
        match r.below(32) {
            0 => items.saturating_sub(1 + r.below(3)),
            1..=8 => items + r.below(4),
            _ => items,
        }
    }

    /// A present box, or, where the one that was chosen is absent, some other.
    fn one_of(&mut self, items: &[BvhItem]) -> Aabb {
        let any = if items.is_empty() { None } else { Some(&items[self.random.below(items.len())]) };
        let other = || items.iter().find(|item| item.present != 0);
        let unit = BvhItem::new(Vec3::ZERO, Vec3::new(1.0, 1.0, 1.0));
        let BvhItem { min, max, .. } = *any.filter(|item| item.present != 0).or_else(other).unwrap_or(&unit);
        Aabb { min, max }
    }
}

/// Exchanges the ends on each axis where they are the wrong way round.
fn in_order(min: &mut Vec3, max: &mut Vec3) {
    for axis in 0..3 {
        if min[axis] > max[axis] {
            std::mem::swap(&mut min[axis], &mut max[axis]);
        }
    }
}

/// Of about the size 2^power.
fn float(r: &mut Random, power: i32) -> f32 {
    (2.0 * r.unit() - 1.0) * 2f32.powi(power)
}

fn coordinate(r: &mut Random, edge: Edge, base: f32) -> f32 {
    let most = 2f32.powi(100);
    match edge {
        Edge::Near => (0..r.below(9)).fold(base, |x, _| x.next_up()),
        Edge::Fine => (r.below(5) as f32 - 2.0) * base,
        Edge::Huge => match r.below(300) {
            0 => most.next_up(),
            1..=90 => r.pick(&[most, -most, most.next_down(), 0.0]),
            _ => float(r, 100),
        },
        Edge::Mixed => {
            let power = r.below(249) as i32 - 149;
            r.pick(&[1.0, -1.0, 1.5]) * 2f32.powi(power).min(most * 0.5)
        }
        Edge::Flat => base + float(r, 3),
    }
}

#[cfg(test)]
mod tests {
    use super::*;
    use crate::promises::without_nan;
    use plain::premises::broken;
    use plain::walk::meets;

    #[test]
    fn lists_within_the_premises_and_outside_are_frequent() {
        let mut queries = Queries::new(1);
        let (mut within, mut outside, mut ones, mut long) = (0, [0; 5], 0, 0);
        for _ in 0..20_000 {
            let case = queries.case();
            match broken(&case.items) {
                None => within += 1,
                Some(premise) => outside[premise as usize] += 1,
            }
            ones += (case.threshold == 1) as usize;
            long += (case.items.len() > 64) as usize;
        }
        println!("within {within}, outside {outside:?}, threshold 1 {ones}, over 64 entries {long}");
        assert!(within > 10_000 && outside.iter().all(|&n| n > 200), "{within} {outside:?}");
        assert!(ones > 5_000 && long > 300, "{ones} {long}");
    }

    #[test]
    fn queries_of_every_sort_are_frequent() {
        let mut queries = Queries::new(1);
        let cube = |i: u8| BvhItem::new([i as f32; 3].into(), [i as f32 + 0.5; 3].into());
        let items: Vec<_> = (0..9).map(cube).collect();
        let (mut nan, mut infinite, mut inside_out, mut touching, mut meeting) = (0, 0, 0, 0, 0);
        for _ in 0..10_000 {
            let query = queries.query(&items);
            nan += !without_nan(&query) as usize;
            infinite += (0..3).any(|axis| query.min[axis].is_infinite() || query.max[axis].is_infinite()) as usize;
            inside_out += (0..3).any(|axis| query.min[axis] > query.max[axis]) as usize;
            let touches =
                |b: &BvhItem| (0..3).any(|axis| query.min[axis] == b.max[axis] || query.max[axis] == b.min[axis]);
            let mut met = items.iter().filter(|b| meets(b, query.min, query.max)).peekable();
            meeting += met.peek().is_some() as usize;
            touching += met.any(touches) as usize;
        }
        let reached = [nan, infinite, inside_out, touching, meeting];
        println!("NaN, infinite, inside out, touching, meeting: {reached:?}");
        assert!(reached.iter().all(|&n| n > 300), "{reached:?}");
    }
}
