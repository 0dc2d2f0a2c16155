//! What the program `pairs` prints, by the reference's records and the plain Rust walk over them. Lists and queries come
//! from the formula of crates/pairs (draw, lists, queries).
use bounds::{BvhItem, Vec3};
use compare::promises::over;
use oracle::tree;
use oracle::Aabb;
use plain::walk::{meets, Walked};
use std::io::{self, Write};

const QUERIES: u32 = 16;

/// What the boxes of a list are like.
#[derive(Clone, Copy)]
struct Shape {
    entries: usize,
    /// Of how many entries one is absent; 0 for none.
    absent: u32,
    /// Least corners lie below the span on x and y and below the depth on z.
    span: u32,
    depth: u32,
    side: u32,
    grain: f32,
}

const fn shape(entries: usize, absent: u32, span: u32, depth: u32, side: u32, grain: f32) -> Shape {
    Shape { entries, absent, span, depth, side, grain }
}

const SHAPES: [Shape; 11] = [
    shape(0, 0, 50, 50, 10, 1.0),
    shape(1, 0, 50, 50, 10, 1.0),
    shape(2, 0, 50, 50, 10, 0.37),
    shape(5, 0, 200, 200, 90, 0.1),
    shape(64, 0, 1, 1, 1, 3.0),
    shape(65, 0, 8, 8, 1, 0.37),
    shape(65, 1, 50, 50, 10, 1.0),
    shape(200, 5, 100, 1, 9, 1.0),
    shape(700, 7, 1000, 200, 40, 0.1),
    shape(700, 0, 30, 30, 4, 1e20),
    shape(700, 2, 60_000, 3, 2_000, 1e-9),
];

/// Numbers by a linear congruence; the last one drawn.
#[derive(Clone, Copy)]
struct Draws(u32);

impl Draws {
    fn next(&mut self) -> u32 {
        self.0 = self.0.wrapping_mul(1_664_525).wrapping_add(1_013_904_223);
        self.0
    }

    fn below(&mut self, n: u32) -> u32 {
        upper(self.next(), n)
    }

    fn whole(&mut self, x: u32, y: u32, z: u32) -> [f32; 3] {
        [x, y, z].map(|n| self.below(n) as f32)
    }

    fn area(&mut self, shape: Shape) -> Aabb {
        let min = self.whole(shape.span, shape.span, shape.depth).map(|v| v - 100.0);
        let sides = self.whole(shape.side, shape.side, shape.side);
        let max: [f32; 3] = std::array::from_fn(|i| min[i] + sides[i]);
        Aabb { min: min.map(|v| v * shape.grain).into(), max: max.map(|v| v * shape.grain).into() }
    }
}

fn upper(s: u32, n: u32) -> u32 {
    (s >> 16).checked_rem(n).unwrap_or(0)
}

/// The entries; absent ones have a box too, near which queries are asked.
fn list(shape: Shape, draws: &mut Draws) -> Vec<BvhItem> {
    let entry = |_| {
        let mark = draws.next();
        let present = shape.absent == 0 || upper(mark, shape.absent) != 0;
        let Aabb { min, max } = draws.area(shape);
        BvhItem { present: present as u32, min, max }
    };
    (0..shape.entries).map(entry).collect()
}

fn query(k: u32, list: &[BvhItem], shape: Shape, mut draws: Draws) -> Aabb {
    let cube = |min: f32, max: f32| Aabb { min: [min; 3].into(), max: [max; 3].into() };
    let (all, grain) = (f32::INFINITY, shape.grain);
    let mut near = || {
        let drawn = list.get(draws.below(list.len() as u32) as usize);
        drawn.map_or(cube(0.0, 0.0), |&BvhItem { min, max, .. }| Aabb { min, max })
    };
    match k {
        0 => cube(-all, all),
        1 => cube(all, -all),
        2 => cube(-all, 0.0),
        3 => cube(f32::NAN, f32::NAN),
        4 => cube(-1_000.0 * grain, 100_000.0 * grain),
        5 => cube(100_000.0 * grain, 200_000.0 * grain),
        6..=11 => {
            let Aabb { min, max } = near();
            let (min, max) = match k {
                6 => (min, max),
                7 => (max, moved(max, grain)),
                8 => (moved(min, -grain), min),
                9 => (max, min),
                10 => (min, min),
                _ => (max, max),
            };
            Aabb { min, max }
        }
        _ => draws.area(shape),
    }
}

fn moved(v: Vec3, by: f32) -> Vec3 {
    <[f32; 3]>::from(v).map(|x| x + by).into()
}

/// Counts over the queries of a list.
#[derive(Default)]
struct Tally {
    handed: usize,
    meeting: usize,
    reads: usize,
    missed: usize,
    twice: usize,
    failures: usize,
}

impl Tally {
    /// Holds a walk's answer against comparing every box.
    fn note(&mut self, walked: Walked, items: &[usize], list: &[BvhItem], query: Aabb, records: usize) {
        let times = |place: usize| items.iter().filter(|&&item| item == place).count();
        let met = |item: &BvhItem| item.present != 0 && meets(item, query.min, query.max);
        let meeting: Vec<usize> = (0..list.len()).filter(|&i| met(&list[i])).collect();
        let missed = meeting.iter().filter(|&&i| times(i) == 0).count();
        let twice: usize = (0..list.len()).map(|i| times(i).saturating_sub(1)).sum();
        let stray = items.iter().any(|&i| list.get(i).is_none_or(|item| item.present == 0));
        self.handed += walked.handed;
        self.meeting += meeting.len();
        self.reads += walked.reads;
        self.missed += missed;
        self.twice += twice;
        self.failures += (walked.refusal != 0 || missed + twice > 0 || stray || walked.reads > records) as usize;
    }
}

pub fn print(out: &mut impl Write) -> io::Result<()> {
    let mut failures = 0;
    for (number, shape) in SHAPES.into_iter().enumerate() {
        let mut draws = Draws(number as u32);
        draws.next();
        let list = list(shape, &mut draws);
        for threshold in [1, 4] {
            let built = tree::build(&list, threshold).map_err(io::Error::other)?;
            let (nodes, trees) = (built.built.nodes_count as usize, built.built.trees_count as usize);
            let (mut tally, mut draws, mut positions) = (Tally::default(), draws, vec![0; built.items_count]);
            for k in 0..QUERIES {
                let query = query(k, &list, shape, draws);
                let walked = over(&built, query).run(&mut positions);
                let item = |&p: &u16| if threshold == 1 { p as usize } else { built.order[p as usize] as usize };
                let given: Vec<usize> = positions[..walked.handed].iter().map(item).collect();
                tally.note(walked, &given, &list, query, nodes + trees);
                (0..6).for_each(|_| {
                    draws.next();
                });
            }
            let Tally { handed, meeting, reads, missed, twice, .. } = tally;
            writeln!(
                out,
                "list {number} threshold {threshold} nodes {nodes} trees {trees} queries {QUERIES} handed {handed} \
                 meeting {meeting} reads {reads} missed {missed} twice {twice}"
            )?;
            failures += tally.failures;
        }
    }
    writeln!(out, "failures {failures}")
}

#[cfg(test)]
mod tests {
    #[test]
    fn the_program_must_print_this() {
        if oracle::missing().is_none() {
            let mut out = vec![];
            super::print(&mut out).expect("a vector takes every line");
            assert_eq!(String::from_utf8_lossy(&out), include_str!("../../../crates/pairs/stdout"));
        }
    }
}
