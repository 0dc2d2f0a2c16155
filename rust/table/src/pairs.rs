//! What the program `pairs` prints, by the reference's records and the plain Rust walk over them. Lists and queries come
//! from the formula of crates/pairs (draw, lists, queries).
use oracle::tree::{self, Built};
use oracle::walk::{Walk, Walked};
use oracle::{Aabb, Vec3};
use std::io::{self, Write};

const QUERIES: u32 = 16;

/// What the boxes of a list are like.
#[derive(Clone, Copy)]
struct Shape {
    entries: usize,
    /// Of how many entries one is absent; 0 for none.
    absent: u32,
    /// Least corners lie below the span on x and y and below the depth on z.
    span: u32,
    depth: u32,
    side: u32,
    grain: f32,
}

const fn shape(entries: usize, absent: u32, span: u32, depth: u32, side: u32, grain: f32) -> Shape {
    Shape { entries, absent, span, depth, side, grain }
}

const SHAPES: [Shape; 11] = [
    shape(0, 0, 50, 50, 10, 1.0),
    shape(1, 0, 50, 50, 10, 1.0),
    shape(2, 0, 50, 50, 10, 0.37),
    shape(5, 0, 200, 200, 90, 0.1),
    shape(64, 0, 1, 1, 1, 3.0),
    shape(65, 0, 8, 8, 1, 0.37),
    shape(65, 1, 50, 50, 10, 1.0),
    shape(200, 5, 100, 1, 9, 1.0),
    shape(700, 7, 1000, 200, 40, 0.1),
    shape(700, 0, 30, 30, 4, 1e20),
    shape(700, 2, 60_000, 3, 2_000, 1e-9),
];

/// Numbers by a linear congruence; the last one drawn.
#[derive(Clone, Copy)]
struct Draws(u32);

impl Draws {
    fn next(&mut self) -> u32 {
        self.0 = self.0.wrapping_mul(1_664_525).wrapping_add(1_013_904_223);
        self.0
    }

    fn below(&mut self, n: u32) -> u32 {
        upper(self.next(), n)
    }

    fn whole(&mut self, x: u32, y: u32, z: u32) -> Vec3 {
        [x, y, z].map(|n| self.below(n) as f32)
    }

    fn area(&mut self, shape: Shape) -> Aabb {
        let min = self.whole(shape.span, shape.span, shape.depth).map(|v| v - 100.0);
        let sides = self.whole(shape.side, shape.side, shape.side);
        let max: Vec3 = std::array::from_fn(|i| min[i] + sides[i]);
        Aabb { min: min.map(|v| v * shape.grain), max: max.map(|v| v * shape.grain) }
    }
}

fn upper(s: u32, n: u32) -> u32 {
    (s >> 16).checked_rem(n).unwrap_or(0)
}

/// The entries, each with whether it is present.
fn list(shape: Shape, draws: &mut Draws) -> Vec<(bool, Aabb)> {
    let entry = |_| {
        let mark = draws.next();
        (shape.absent == 0 || upper(mark, shape.absent) != 0, draws.area(shape))
    };
    (0..shape.entries).map(entry).collect()
}

fn query(k: u32, list: &[(bool, Aabb)], shape: Shape, mut draws: Draws) -> Aabb {
    let cube = |min: f32, max: f32| Aabb { min: [min; 3], max: [max; 3] };
    let (all, grain) = (f32::INFINITY, shape.grain);
    let mut near = || list.get(draws.below(list.len() as u32) as usize).map_or(cube(0.0, 0.0), |&(_, area)| area);
    match k {
        0 => cube(-all, all),
        1 => cube(all, -all),
        2 => cube(-all, 0.0),
        3 => cube(f32::NAN, f32::NAN),
        4 => cube(-1_000.0 * grain, 100_000.0 * grain),
        5 => cube(100_000.0 * grain, 200_000.0 * grain),
        6..=11 => {
            let Aabb { min, max } = near();
            let (min, max) = match k {
                6 => (min, max),
                7 => (max, max.map(|v| v + grain)),
                8 => (min.map(|v| v - grain), min),
                9 => (max, min),
                10 => (min, min),
                _ => (max, max),
            };
            Aabb { min, max }
        }
        _ => draws.area(shape),
    }
}

fn meets(a: Aabb, b: Aabb) -> bool {
    (0..3).all(|i| a.min[i] <= b.max[i] && b.min[i] <= a.max[i])
}

/// Counts over the queries of a list.
#[derive(Default)]
struct Tally {
    handed: usize,
    meeting: usize,
    reads: usize,
    missed: usize,
    twice: usize,
    failures: usize,
}

impl Tally {
    /// Holds a walk's answer against comparing every box.
    fn note(&mut self, walked: Walked, items: &[usize], list: &[(bool, Aabb)], query: Aabb, records: usize) {
        let times = |place: usize| items.iter().filter(|&&item| item == place).count();
        let meeting: Vec<usize> = (0..list.len()).filter(|&i| list[i].0 && meets(list[i].1, query)).collect();
        let missed = meeting.iter().filter(|&&i| times(i) == 0).count();
        let twice: usize = (0..list.len()).map(|i| times(i).saturating_sub(1)).sum();
        let stray = items.iter().any(|&i| !list.get(i).is_some_and(|e| e.0));
        self.handed += walked.handed;
        self.meeting += meeting.len();
        self.reads += walked.reads;
        self.missed += missed;
        self.twice += twice;
        self.failures += (walked.refusal != 0 || missed + twice > 0 || stray || walked.reads > records) as usize;
    }
}

fn walk(built: &Built, query: Aabb, item_count: usize, out: &mut [u16]) -> Walked {
    let xyz = |v: [f32; 4]| [v[0], v[1], v[2]];
    Walk {
        query,
        cen: xyz(built.cen),
        inverse: xyz(built.inverse),
        nodes: &built.node_bytes,
        node_count: built.nodes_count,
        trees: &built.tree_bytes,
        tree_count: built.trees.len(),
        item_count,
    }
    .run(out)
}

pub fn print(out: &mut impl Write) -> io::Result<()> {
    let mut failures = 0;
    for (number, shape) in SHAPES.into_iter().enumerate() {
        let mut draws = Draws(number as u32);
        draws.next();
        let list = list(shape, &mut draws);
        let items: Vec<Option<Aabb>> = list.iter().map(|&(present, area)| present.then_some(area)).collect();
        let present = items.iter().flatten().count();
        for threshold in [1, 4] {
            let built = tree::build(&items, threshold).map_err(|r| io::Error::other(format!("refused {}", r.0)))?;
            let (item_count, mut tally, mut draws) =
                (if threshold == 1 { list.len() } else { present }, Tally::default(), draws);
            let mut positions = vec![0; item_count];
            for k in 0..QUERIES {
                let query = query(k, &list, shape, draws);
                let walked = walk(&built, query, item_count, &mut positions);
                let item = |&p: &u16| if threshold == 1 { p as usize } else { built.order[p as usize] };
                let given: Vec<usize> = positions[..walked.handed].iter().map(item).collect();
                tally.note(walked, &given, &list, query, built.nodes_count + built.trees.len());
                (0..6).for_each(|_| {
                    draws.next();
                });
            }
            let Tally { handed, meeting, reads, missed, twice, .. } = tally;
            let (nodes, trees) = (built.nodes_count, built.trees.len());
            writeln!(
                out,
                "list {number} threshold {threshold} nodes {nodes} trees {trees} queries {QUERIES} handed {handed} \
                 meeting {meeting} reads {reads} missed {missed} twice {twice}"
            )?;
            failures += tally.failures;
        }
    }
    writeln!(out, "failures {failures}")
}

#[cfg(test)]
mod tests {
    #[test]
    fn the_program_must_print_this() {
        if oracle::missing().is_none() {
            let mut out = vec![];
            super::print(&mut out).expect("a vector takes every line");
            assert_eq!(String::from_utf8_lossy(&out), include_str!("../../../crates/pairs/stdout"));
        }
    }
}
