//! Walks: over records that nobody built, and queries over trees that were. The library's walk over the library's
//! records, the plain Rust walk and the tuned one over the reference's; of queries also brute force.

use crate::lists::{spread, Tame};
use crate::subjects::{Kind, Pass, Queries, Side, Subject, Work};
use crate::tuned;
use bounds::tree::TreeRecords;
use bounds::BvhItem;
use compare::lists::Case;
use compare::pairs::{library, reference};
use compare::promises::over;
use compare::random::Random;
use compare::records::Records;
use compare::walks;
use oracle::Aabb;
use plain::walk::{Walk, Walked};
use std::hint::black_box;

pub const SYNTHETIC: &str = "synthetic, 8,000 leaves";

/// By how many boxes a query is to meet, about.
pub const QUERIES: [(&str, usize); 3] = [("queries, 1 met", 1), ("queries, 10 met", 10), ("queries, 100 met", 100)];

/// Queries of one pass: so many that the processor does not learn which way their branches go.
pub const A_PASS: usize = 1_024;

/// Of these, those that brute force is timed on, which has no such branches and takes long.
pub const BY_FORCE: usize = 64;

pub fn all() -> Vec<Subject> {
    let set = |name, sizes, counted, work| Subject { kind: Kind::Walk, name, sizes, counted, work };
    let [one, ten, hundred] = QUERIES.map(|(name, _)| name);
    let boxes = &[1_000, 4_000, 10_000, 32_767];
    vec![
        set(SYNTHETIC, &[10_000, 100_000, 1_000_000], &[100_000], synthetic),
        set(one, boxes, &[32_767], |n, seed| queries(n, 1, seed)),
        set(ten, boxes, &[4_000, 32_767], |n, seed| queries(n, 10, seed)),
        set(hundred, boxes, &[32_767], |n, seed| queries(n, 100, seed)),
    ]
}

/// Queries over one tree of 8,000 leaves, until they have read about so many records.
fn synthetic(reads: usize, seed: u64) -> Work {
    let tree = Records::new(seed).whole(8_000);
    let mut tame = Tame(Random::new(seed));
    let mut out = vec![0; tree.items_count];
    let (mut boxes, mut sum) = (Vec::new(), 0);
    while sum < reads {
        let min = tame.floats().map(|x| x * 0.75);
        let query = Aabb { min: min.into(), max: min.map(|low| low + tame.float().abs() / 5.0).into() };
        sum += over(&tree, query).run(&mut out).reads;
        boxes.push(query);
    }
    Work { passes: passes(&tree, &tree, &boxes), units: sum, queries: None }
}

/// Queries over a tree of spread boxes at threshold 4.
fn queries(boxes: usize, meeting: usize, seed: u64) -> Work {
    let list = spread(boxes, seed);
    let case = Case::exact(list.clone(), 4);
    let (ours, theirs) = (library(&case, seed).expect("a tree"), reference(&case).expect("a tree"));
    let queries = cubes(boxes, meeting, seed);
    let (mut met, mut handed, mut reads) = (0, 0, 0);
    let mut out = vec![0; boxes];
    for &query in &queries {
        let walked = walks::proved(&ours.walk(query), &mut out);
        assert_eq!(walked, theirs.walk(query).run(&mut out), "the same walk");
        met += brute_force(&list, &query, &mut out);
        (handed, reads) = (handed + walked.handed, reads + walked.reads);
    }
    let mean = |sum: usize| sum as f64 / A_PASS as f64;
    let facts = Queries {
        trees: ours.records.built.trees_count as usize,
        met: mean(met),
        handed: mean(handed),
        reads: mean(reads),
    };
    let mut passes = passes(&ours.records, &theirs.records, &queries);
    let few = queries[..BY_FORCE].to_vec();
    let force = move || {
        for query in &few {
            black_box(brute_force(black_box(&list), query, black_box(&mut out)));
        }
    };
    passes.push((Side::Force, Box::new(force)));
    Work { passes, units: reads, queries: Some(facts) }
}

/// All walks of these queries, the tuned one where it is there.
fn passes(ours: &TreeRecords, theirs: &TreeRecords, queries: &[Aabb]) -> Vec<(Side, Pass)> {
    let mut passes: Vec<(Side, Pass)> = vec![
        (Side::Library, pass(ours, queries, walks::proved)),
        (Side::Plain, pass(theirs, queries, |walk, out| walk.run(out))),
    ];
    passes.extend(tuned::WALK.map(|walk| (Side::Tuned, pass(theirs, queries, walk))));
    passes
}

fn pass(tree: &TreeRecords, queries: &[Aabb], walk: fn(&Walk, &mut [u16]) -> Walked) -> Pass {
    let (tree, queries, mut out) = (tree.clone(), queries.to_vec(), vec![0; tree.items_count]);
    Box::new(move || {
        for &query in &queries {
            black_box(walk(&over(&tree, query), black_box(&mut out)));
        }
    })
}

/// Hands out the places of the boxes that meet, and answers how many. Without a branch, which would be guessed wrong often.
pub fn brute_force(list: &[BvhItem], query: &Aabb, out: &mut [u16]) -> usize {
    let mut handed = 0;
    for (place, b) in list.iter().enumerate() {
        let on = |axis: usize| (b.min[axis] <= query.max[axis]) & (query.min[axis] <= b.max[axis]);
        out[handed] = place as u16;
        handed += (on(0) & on(1) & on(2)) as usize;
    }
    handed
}

/// Cubes around points among the boxes, which are spread over 400 on each axis and 5 wide on average.
fn cubes(boxes: usize, meeting: usize, seed: u64) -> Vec<Aabb> {
    let wide = (400.0 * (meeting as f32 / boxes as f32).cbrt() - 5.0).max(0.0);
    let mut tame = Tame(Random::new(seed ^ 0x0DD));
    let mut cube = || {
        let middle = tame.floats().map(|x| x / 200.0);
        let moved = |by: f32| middle.map(|x| x + by).into();
        Aabb { min: moved(-(wide / 2.0)), max: moved(wide / 2.0) }
    };
    (0..A_PASS).map(|_| cube()).collect()
}

#[cfg(test)]
mod tests {
    use super::*;

    #[test]
    fn brute_force_hands_out_what_meets() {
        let at = |x: f32| BvhItem::new([x; 3].into(), [x + 1.0; 3].into());
        let (query, mut out) = (Aabb { min: [1.0; 3].into(), max: [2.0; 3].into() }, [7; 3]);
        assert_eq!(brute_force(&[at(0.0), at(5.0), at(1.0)], &query, &mut out), 2);
        assert_eq!(out[..2], [0, 2]);
    }

    #[test]
    fn queries_meet_about_as_many_as_asked() {
        let list = spread(4_000, 1);
        for (_, meeting) in QUERIES {
            let all = cubes(4_000, meeting, 1);
            let met: usize = all.iter().map(|q| brute_force(&list, q, &mut vec![0; 4_000])).sum();
            let mean = met as f32 / all.len() as f32;
            assert!(mean > 0.4 * meeting as f32 && mean < 2.5 * meeting as f32, "{meeting}: {mean}");
        }
    }
}
