//! A server's loop: wheels that drive over a terrain, and ask in turn which polygons are at their place.

use crate::prepare::grid;
use crate::subjects::{Kind, Pass, Queries, Side, Subject, Work};
use crate::walks::{brute_force, BY_FORCE};
use bounds::prepare::PolygonPlace;
use bounds::tree::{Addresses, Found, TreeBytes};
use bounds::PreparedTree;
use compare::random::Random;
use oracle::Aabb;
use std::hint::black_box;
use std::rc::Rc;

/// Of one pass.
const QUERIES: usize = 100_000;

const WHEELS: usize = 16;

pub fn all() -> Vec<Subject> {
    let work = |triangles, seed| serves(loaded(triangles), seed);
    vec![Subject { kind: Kind::Server, name: "server, terrain", sizes: &[3_040, 32_000], counted: &[], work }]
}

/// A terrain's tree as a server gets it: by the bytes of its files.
fn loaded(triangles: usize) -> PreparedTree {
    let tree = grid(triangles).prepare().expect("within the limits").bvh.expect("kind 8 with polygons");
    let header = tree.header(Addresses::default()).expect("few trees");
    let order: Vec<u8> = tree.order.iter().flat_map(|place| place.to_le_bytes()).collect();
    let bytes =
        TreeBytes { header: &header, node_bytes: &tree.node_bytes, tree_bytes: &tree.tree_bytes, order: &order };
    PreparedTree::read(&bytes, tree.boxes().to_vec()).expect("whole")
}

/// Each wheel stands somewhere in the box around all and drives on by 0.1; where it leaves it, it begins somewhere else. It
/// asks for a column: 0.7 long, 0.3 wide, as high as all. So does floor/bounds/examples/server.rs.
fn wheels(tree: &PreparedTree, seed: u64) -> Vec<Aabb> {
    let (min, max) = (tree.built.bb_min, tree.built.bb_max);
    let mut random = Random::new(seed);
    let mut between = |low: f32, high: f32| low + random.u32() as f32 / 4294967296.0 * (high - low);
    let mut at = [(f32::INFINITY, 0.0); WHEELS];
    let column = |i: usize| {
        let (x, y) = &mut at[i % WHEELS];
        *x += 0.1;
        if *x > max.x {
            (*x, *y) = (between(min.x, max.x), between(min.y, max.y));
        }
        Aabb { min: [*x - 0.35, *y - 0.15, min.z].into(), max: [*x + 0.35, *y + 0.15, max.z].into() }
    };
    (0..QUERIES).map(column).collect()
}

fn serves(tree: PreparedTree, seed: u64) -> Work {
    let (queries, tree) = (Rc::new(wheels(&tree, seed)), Rc::new(tree));
    let (mut met, mut handed, mut reads, mut found) = (0, 0, 0, Found::default());
    for query in queries.iter() {
        handed += tree.candidates_into(query.min, query.max, &mut found).len();
        met += tree.query_into(query.min, query.max, &mut found).len();
        reads += found.reads;
    }
    let mean = |sum: usize| sum as f64 / QUERIES as f64;
    let facts = Queries { trees: tree.trees().len(), met: mean(met), handed: mean(handed), reads: mean(reads) };
    let passes = vec![
        (Side::Library, asked(&tree, &queries, |tree, query, found| tree.candidates_into(query.min, query.max, found))),
        (Side::Filtered, asked(&tree, &queries, |tree, query, found| tree.query_into(query.min, query.max, found))),
        (Side::Force, forced(&tree, &queries)),
    ];
    Work { passes, units: QUERIES, queries: Some(facts) }
}

type Ask = for<'a> fn(&PreparedTree, &Aabb, &'a mut Found<PolygonPlace>) -> &'a [PolygonPlace];

/// All queries, into one buffer.
fn asked(tree: &Rc<PreparedTree>, queries: &Rc<Vec<Aabb>>, ask: Ask) -> Pass {
    let (tree, queries, mut found) = (Rc::clone(tree), Rc::clone(queries), Found::default());
    Box::new(move || {
        for query in queries.iter() {
            black_box(ask(black_box(&tree), query, &mut found));
        }
    })
}

/// The first queries, each held to what the tree finds before any is timed.
fn forced(tree: &Rc<PreparedTree>, queries: &Rc<Vec<Aabb>>) -> Pass {
    let (tree, queries, mut out) = (Rc::clone(tree), Rc::clone(queries), vec![0; tree.boxes().len()]);
    for query in &queries[..BY_FORCE] {
        let met = brute_force(tree.boxes(), query, &mut out);
        let mut found = tree.query(query.min, query.max);
        found.sort();
        assert!(out[..met].iter().map(|&place| PolygonPlace(place as usize)).eq(found), "what comparing all gives");
    }
    Box::new(move || {
        for query in &queries[..BY_FORCE] {
            black_box(brute_force(black_box(tree.boxes()), query, black_box(&mut out)));
        }
    })
}

#[cfg(test)]
mod tests {
    use super::*;

    #[test]
    fn wheels_stand_on_the_terrain_and_find_it() {
        let tree = loaded(200);
        let (min, max) = (tree.built.bb_min, tree.built.bb_max);
        let queries = wheels(&tree, 1);
        assert_eq!(queries.len(), QUERIES);
        let outside = |query: &&Aabb| {
            let (x, y) = (query.min.x + 0.35, query.min.y + 0.15);
            x < min.x - 0.01 || x > max.x + 0.01 || y < min.y - 0.01 || y > max.y + 0.01
        };
        assert_eq!(queries.iter().filter(outside).count(), 0);
        assert!(queries.iter().all(|query| !tree.query(query.min, query.max).is_empty()), "a terrain has no hole");
        let one = |i: usize| queries[i].min.x;
        let steps = (WHEELS..QUERIES).filter(|&i| (one(i) - one(i - WHEELS) - 0.1).abs() < 0.01).count();
        assert!(steps > QUERIES / 2, "each wheel drives on: {steps}");
    }

    #[test]
    fn the_work_is_counted() {
        let work = serves(loaded(200), 1);
        let facts = work.queries.expect("means of one query");
        assert!(facts.met >= 1.0 && facts.handed >= facts.met && facts.reads >= facts.trees as f64, "{}", facts.met);
        assert_eq!(work.passes.len(), 3);
    }
}
