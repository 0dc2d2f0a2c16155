//! A build and walks over its records: the library's, held to what the pair promises, and compared with the plain Rust
//! walk over the reference's records.

use crate::build::{describe_list, shrink};
use crate::lent::Lent;
use crate::lists::Case;
use crate::promises::{delivered, well_formed, without_nan, Found, Tree};
use crate::queries::{Queries, EVERYWHERE};
use crate::report::{Cases, Line};
use bounds::bvh::{records_len, work_len};
use bounds::tree::TreeRecords;
use bounds::{build_bvh, Refusal};
use oracle::tree;
use oracle::Aabb;
use plain::premises::{broken, Broken};
use plain::walk::{Walk, Walked};
use std::cell::{OnceCell, RefCell};

/// Queries over each list.
const EACH: usize = 5;

/// What was reached; pairs are within the premises and outside them.
#[derive(Default)]
struct Reached {
    lists: u64,
    /// By the premise that they break.
    outside: [u64; 5],
    refused_builds: u64,
    split: u64,
    largest: u32,
    queries: [u64; 2],
    met: [u64; 2],
    handed: [u64; 2],
    missed: u64,
    short: u64,
    /// Lists with a promise broken, and with another answer.
    wrong: [u64; 2],
}

/// What can be wrong.
#[derive(Clone, Copy, Debug, PartialEq, Eq)]
enum Sort {
    Promise,
    Answer,
}

type Wrong = (Sort, String);

impl Reached {
    fn list(&mut self, tree: &Tree, broken: Option<Broken>) {
        match broken {
            None => self.lists += 1,
            Some(premise) => self.outside[premise as usize] += 1,
        }
        let built = &tree.records.built;
        self.split += (built.trees_count > 1) as u64;
        self.largest = self.largest.max(built.nodes_count);
    }

    fn walk(&mut self, within: bool, walked: Walked, found: Found) {
        let at = !within as usize;
        self.queries[at] += 1;
        self.met[at] += found.met as u64;
        self.handed[at] += walked.handed as u64;
        self.missed += found.missed as u64;
        self.short += (walked.refusal == 2) as u64;
    }

    fn lines(&self) -> Vec<String> {
        let Reached { queries, met, handed, .. } = self;
        let [nan, infinite, inside_out, large, small] = self.outside;
        let outside: u64 = self.outside.iter().sum();
        vec![
            format!("lists within the premises: {}; outside: {outside}", self.lists),
            format!("outside for a NaN: {nan}; infinite: {infinite}; inside out: {inside_out}"),
            format!("outside for a coordinate over 2^100: {large}; a half extent under 2^-100: {small}"),
            format!("refused builds: {}", self.refused_builds),
            format!("trees of more than one range: {}; largest: {} nodes", self.split, self.largest),
            format!("queries within the premises: {}; outside: {}", queries[0], queries[1]),
            format!("within: items that met: {}, all handed out; handed out in all: {}", met[0], handed[0]),
            format!(
                "outside: items that met: {}; of them missed: {}; handed out in all: {}",
                met[1], self.missed, handed[1]
            ),
            format!("walks refused 2: {}", self.short),
            format!("lists with a promise broken: {}; with another answer: {}", self.wrong[0], self.wrong[1]),
        ]
    }
}

/// A list, its trees by both builds, and where the items lie.
struct Pair<'a> {
    ours: Tree<'a>,
    theirs: Tree<'a>,
    leaves: Vec<Option<usize>>,
    broken: Option<Broken>,
}

impl Pair<'_> {
    /// Whether the premises hold, of the list and of a query.
    fn holds(&self, query: &Aabb) -> bool {
        self.broken.is_none() && without_nan(query)
    }
}

/// `cases` lists, each with several queries, by the library's build and by `walk`. A list counts as one mismatch.
pub fn run(seed: u64, cases: u64, walk: impl Fn(&Walk, &mut [u16]) -> Walked) -> Line {
    let (mut reached, queries) = (Reached::default(), RefCell::new(Queries::new(seed)));
    // Of the first list that is wrong: what was, with which query, and how much room its output had.
    let first = OnceCell::new();
    let asked = |case: &Case, done: u64| {
        let answer = asked(case, &mut queries.borrow_mut(), &walk, seed ^ done << 20, &mut reached);
        answer.map_err(|((sort, why), query, slack)| {
            reached.wrong[sort as usize] += 1;
            first.get_or_init(|| (sort, query, slack));
            why
        })
    };
    let shrunk = |case, why| {
        let &(sort, query, slack) = first.get().expect("a list is wrong");
        let wrong = |c: &Case| match pair(c, seed) {
            Ok(Some(pair)) => same(&pair, query, slack, &walk, seed).err(),
            Ok(None) => None,
            Err(wrong) => Some(wrong),
        };
        let small = shrink(case, |c| wrong(c).is_some_and(|(found, _)| found == sort));
        let why = wrong(&small).map_or(why, |(_, why)| why);
        format!("{why}\n  query {query:?}\n  {}", describe_list(&small))
    };
    let line = Cases::new("pair", cases, Vec::new()).compared(|_| queries.borrow_mut().case(), asked, |_| 0, shrunk);
    line.reaching(reached.lines())
}

/// `Err` with what is wrong, with which query, and how many places more or fewer than items its output had.
fn asked(
    case: &Case,
    queries: &mut Queries,
    walk: impl Fn(&Walk, &mut [u16]) -> Walked,
    seed: u64,
    reached: &mut Reached,
) -> Result<(), (Wrong, Aabb, isize)> {
    let Some(pair) = pair(case, seed).map_err(|wrong| (wrong, EVERYWHERE, 0))? else {
        reached.refused_builds += 1;
        return Ok(());
    };
    reached.list(&pair.ours, pair.broken);
    for number in 0..EACH {
        let query = queries.query(&case.items);
        let items = pair.ours.records.items_count;
        let slack = queries.room(items) as isize - items as isize;
        let (walked, found) =
            same(&pair, query, slack, &walk, seed ^ number as u64).map_err(|wrong| (wrong, query, slack))?;
        reached.walk(pair.holds(&query), walked, found);
    }
    Ok(())
}

/// Both builds, and that ours is well formed; `None` where both are refused.
fn pair(case: &Case, seed: u64) -> Result<Option<Pair<'_>>, Wrong> {
    let (ours, theirs) = match (library(case, seed), reference(case)) {
        (Ok(ours), Ok(theirs)) => (ours, theirs),
        (Err(ours), Err(theirs)) if ours == theirs => return Ok(None),
        (ours, theirs) => {
            return Err((Sort::Answer, format!("build: {:?}, expected {:?}", ours.map(drop), theirs.map(drop))))
        }
    };
    let leaves = well_formed(&ours).map_err(|why| (Sort::Promise, why))?;
    let broken = broken(&case.items);
    let found = bounds::ordinary(&case.items);
    if found.is_ok() != broken.is_none() {
        return Err((Sort::Answer, format!("premises: {found:?}, expected {broken:?}")));
    }
    Ok(Some(Pair { leaves, broken, ours, theirs }))
}

/// The library's tree, in buffers that held other bytes.
pub fn library(case: &Case, seed: u64) -> Result<Tree<'_>, Refusal> {
    let n = case.items.len();
    let behind = seed as u8 | 1;
    let (mut node_bytes, mut tree_bytes) = (vec![behind; records_len(n)], vec![behind; records_len(n)]);
    let (mut order, mut work) = (vec![0; n], vec![seed as u32; work_len(n)]);
    let built = build_bvh(&case.items, case.threshold, &mut node_bytes, &mut tree_bytes, &mut order, &mut work)?;
    order.truncate(built.items_count as usize);
    let items_count = if case.threshold == 1 { n } else { order.len() };
    let records = TreeRecords { built, node_bytes, tree_bytes, order, items_count };
    Ok(Tree { items: &case.items, threshold: case.threshold, records })
}

/// The reference's tree.
pub fn reference(case: &Case) -> Result<Tree<'_>, Refusal> {
    let records = tree::build(&case.items, case.threshold)?;
    Ok(Tree { items: &case.items, threshold: case.threshold, records })
}

/// Walks over both trees, with an output of so many places more or fewer than items. `Err` with a broken promise, or
/// with what is not the same.
fn same(
    pair: &Pair,
    query: Aabb,
    slack: isize,
    walk: impl Fn(&Walk, &mut [u16]) -> Walked,
    seed: u64,
) -> Result<(Walked, Found), Wrong> {
    let room = pair.ours.records.items_count.saturating_add_signed(slack);
    let mut out = Lent::<u16>::new(room, seed);
    let walked = walk(&pair.ours.walk(query), out.buffer());
    let within = pair.holds(&query);
    let found = delivered(&pair.ours, &pair.leaves, &query, walked, out.buffer(), within)
        .map_err(|why| (Sort::Promise, why))?;
    let mut expected = vec![0; room];
    let theirs = pair.theirs.walk(query).run(&mut expected);
    if walked != theirs {
        return Err((Sort::Answer, format!("{walked:?}, expected {theirs:?}")));
    }
    out.check(&expected[..theirs.handed]).map_err(|why| (Sort::Answer, why))?;
    Ok((walked, found))
}

#[cfg(test)]
mod tests {
    use super::*;
    use crate::report::needs_reference;
    use crate::walks::proved;
    use bounds::walk::Records;
    use bounds::{BvhItem, Vec3};
    use plain::walk::meets;

    fn found_in(seed: u64, cases: u64, walk: fn(&Walk, &mut [u16]) -> Walked) -> Line {
        oracle::on_large_stack(move || run(seed, cases, walk))
    }

    #[test]
    fn the_library_keeps_its_promises() {
        needs_reference!();
        found_in(1, 20_000, proved).same();
    }

    #[test]
    fn a_wrong_walk_is_found() {
        needs_reference!();
        let wrong: [fn(&Walk, &mut [u16]) -> Walked; 5] = [
            |walk, out| {
                let walked = walk.run(out);
                Walked { handed: walked.handed.saturating_sub(1), ..walked }
            },
            |walk, out| Walk { min: EVERYWHERE.min, max: EVERYWHERE.max, ..*walk }.run(out),
            |walk, out| {
                let walked = walk.run(out);
                if walked.handed > 1 {
                    out[0] = out[1];
                }
                walked
            },
            |walk, out| {
                let walked = walk.run(out);
                let reads =
                    if walked.refusal == 0 { walk.records.nodes_count + walk.records.trees_count + 1 } else { 0 };
                Walked { reads, ..walked }
            },
            |walk, out| Walked { refusal: 11, ..walk.run(out) },
        ];
        for walk in wrong {
            let line = found_in(2, 3_000, walk);
            assert!(line.mismatches > 0 && line.smallest.is_some());
            assert!(!line.reached.iter().any(|what| what.contains("promise broken: 0;")), "{:?}", line.reached);
        }
        // This one keeps the promises, and reads other records.
        let line = found_in(2, 3_000, from_node_0);
        assert!(line.mismatches > 0);
        assert!(line.reached.iter().any(|what| what.contains("promise broken: 0;")), "{:?}", line.reached);
    }

    /// The trap that the scope document names: all nodes as one range.
    fn from_node_0(walk: &Walk, out: &mut [u16]) -> Walked {
        let [from, to] = [0i16, walk.records.nodes_count as i16].map(i16::to_le_bytes);
        let tree = [&walk.records.node_bytes[..12], &from, &to].concat();
        Walk { records: Records { tree_bytes: &tree, trees_count: 1, ..walk.records }, ..*walk }.run(out)
    }

    fn point(x: f32) -> BvhItem {
        let at = Vec3::new(x, 0.0, 0.0);
        BvhItem::new(at, at)
    }

    /// Two points at 0 and at `x`: handed out for a query that is the first, by the library and by the plain walk over
    /// the reference's records.
    fn two_points(x: f32, threshold: u32) -> ([usize; 2], Option<Broken>) {
        let case = Case::exact(vec![point(0.0), point(x)], threshold);
        let pair = pair(&case, 7).expect("well formed").expect("built");
        let query = Aabb::default();
        assert!(meets(&point(0.0), query.min, query.max));
        let mut out = [777; 2];
        let ours = proved(&pair.ours.walk(query), &mut out);
        let theirs = pair.theirs.walk(query).run(&mut out);
        assert_eq!((ours.refusal, theirs.refusal), (0, 0));
        same(&pair, query, 0, proved, 1).expect("nothing is promised that is not kept");
        ([ours.handed, theirs.handed], pair.broken)
    }

    #[test]
    fn outside_the_premises_an_item_is_missed() {
        needs_reference!();
        let case = Case::exact(vec![point(0.0), point(2f32.powi(-130))], 1);
        let tree = library(&case, 1).expect("built");
        assert_eq!(tree.records.built.quantum_inverse.x, f32::INFINITY);
        assert_eq!(two_points(2f32.powi(-130), 1), ([0, 0], Some(Broken::Small)));
        assert_eq!(two_points(2f32.powi(-130), 2), ([0, 0], Some(Broken::Small)));
        assert_eq!(two_points(2f32.powi(-99), 1), ([1, 1], None), "a half extent of 2^-100");
        assert_eq!(two_points(2f32.powi(-99), 2), ([2, 2], None), "with all of its leaf");
    }
}
