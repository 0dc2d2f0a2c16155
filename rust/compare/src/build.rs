//! `build_bvh`: the same lists to the proved library and to the reference, and every value, byte and refusal compared.

use crate::lent::Lent;
use crate::lists::{fixed, Case, Lists};
use crate::operation::made;
use crate::report::{Line, Progress};
use bounds::bvh::{records_len, work_len};
use bounds::{build_bvh, BuiltTree, BvhItem, Vec3};
use oracle::tree::{self, Built};
use oracle::Aabb;

/// What was answered: how often each refusal, how many trees, and the deepest of them.
#[derive(Default)]
pub struct Reached {
    refusals: [u64; 5],
    long: u64,
    nodes: usize,
    levels: usize,
}

impl Reached {
    fn note(&mut self, case: &Case, answer: &Result<Built, u32>) {
        match answer {
            Err(number) => self.refusals[*number as usize] += 1,
            Ok(built) => {
                self.refusals[0] += 1;
                self.nodes = self.nodes.max(built.nodes_count);
                if case.items.len() > 500 {
                    self.levels = self.levels.max(levels(built));
                }
            }
        }
        self.long += (case.items.len() > 1_000) as u64;
    }

    fn lines(&self) -> Vec<String> {
        let refused = (1..5).map(|number| format!("refused {number}: {}", self.refusals[number]));
        let built = format!("built: {}", self.refusals[0]);
        let most = format!("lists of over 1,000 entries: {}", self.long);
        let deepest = format!("largest tree: {} nodes; deepest: {} levels", self.nodes, self.levels);
        refused.chain([built, most, deepest]).collect()
    }
}

/// Levels below the root, of preorder records.
fn levels(built: &Built) -> usize {
    let mut ends: Vec<usize> = Vec::new();
    let mut deepest = 0;
    for (at, node) in built.nodes[..built.nodes_count].iter().enumerate() {
        while ends.last().is_some_and(|&end| end <= at) {
            ends.pop();
        }
        deepest = deepest.max(ends.len());
        if node.item_count == 0 {
            ends.push(at + node.item_id as usize);
        }
    }
    deepest
}

/// The fixed lists, then random ones up to `cases` in all.
pub fn run(seed: u64, cases: u64) -> Line {
    let fixed = fixed();
    let total = cases.max(fixed.len() as u64);
    let mut progress = Progress::new("build", total);
    let (mut reached, mut mismatches, mut first) = (Reached::default(), 0, None);
    let mut ask = |case: Case, lent: u64| {
        let theirs = expected(&case);
        reached.note(&case, &theirs);
        if differs(&case, &theirs, lent).is_err() {
            mismatches += 1;
            first.get_or_insert(case);
        }
    };
    let already = fixed.len() as u64;
    for case in fixed {
        ask(case, seed);
    }
    let mut lists = Lists::new(seed);
    for done in already..total {
        ask(lists.case(), seed ^ done << 20);
        if done % 256 == 0 {
            progress.at(done);
        }
    }
    progress.end(mismatches);
    let smallest = first.map(|case| describe(&shrink(case, |c| differs(c, &expected(c), seed).is_err()), seed));
    Line { operation: "build".to_string(), cases: total, mismatches, smallest, reached: reached.lines() }
}

/// Bytes, bytes, places and words that the buffers have to have.
pub(crate) fn needed(entries: usize) -> [usize; 4] {
    [records_len(entries), records_len(entries), entries, work_len(entries)]
}

fn lengths(case: &Case) -> [usize; 4] {
    let needed = needed(case.items.len());
    std::array::from_fn(|i| needed[i].saturating_add_signed(case.slack[i]))
}

/// The reference's answer, and refusal 2, which it has not: after 1 and 3, before 4.
fn expected(case: &Case) -> Result<Built, u32> {
    let n = case.items.len();
    let short = lengths(case).iter().zip(needed(n)).any(|(&lent, needed)| lent < needed);
    let later = n > tree::LIMIT || !(1..=tree::LIMIT as u32).contains(&case.threshold);
    if short && !later {
        return Err(2);
    }
    tree::build(&case.items, case.threshold as usize).map_err(|refused| refused.0 as u32)
}

/// `Err` with the first thing that is not the same.
fn differs(case: &Case, theirs: &Result<Built, u32>, seed: u64) -> Result<(), String> {
    let [nodes, trees, order, work] = lengths(case);
    let mut nodes = Lent::<u8>::new(nodes, seed);
    let mut trees = Lent::<u8>::new(trees, seed ^ 1);
    let mut order = Lent::<u16>::new(order, seed ^ 2);
    let mut work = Lent::<u32>::new(work, seed ^ 3);
    let items: Vec<BvhItem> = case.items.iter().copied().map(ours).collect();
    let (n, t, o, w) = (nodes.buffer(), trees.buffer(), order.buffer(), work.buffer());
    let answer = build_bvh(&items, case.threshold, n, t, o, w);
    work.check_guards().map_err(|e| format!("work buffer: {e}"))?;
    let (node_bytes, tree_bytes, places): (&[u8], &[u8], Vec<u16>) = match (&answer, theirs) {
        (Ok(ours), Ok(theirs)) => {
            values(ours, theirs, case.items.iter().flatten().count(), f32::to_bits)?;
            (&theirs.node_bytes, &theirs.tree_bytes, theirs.order.iter().map(|&place| place as u16).collect())
        }
        (Err(ours), Err(theirs)) if ours.number() == *theirs => (&[], &[], Vec::new()),
        (ours, Err(theirs)) => return Err(format!("expected refusal {theirs}, got {ours:?}")),
        (Err(ours), Ok(_)) => return Err(format!("expected a tree, got {ours}")),
    };
    nodes.check(node_bytes).map_err(|e| format!("node buffer: {e}"))?;
    trees.check(tree_bytes).map_err(|e| format!("tree buffer: {e}"))?;
    order.check(&places).map_err(|e| format!("order list: {e}"))
}

pub(crate) fn ours(item: Option<Aabb>) -> BvhItem {
    BvhItem::from(item.map(|b| [vec3(b.min), vec3(b.max)]))
}

pub(crate) fn vec3(p: [f32; 3]) -> Vec3 {
    Vec3::new(p[0], p[1], p[2])
}

/// The values of a tree over so many present items. The box is copied from theirs, and `of_box` is what counts of its floats:
/// all bits, where they were given. The rest was made: any NaN is one.
pub(crate) fn values(ours: &BuiltTree, theirs: &Built, present: usize, of_box: fn(f32) -> u32) -> Result<(), String> {
    let counts = [ours.nodes_count, ours.nodes_capacity, ours.trees_count, ours.items_count];
    let expected = [theirs.nodes_count, theirs.nodes.len(), theirs.trees.len(), present];
    if counts.map(|n| n as usize) != expected {
        return Err(format!("nodes, capacity, trees, items: {counts:?}, expected {expected:?}"));
    }
    let floats = [
        ("min", ours.bb_min, theirs.min, of_box),
        ("max", ours.bb_max, theirs.max, of_box),
        ("cen", ours.bb_center, theirs.cen, made),
        ("inverse", ours.quantum_inverse, theirs.inverse, made),
        ("quantum", ours.quantum, theirs.quantum, made),
    ];
    for (name, ours, [x, y, z, _], word) in floats {
        let (ours, theirs) = ([ours.x, ours.y, ours.z].map(word), [x, y, z].map(word));
        if ours != theirs {
            return Err(format!("{name}: {ours:08X?}, expected {theirs:08X?}"));
        }
    }
    Ok(())
}

fn describe(case: &Case, seed: u64) -> String {
    let why = differs(case, &expected(case), seed).err().unwrap_or_default();
    format!("{why}\n  buffers {:?} from what they need\n  {}", case.slack, describe_list(case))
}

pub(crate) fn describe_list(case: &Case) -> String {
    let mut out = format!("threshold {}, {} entries (min, then max, in words)", case.threshold, case.items.len());
    for item in case.items.iter().take(20) {
        let words = |b: &Aabb| b.min.iter().chain(&b.max).map(|x| format!("{:08X}", x.to_bits())).collect::<Vec<_>>();
        out += &format!("\n    {}", item.as_ref().map_or("absent".to_string(), |b| words(b).join(" ")));
    }
    out
}

/// Fewer entries, then plainer ones, as long as it fails.
pub(crate) fn shrink(mut case: Case, fails: impl Fn(&Case) -> bool) -> Case {
    let mut part = case.items.len().div_ceil(2);
    while part > 0 {
        let mut at = 0;
        while at < case.items.len() {
            let mut less = case.clone();
            less.items.drain(at..less.items.len().min(at + part));
            if fails(&less) {
                case = less;
            } else {
                at += part;
            }
        }
        part /= 2;
    }
    for at in 0..case.items.len().min(100) {
        for axis in 0..6 {
            for plain in [0.0, 1.0] {
                let mut less = case.clone();
                let Some(b) = &mut less.items[at] else { continue };
                let corner = if axis < 3 { &mut b.min } else { &mut b.max };
                corner[axis % 3] = plain;
                if fails(&less) {
                    case = less;
                    break;
                }
            }
        }
    }
    case
}

#[cfg(test)]
mod tests {
    use super::*;

    #[test]
    fn a_failing_list_shrinks_to_what_fails() {
        let at = |x: f32| Some(Aabb { min: [x; 3], max: [x + 1.0; 3] });
        let items = (0..50).map(|i| at(i as f32)).collect();
        let fails = |c: &Case| c.items.iter().flatten().any(|b| b.min[1] == 37.0);
        let small = shrink(Case::exact(items, 1), fails);
        assert_eq!(small.items, [Some(Aabb { min: [0.0, 37.0, 0.0], max: [0.0; 3] })]);
    }

    #[test]
    fn a_wrong_answer_is_found() {
        if let Some(why) = oracle::missing() {
            eprintln!("a_wrong_answer_is_found is left out: {why}");
            return;
        }
        let items =
            vec![Some(Aabb { min: [0.0; 3], max: [1.0; 3] }), None, Some(Aabb { min: [2.0; 3], max: [3.0; 3] })];
        let case = Case::exact(items, 1);
        let right = expected(&case);
        assert_eq!(differs(&case, &right, 1), Ok(()));
        let mut wrong = right.clone().expect("two boxes");
        wrong.node_bytes[40] ^= 1;
        assert!(differs(&case, &Ok(wrong), 1).is_err_and(|e| e.starts_with("node buffer")));
        let mut wrong = right.expect("two boxes");
        wrong.min[0] = -0.0;
        assert!(differs(&case, &Ok(wrong), 1).is_err_and(|e| e.starts_with("min")));
        assert!(differs(&case, &Err(4), 1).is_err());
        let short = Case { slack: [0, 0, 0, -1], ..case };
        assert_eq!(differs(&short, &expected(&short), 1), Ok(()));
    }
}
