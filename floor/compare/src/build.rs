//! `build_bvh`: the same lists to the proved library and to the reference, and every value, byte and refusal compared.

use crate::lent::Lent;
use crate::lists::{fixed, Case, Lists};
use crate::operation::made;
use crate::report::{Cases, Line, Refusals};
use bounds::bvh::{records_len, work_len};
use bounds::tree::TreeRecords;
use bounds::{build_bvh, BuiltTree, Refusal};
use oracle::tree;

/// What was answered: how often each refusal, how many trees, and the deepest of them.
#[derive(Default)]
struct Reached {
    refusals: Refusals,
    long: u64,
    nodes: u32,
    levels: usize,
}

impl Reached {
    fn note(&mut self, case: &Case, answer: &Result<TreeRecords, Refusal>) {
        self.refusals.note(answer);
        if let Ok(tree) = answer {
            self.nodes = self.nodes.max(tree.built.nodes_count);
            if case.items.len() > 500 {
                self.levels = self.levels.max(levels(tree));
            }
        }
        self.long += (case.items.len() > 1_000) as u64;
    }

    fn lines(&self) -> Vec<String> {
        let built = format!("built: {}", self.refusals.none());
        let most = format!("lists of over 1,000 entries: {}", self.long);
        let deepest = format!("largest tree: {} nodes; deepest: {} levels", self.nodes, self.levels);
        self.refusals.lines(&[1, 2, 3, 4]).chain([built, most, deepest]).collect()
    }
}

/// Levels below the root, of preorder records.
fn levels(tree: &TreeRecords) -> usize {
    let mut ends: Vec<usize> = Vec::new();
    let mut deepest = 0;
    for (at, node) in tree.nodes().enumerate() {
        while ends.last().is_some_and(|&end| end <= at) {
            ends.pop();
        }
        deepest = deepest.max(ends.len());
        if node.item_count == 0 {
            ends.push(at + node.item_id as usize);
        }
    }
    deepest
}

/// The fixed lists, then random ones up to `cases` in all.
pub fn run(seed: u64, cases: u64) -> Line {
    let (mut reached, mut lists) = (Reached::default(), Lists::new(seed));
    let asked = |case: &Case, done: u64| {
        let theirs = expected(case);
        reached.note(case, &theirs);
        differs(case, &theirs, seed ^ done << 20)
    };
    let shrunk = |case, _| describe(&shrink(case, |c| differs(c, &expected(c), seed).is_err()), seed);
    let line = Cases::new("build", cases, fixed()).compared(|_| lists.case(), asked, |case| case.items.len(), shrunk);
    line.reaching(reached.lines())
}

/// The buffers of a build, each by how much it differs from what so many entries need: nodes, trees, order and work.
#[derive(Clone, Copy, Debug)]
pub struct Room {
    entries: usize,
    slack: [isize; 4],
}

impl Room {
    pub fn new(entries: usize, slack: [isize; 4]) -> Room {
        Room { entries, slack }
    }

    /// Whether any of them is too short.
    pub fn is_short(&self) -> bool {
        self.lengths().iter().zip(needed(self.entries)).any(|(&lent, needed)| lent < needed)
    }

    fn lengths(&self) -> [usize; 4] {
        let needed = needed(self.entries);
        std::array::from_fn(|i| needed[i].saturating_add_signed(self.slack[i]))
    }

    /// A tree that is built in them, held to what is expected; `None` where none is. Its box is copied, and `of_box` is what
    /// counts of its floats. Without a tree no buffer is touched, and after a refusal none but the work buffer.
    pub fn differs(
        &self,
        build: impl FnOnce(&mut [u8], &mut [u8], &mut [u16], &mut [u32]) -> Result<Option<BuiltTree>, Refusal>,
        theirs: Result<Option<&TreeRecords>, Refusal>,
        of_box: fn(f32) -> u32,
        seed: u64,
    ) -> Result<(), String> {
        let [nodes, trees, order, work] = self.lengths();
        let (mut nodes, mut trees) = (Lent::<u8>::new(nodes, seed), Lent::<u8>::new(trees, seed ^ 1));
        let (mut order, mut work) = (Lent::<u16>::new(order, seed ^ 2), Lent::<u32>::new(work, seed ^ 3));
        let answer = build(nodes.buffer(), trees.buffer(), order.buffer(), work.buffer());
        work.check_guards().map_err(|e| format!("work buffer: {e}"))?;
        let (node_bytes, tree_bytes, places): (&[u8], &[u8], &[u16]) = match (&answer, theirs) {
            (Ok(Some(ours)), Ok(Some(theirs))) => {
                values(ours, &theirs.built, of_box)?;
                (&theirs.node_bytes, &theirs.tree_bytes, &theirs.order)
            }
            (Ok(None), Ok(None)) => {
                work.check(&[]).map_err(|why| format!("work buffer: {why}"))?;
                (&[], &[], &[])
            }
            (Err(ours), Err(theirs)) if *ours == theirs => (&[], &[], &[]),
            (ours, theirs) => {
                let theirs = theirs.map(|tree| tree.map(|tree| tree.built));
                return Err(format!("tree: {ours:?}, expected {theirs:?}"));
            }
        };
        nodes.check(node_bytes).map_err(|e| format!("node buffer: {e}"))?;
        trees.check(tree_bytes).map_err(|e| format!("tree buffer: {e}"))?;
        order.check(places).map_err(|e| format!("order list: {e}"))
    }
}

/// Bytes, bytes, places and words that the buffers have to have.
fn needed(entries: usize) -> [usize; 4] {
    [records_len(entries), records_len(entries), entries, work_len(entries)]
}

/// The reference's answer, and refusal 2, which it has not: after 1 and 3, before 4.
fn expected(case: &Case) -> Result<TreeRecords, Refusal> {
    let n = case.items.len();
    let later = n > tree::LIMIT || !(1..=tree::LIMIT as u32).contains(&case.threshold);
    if case.room().is_short() && !later {
        return Err(Refusal::BufferTooShort);
    }
    tree::build(&case.items, case.threshold)
}

/// `Err` with the first thing that is not the same.
fn differs(case: &Case, theirs: &Result<TreeRecords, Refusal>, seed: u64) -> Result<(), String> {
    let build = |nodes: &mut [u8], trees: &mut [u8], order: &mut [u16], work: &mut [u32]| {
        build_bvh(&case.items, case.threshold, nodes, trees, order, work).map(Some)
    };
    case.room().differs(build, theirs.as_ref().map(Some).map_err(|&refusal| refusal), f32::to_bits, seed)
}

/// The values of a tree. The box is copied from theirs, and `of_box` is what counts of its floats: all bits, where they were
/// given. The rest was made: any NaN is one.
pub(crate) fn values(ours: &BuiltTree, theirs: &BuiltTree, of_box: fn(f32) -> u32) -> Result<(), String> {
    let counts = |b: &BuiltTree| [b.nodes_count, b.nodes_capacity, b.trees_count, b.items_count];
    if counts(ours) != counts(theirs) {
        return Err(format!("nodes, capacity, trees, items: {:?}, expected {:?}", counts(ours), counts(theirs)));
    }
    let floats = [
        ("min", ours.bb_min, theirs.bb_min, of_box),
        ("max", ours.bb_max, theirs.bb_max, of_box),
        ("cen", ours.bb_center, theirs.bb_center, made),
        ("inverse", ours.quantum_inverse, theirs.quantum_inverse, made),
        ("quantum", ours.quantum, theirs.quantum, made),
    ];
    for (name, ours, theirs, word) in floats {
        let (ours, theirs) = (<[f32; 3]>::from(ours).map(word), <[f32; 3]>::from(theirs).map(word));
        if ours != theirs {
            return Err(format!("{name}: {ours:08X?}, expected {theirs:08X?}"));
        }
    }
    Ok(())
}

fn describe(case: &Case, seed: u64) -> String {
    let why = differs(case, &expected(case), seed).err().unwrap_or_default();
    format!("{why}\n  buffers {:?} from what they need\n  {}", case.slack, describe_list(case))
}

pub(crate) fn describe_list(case: &Case) -> String {
    let mut out = format!("threshold {}, {} entries (min, then max, in words)", case.threshold, case.items.len());
    for item in case.items.iter().take(20) {
        let words = [item.min, item.max].map(<[f32; 3]>::from).concat();
        let words: Vec<String> = words.into_iter().map(|x| format!("{:08X}", x.to_bits())).collect();
        out += &format!("\n    {}", if item.present == 0 { "absent".to_string() } else { words.join(" ") });
    }
    out
}

/// Fewer entries, then plainer ones, as long as it fails.
pub(crate) fn shrink(mut case: Case, fails: impl Fn(&Case) -> bool) -> Case {
    let mut part = case.items.len().div_ceil(2);
    while part > 0 {
        let mut at = 0;
        while at < case.items.len() {
            let mut less = case.clone();
            less.items.drain(at..less.items.len().min(at + part));
            if fails(&less) {
                case = less;
            } else {
                at += part;
            }
        }
        part /= 2;
    }
    for at in 0..case.items.len().min(100) {
        for axis in 0..6 {
            for plain in [0.0, 1.0] {
                let mut less = case.clone();
                let b = &mut less.items[at];
                if b.present == 0 {
                    continue;
                }
                let corner = if axis < 3 { &mut b.min } else { &mut b.max };
                corner[axis % 3] = plain;
                if fails(&less) {
                    case = less;
                    break;
                }
            }
        }
    }
    case
}

#[cfg(test)]
mod tests {
    use super::*;
    use crate::report::needs_reference;
    use bounds::{BvhItem, Vec3};

    fn cube(min: f32, max: f32) -> BvhItem {
        BvhItem::new([min; 3].into(), [max; 3].into())
    }

    #[test]
    fn a_failing_list_shrinks_to_what_fails() {
        let items = (0..50).map(|i| cube(i as f32, i as f32 + 1.0)).collect();
        let fails = |c: &Case| c.items.iter().any(|b| b.min.y == 37.0);
        let small = shrink(Case::exact(items, 1), fails);
        assert_eq!(small.items, [BvhItem::new(Vec3::new(0.0, 37.0, 0.0), Vec3::ZERO)]);
    }

    #[test]
    fn a_wrong_answer_is_found() {
        needs_reference!();
        let case = Case::exact(vec![cube(0.0, 1.0), BvhItem::ABSENT, cube(2.0, 3.0)], 1);
        let right = expected(&case);
        assert_eq!(differs(&case, &right, 1), Ok(()));
        let mut wrong = right.clone().expect("two boxes");
        wrong.node_bytes[40] ^= 1;
        assert!(differs(&case, &Ok(wrong), 1).is_err_and(|e| e.starts_with("node buffer")));
        let mut wrong = right.expect("two boxes");
        wrong.built.bb_min.x = -0.0;
        assert!(differs(&case, &Ok(wrong), 1).is_err_and(|e| e.starts_with("min")));
        assert!(differs(&case, &Err(Refusal::TooManyNodes), 1).is_err());
        let short = Case { slack: [0, 0, 0, -1], ..case };
        assert_eq!(differs(&short, &expected(&short), 1), Ok(()));
    }
}
