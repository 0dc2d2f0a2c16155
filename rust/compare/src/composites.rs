//! Composites: the children's boxes as bytes, each child's box through its transform, and the tree over these. One side's
//! answers held to the reference's.

use crate::build::{needed, values};
use crate::inputs::{Input, Inputs};
use crate::lent::Lent;
use crate::lists::{Lists, STYLES};
use crate::operation::made;
use crate::proved::point;
use crate::random::Random;
use crate::report::{Line, Progress};
use bounds::composite::{Child as Ours, CHILD_BOX, WITHOUT_TREE};
use bounds::{BuiltTree, Mat4, Vec3};
use oracle::composite::{self as reference, Child, LIMIT};
use oracle::geometry::IDENTITY;
use oracle::tree::Built;
use oracle::{math, Aabb};

/// Children and the buffers of a build: nodes, trees, order, work.
type Tree = fn(&[Ours], &mut [u8], &mut [u8], &mut [u16], &mut [u32]) -> Result<Option<BuiltTree>, u32>;

/// What is compared. Refusals are numbers.
pub struct Sides {
    pub boxes: fn(&[Ours], &mut [u8]) -> Result<(), u32>,
    pub computed: fn(&Ours) -> Option<(Vec3, Vec3)>,
    pub tree: Tree,
}

/// Children, the bytes that are lent for their boxes, and by how much the tree's buffers differ from what they need.
#[derive(Clone, Debug)]
pub struct Case {
    pub children: Vec<Option<Child>>,
    pub room: usize,
    pub slack: [isize; 4],
}

impl Case {
    fn exact(children: Vec<Option<Child>>) -> Case {
        let room = CHILD_BOX * children.len();
        Case { children, room, slack: [0; 4] }
    }

    fn lengths(&self) -> [usize; 4] {
        let needed = needed(self.children.len());
        std::array::from_fn(|i| needed[i].saturating_add_signed(self.slack[i]))
    }
}

/// How the transforms of a composite are made.
#[derive(Clone, Copy)]
enum Transforms {
    Identity,
    /// Moved, turned and stretched; the fourth coordinate stays 1.
    Placed,
    /// The fourth coordinate is not 1, and may be 0.
    Divided,
    /// Any floats.
    Any,
}

/// Random composites.
struct Composites {
    random: Random,
    inputs: Inputs,
    lists: Lists,
}

impl Composites {
    fn new(seed: u64) -> Composites {
        Composites { random: Random::new(seed), inputs: Inputs::new(!seed), lists: Lists::new(seed ^ 1) }
    }

    fn next(&mut self) -> Case {
        let r = &mut self.random;
        let n = match r.below(1_000) {
            0 => r.below(400),
            1..=250 => 4 + r.below(4),
            _ => r.below(41),
        };
        let children = self.children(n);
        let r = &mut self.random;
        let slack = self.lists.slack();
        let mut case = Case { slack, ..Case::exact(children) };
        match r.below(16) {
            0 => case.room = case.room.saturating_sub(1 + r.below(40)),
            1..=4 => case.room += r.below(40),
            _ => {}
        }
        case
    }

    fn children(&mut self, n: usize) -> Vec<Option<Child>> {
        use Transforms::*;
        let style = self.random.pick(&STYLES);
        let transforms = self.random.pick(&[Identity, Placed, Placed, Divided, Any]);
        let boxes = self.lists.items(n, style);
        let mut child = |aabb| {
            let mut margin = [0];
            self.inputs.fill(&[Input::Float], &mut margin);
            Child { aabb, margin: f32::from_bits(margin[0]), transform: self.transform(transforms) }
        };
        boxes.into_iter().map(|b| b.map(&mut child)).collect()
    }

    fn transform(&mut self, of: Transforms) -> [f32; 16] {
        let r = &mut self.random;
        let mut number = || (r.u32() as f32 / 4294967296.0 - 0.5) * 8.0;
        let mut m = IDENTITY;
        match of {
            Transforms::Identity => {}
            Transforms::Placed => (0..15).filter(|i| i % 4 < 3).for_each(|i| m[i] = number()),
            Transforms::Divided => {
                (0..16).for_each(|i| m[i] = number());
                if r.once_in(4) {
                    (m[3], m[7], m[11], m[15]) = (0.0, 0.0, 0.0, r.pick(&[2.0, -1.0, 0.0, -0.0]));
                }
            }
            Transforms::Any => {
                let mut words = [0; 16];
                self.inputs.fill(&[Input::Float; 16], &mut words);
                m = words.map(f32::from_bits);
            }
        }
        m
    }
}

/// Whatever the seed: those around each limit, and refusals in their order.
fn fixed() -> Vec<Case> {
    let cube = |i: usize| {
        let mut transform = IDENTITY;
        transform[12] = 2.0 * i as f32;
        Some(Child { aabb: Aabb { min: [0.0; 3], max: [1.0; 3] }, margin: 0.04, transform })
    };
    let row = |n: usize| (0..n).map(cube).collect::<Vec<_>>();
    let mut cases: Vec<Case> = [0, 1, 4, 5, 6, 7, 16_384, 16_385, LIMIT, LIMIT + 1].map(|n| Case::exact(row(n))).into();
    let mut one_absent = row(5);
    one_absent.insert(2, None);
    cases.push(Case::exact(one_absent));
    cases.extend([5, 6, LIMIT, LIMIT + 1].map(|n| Case::exact(vec![None; n])));
    // As many as may be, of which every other one is there.
    cases.push(Case::exact((0..LIMIT).map(|i| cube(i).filter(|_| i % 2 == 0)).collect()));
    for n in [5, 6, 16_385, LIMIT + 1] {
        for at in 0..5 {
            let mut case = Case::exact(row(n));
            match at {
                4 => case.room -= 1,
                _ => case.slack[at] = -1,
            }
            cases.push(case);
        }
        cases.push(Case { room: 0, slack: [isize::MIN; 4], children: row(n) });
    }
    cases
}

/// Its bytes and its tree, if there is one; refusals of each.
struct Expected {
    boxes: Result<Vec<u8>, u32>,
    tree: Result<Option<Built>, u32>,
}

fn expected(case: &Case) -> Expected {
    let n = case.children.len();
    let number = |refused: oracle::Refused| refused.0 as u32;
    let (boxes, tree) = match reference::composite(&case.children) {
        Ok(made) => (Ok(made.boxes), Ok(made.tree)),
        Err(refused) => (reference::child_boxes(&case.children).map_err(number), Err(number(refused))),
    };
    // The reference has no buffers: 2 comes after 1, before 4.
    let within = n <= LIMIT;
    let short = case.lengths().iter().zip(needed(n)).any(|(&lent, needed)| lent < needed);
    Expected {
        boxes: if within && case.room < CHILD_BOX * n { Err(2) } else { boxes },
        tree: if within && n > WITHOUT_TREE && short { Err(2) } else { tree },
    }
}

/// Any mark but 0 says present; what an absent child holds does not matter.
fn ours(child: &Option<Child>, random: &mut Random) -> Ours {
    match child {
        Some(Child { aabb, margin, transform }) => {
            let present = random.pick(&[1, 1, 2, 0x8000_0000, u32::MAX]);
            let (box_min, box_max) = (point(aabb.min), point(aabb.max));
            Ours { present, box_min, box_max, margin: *margin, transform: Mat4(*transform) }
        }
        None => {
            let any = |_| f32::from_bits(random.u32());
            let transform = Mat4([0; 16].map(any));
            Ours { margin: 1.0, transform, ..Ours::ABSENT }
        }
    }
}

/// `Err` with the first thing that is not the same.
fn differs(case: &Case, theirs: &Expected, sides: &Sides, seed: u64) -> Result<(), String> {
    let mut random = Random::new(seed);
    let children: Vec<Ours> = case.children.iter().map(|child| ours(child, &mut random)).collect();
    let mut out = Lent::<u8>::new(case.room, seed);
    let answer = (sides.boxes)(&children, out.buffer());
    if answer != theirs.boxes.as_ref().map(|_| ()).map_err(|&number| number) {
        return Err(format!("child boxes: {answer:?}, expected {:?}", theirs.boxes.as_ref().err()));
    }
    out.check(theirs.boxes.as_deref().unwrap_or_default()).map_err(|why| format!("child boxes: {why}"))?;
    for (at, (child, given)) in children.iter().zip(&case.children).enumerate() {
        let floats = |(min, max): (Vec3, Vec3)| [min.x, min.y, min.z, max.x, max.y, max.z].map(made);
        let found = (sides.computed)(child).map(floats);
        let computed = given.map(|c| math::transform_box(c.aabb, &c.transform));
        let expected = computed.map(|b| floats((point(b.min), point(b.max))));
        if found != expected {
            return Err(format!("computed box of child {at}: {found:08X?}, expected {expected:08X?}"));
        }
    }
    tree_differs(case, &children, &theirs.tree, sides.tree, seed)
}

fn tree_differs(
    case: &Case,
    children: &[Ours],
    theirs: &Result<Option<Built>, u32>,
    tree: Tree,
    seed: u64,
) -> Result<(), String> {
    let [nodes, trees, order, work] = case.lengths();
    let mut nodes = Lent::<u8>::new(nodes, seed ^ 1);
    let mut trees = Lent::<u8>::new(trees, seed ^ 2);
    let mut order = Lent::<u16>::new(order, seed ^ 3);
    let mut work = Lent::<u32>::new(work, seed ^ 4);
    let answer = tree(children, nodes.buffer(), trees.buffer(), order.buffer(), work.buffer());
    work.check_guards().map_err(|why| format!("work buffer: {why}"))?;
    let (node_bytes, tree_bytes, places): (&[u8], &[u8], Vec<u16>) = match (&answer, theirs) {
        (Ok(Some(ours)), Ok(Some(theirs))) => {
            // The computed boxes were made, and so was the box around them.
            values(ours, theirs, case.children.iter().flatten().count(), made)?;
            (&theirs.node_bytes, &theirs.tree_bytes, theirs.order.iter().map(|&place| place as u16).collect())
        }
        (Ok(None), Ok(None)) => (&[], &[], Vec::new()),
        (Err(ours), Err(theirs)) if ours == theirs => (&[], &[], Vec::new()),
        (ours, theirs) => {
            let theirs = theirs.as_ref().map(|tree| tree.as_ref().map(|tree| tree.nodes_count));
            return Err(format!("tree: {ours:?}, expected {theirs:?} nodes"));
        }
    };
    if answer == Ok(None) {
        work.check(&[]).map_err(|why| format!("work buffer: {why}"))?;
    }
    nodes.check(node_bytes).map_err(|why| format!("node buffer: {why}"))?;
    trees.check(tree_bytes).map_err(|why| format!("tree buffer: {why}"))?;
    order.check(&places).map_err(|why| format!("order list: {why}"))
}

/// What was answered: refusals of the bytes and of the tree, trees, and composites without one.
#[derive(Default)]
struct Reached {
    boxes: [u64; 5],
    trees: [u64; 5],
    without: u64,
    absent: u64,
    with_nan: u64,
    nodes: usize,
}

impl Reached {
    fn note(&mut self, case: &Case, theirs: &Expected) {
        self.boxes[*theirs.boxes.as_ref().err().unwrap_or(&0) as usize] += 1;
        match &theirs.tree {
            Ok(Some(tree)) => {
                self.trees[0] += 1;
                self.nodes = self.nodes.max(tree.nodes_count);
                self.with_nan += tree.min[..3].iter().any(|x| x.is_nan()) as u64;
                self.absent += case.children.iter().any(Option::is_none) as u64;
            }
            Ok(None) => self.without += 1,
            Err(number) => self.trees[*number as usize] += 1,
        }
    }

    fn lines(&self) -> Vec<String> {
        let Reached { boxes, trees, without, absent, with_nan, nodes } = self;
        vec![
            format!("child boxes refused 1: {}", boxes[1]),
            format!("child boxes refused 2: {}", boxes[2]),
            format!("trees refused 1: {}", trees[1]),
            format!("trees refused 2: {}", trees[2]),
            format!("trees refused 4: {}", trees[4]),
            format!("without a tree: {without}"),
            format!("trees: {}; largest: {nodes} nodes", trees[0]),
            format!("trees with absent children: {absent}"),
            format!("trees with a NaN in their box: {with_nan}"),
        ]
    }
}

/// The fixed composites, then random ones up to `cases` in all; of those that differ the shortest is shown.
pub fn run(seed: u64, cases: u64, sides: &Sides) -> Line {
    let mut fixed = fixed();
    let total = cases.max(fixed.len() as u64);
    let mut progress = Progress::new("composite", total);
    let (mut reached, mut mismatches, mut shortest) = (Reached::default(), 0, None::<(usize, String)>);
    let mut composites = Composites::new(seed);
    for done in 0..total {
        let case = fixed.pop().unwrap_or_else(|| composites.next());
        let theirs = expected(&case);
        reached.note(&case, &theirs);
        if let Err(why) = differs(&case, &theirs, sides, seed ^ done << 20) {
            mismatches += 1;
            let len = case.children.len();
            if shortest.as_ref().is_none_or(|(before, _)| len < *before) {
                shortest = Some((len, format!("{why}\n  {case:?}").chars().take(4_000).collect()));
            }
        }
        if done % 256 == 0 {
            progress.at(done);
        }
    }
    progress.end(mismatches);
    let smallest = shortest.map(|(_, text)| text);
    Line { operation: "composite".to_string(), cases: total, mismatches, smallest, reached: reached.lines() }
}

#[cfg(test)]
mod tests {
    use super::*;
    use crate::proved::COMPOSITE;

    fn left_out(test: &str) -> bool {
        oracle::missing().inspect(|why| eprintln!("{test} is left out: {why}")).is_some()
    }

    #[test]
    fn composites_match_and_everything_is_reached() {
        if left_out("composites_match_and_everything_is_reached") {
            return;
        }
        let line = oracle::on_large_stack(|| run(1, 8_000, &COMPOSITE));
        assert_eq!((line.mismatches, line.smallest), (0, None));
        assert!(line.reached.iter().all(|what| !what.ends_with(": 0")), "{:?}", line.reached);
    }

    #[test]
    fn wrong_composites_are_found() {
        if left_out("wrong_composites_are_found") {
            return;
        }
        let found = |wrong: Sides| oracle::on_large_stack(|| run(2, 2_000, &wrong)).mismatches > 0;
        assert!(!found(COMPOSITE));
        let word_of_absent = |children: &[Ours], out: &mut [u8]| {
            (COMPOSITE.boxes)(children, out)?;
            out.chunks_exact_mut(CHILD_BOX).take(children.len()).for_each(|record| record[12] = 1);
            Ok(())
        };
        assert!(found(Sides { boxes: word_of_absent, ..COMPOSITE }));
        let not_moved = |child: &Ours| (child.present != 0).then_some((child.box_min, child.box_max));
        assert!(found(Sides { computed: not_moved, ..COMPOSITE }));
        let at_five: Tree = |children, nodes, trees, order, work| match children.len() {
            5 => (COMPOSITE.tree)(&[children, &[Ours::ABSENT]].concat(), nodes, trees, order, work),
            _ => (COMPOSITE.tree)(children, nodes, trees, order, work),
        };
        assert!(found(Sides { tree: at_five, ..COMPOSITE }));
        let given_boxes: Tree = |children, nodes, trees, order, work| {
            let still = |child: &Ours| Ours { transform: Mat4::identity(), ..*child };
            (COMPOSITE.tree)(&children.iter().map(still).collect::<Vec<_>>(), nodes, trees, order, work)
        };
        assert!(found(Sides { tree: given_boxes, ..COMPOSITE }));
    }
}
