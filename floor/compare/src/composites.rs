//! Composites: the children's boxes as bytes, each child's box through its transform, and the tree over these. One side's
//! answers held to the reference's.

use crate::build::Room;
use crate::inputs::{Input, Inputs};
use crate::lent::Lent;
use crate::lists::{Lists, STYLES};
use crate::operation::{made, made6};
use crate::random::Random;
use crate::report::{shown, Cases, Line, Refusals};
use bounds::composite::{CHILD_BOX, WITHOUT_TREE};
use bounds::tree::TreeRecords;
use bounds::{BuiltTree, BvhItem, Child, Mat4, Refusal, Vec3};
use oracle::composite::{self as reference, LIMIT};
use oracle::{math, Aabb};

/// Children and the buffers of a build: nodes, trees, order, work.
type Tree = fn(&[Child], &mut [u8], &mut [u8], &mut [u16], &mut [u32]) -> Result<Option<BuiltTree>, Refusal>;

/// What is compared.
pub struct Sides {
    pub boxes: fn(&[Child], &mut [u8]) -> Result<(), Refusal>,
    pub computed: fn(&Child) -> Option<(Vec3, Vec3)>,
    pub tree: Tree,
}

/// Children, the bytes that are lent for their boxes, and by how much the tree's buffers differ from what they need.
#[derive(Clone, Debug)]
pub struct Case {
    pub children: Vec<Child>,
    pub room: usize,
    pub slack: [isize; 4],
}

impl Case {
    fn exact(children: Vec<Child>) -> Case {
        let room = CHILD_BOX * children.len();
        Case { children, room, slack: [0; 4] }
    }
}

/// How the transforms of a composite are made.
#[derive(Clone, Copy)]
enum Transforms {
    Identity,
    /// Moved, turned and stretched; the fourth coordinate stays 1.
    Placed,
    /// The fourth coordinate is not 1, and may be 0.
    Divided,
    /// Any floats.
    Any,
}

/// Random composites.
struct Composites {
    random: Random,
    inputs: Inputs,
    lists: Lists,
}

impl Composites {
    fn new(seed: u64) -> Composites {
        Composites { random: Random::new(seed), inputs: Inputs::new(!seed), lists: Lists::new(seed ^ 1) }
    }

    fn next(&mut self) -> Case {
        let r = &mut self.random;
        let n = match r.below(1_000) {
            0 => r.below(400),
            1..=250 => 4 + r.below(4),
            _ => r.below(41),
        };
        let children = self.children(n);
        let r = &mut self.random;
        let slack = self.lists.slack();
        let mut case = Case { slack, ..Case::exact(children) };
        match r.below(16) {
            0 => case.room = case.room.saturating_sub(1 + r.below(40)),
            1..=4 => case.room += r.below(40),
            _ => {}
        }
        case
    }

    fn children(&mut self, n: usize) -> Vec<Child> {
        use Transforms::*;
        let style = self.random.pick(&STYLES);
        let transforms = self.random.pick(&[Identity, Placed, Placed, Divided, Any]);
        let boxes = self.lists.items(n, style);
        let child = |b: BvhItem| {
            if b.present == 0 {
                return Child::ABSENT;
            }
            let mut margin = [0];
            self.inputs.fill(&[Input::Float], &mut margin);
            Child::new(b.min, b.max, f32::from_bits(margin[0]), self.transform(transforms))
        };
        boxes.into_iter().map(child).collect()
    }

    fn transform(&mut self, of: Transforms) -> Mat4 {
        let r = &mut self.random;
        let mut number = || (r.unit() - 0.5) * 8.0;
        let Mat4(mut m) = Mat4::identity();
        match of {
            Transforms::Identity => {}
            Transforms::Placed => (0..15).filter(|i| i % 4 < 3).for_each(|i| m[i] = number()),
            Transforms::Divided => {
                (0..16).for_each(|i| m[i] = number());
                if r.once_in(4) {
                    (m[3], m[7], m[11], m[15]) = (0.0, 0.0, 0.0, r.pick(&[2.0, -1.0, 0.0, -0.0]));
                }
            }
            Transforms::Any => {
                let mut words = [0; 16];
                self.inputs.fill(&[Input::Float; 16], &mut words);
                m = words.map(f32::from_bits);
            }
        }
        Mat4(m)
    }
}

/// Whatever the seed: those around each limit, and refusals in their order.
fn fixed() -> Vec<Case> {
    let cube = |i: usize| {
        let mut transform = Mat4::identity();
        transform.0[12] = 2.0 * i as f32;
        Child::new(Vec3::ZERO, Vec3::new(1.0, 1.0, 1.0), 0.04, transform)
    };
    let row = |n: usize| (0..n).map(cube).collect::<Vec<_>>();
    let mut cases: Vec<Case> = [0, 1, 4, 5, 6, 7, 16_384, 16_385, LIMIT, LIMIT + 1].map(|n| Case::exact(row(n))).into();
    let mut one_absent = row(5);
    one_absent.insert(2, Child::ABSENT);
    cases.push(Case::exact(one_absent));
    cases.extend([5, 6, LIMIT, LIMIT + 1].map(|n| Case::exact(vec![Child::ABSENT; n])));
    // As many as may be, of which every other one is there.
    cases.push(Case::exact((0..LIMIT).map(|i| if i % 2 == 0 { cube(i) } else { Child::ABSENT }).collect()));
    for n in [5, 6, 16_385, LIMIT + 1] {
        for at in 0..5 {
            let mut case = Case::exact(row(n));
            match at {
                4 => case.room -= 1,
                _ => case.slack[at] = -1,
            }
            cases.push(case);
        }
        cases.push(Case { room: 0, slack: [isize::MIN; 4], children: row(n) });
    }
    cases
}

/// Its bytes and its tree, if there is one; refusals of each.
struct Expected {
    boxes: Result<Vec<u8>, Refusal>,
    tree: Result<Option<TreeRecords>, Refusal>,
}

fn expected(case: &Case) -> Expected {
    let n = case.children.len();
    let (boxes, tree) = match reference::composite(&case.children) {
        Ok(made) => (Ok(made.boxes), Ok(made.tree)),
        Err(refusal) => (reference::child_boxes(&case.children), Err(refusal)),
    };
    // The reference has no buffers: 2 comes after 1, before 4.
    let within = n <= LIMIT;
    let short = Room::new(n, case.slack).is_short();
    Expected {
        boxes: if within && case.room < CHILD_BOX * n { Err(Refusal::BufferTooShort) } else { boxes },
        tree: if within && n > WITHOUT_TREE && short { Err(Refusal::BufferTooShort) } else { tree },
    }
}

/// Any mark but 0 says present; what an absent child holds does not matter.
fn marked(child: &Child, random: &mut Random) -> Child {
    if child.present != 0 {
        return Child { present: random.pick(&[1, 1, 2, 0x8000_0000, u32::MAX]), ..*child };
    }
    let any = |_| f32::from_bits(random.u32());
    Child { margin: 1.0, transform: Mat4([0; 16].map(any)), ..Child::ABSENT }
}

/// `Err` with the first thing that is not the same.
fn differs(case: &Case, theirs: &Expected, sides: &Sides, seed: u64) -> Result<(), String> {
    let mut random = Random::new(seed);
    let children: Vec<Child> = case.children.iter().map(|child| marked(child, &mut random)).collect();
    let mut out = Lent::<u8>::new(case.room, seed);
    let answer = (sides.boxes)(&children, out.buffer());
    if answer != theirs.boxes.as_ref().map(drop).map_err(|&refusal| refusal) {
        return Err(format!("child boxes: {answer:?}, expected {:?}", theirs.boxes.as_ref().err()));
    }
    out.check(theirs.boxes.as_deref().unwrap_or_default()).map_err(|why| format!("child boxes: {why}"))?;
    for (at, child) in children.iter().enumerate() {
        let found = (sides.computed)(child).map(|(min, max)| made6(min, max));
        let computed = || math::transform_box(Aabb { min: child.box_min, max: child.box_max }, &child.transform);
        let expected = (child.present != 0).then(computed).map(|b| made6(b.min, b.max));
        if found != expected {
            return Err(format!("computed box of child {at}: {found:08X?}, expected {expected:08X?}"));
        }
    }
    let tree = |nodes: &mut [u8], trees: &mut [u8], order: &mut [u16], work: &mut [u32]| {
        (sides.tree)(&children, nodes, trees, order, work)
    };
    let theirs = theirs.tree.as_ref().map(Option::as_ref).map_err(|&refusal| refusal);
    // The computed boxes were made, and so was the box around them.
    Room::new(children.len(), case.slack).differs(tree, theirs, made, seed ^ 1)
}

/// What was answered: refusals of the bytes and of the tree, trees, and composites without one.
#[derive(Default)]
struct Reached {
    boxes: Refusals,
    trees: Refusals,
    without: u64,
    absent: u64,
    with_nan: u64,
    nodes: u32,
}

impl Reached {
    fn note(&mut self, case: &Case, theirs: &Expected) {
        self.boxes.note(&theirs.boxes);
        self.trees.note(&theirs.tree);
        match &theirs.tree {
            Ok(Some(TreeRecords { built, .. })) => {
                self.nodes = self.nodes.max(built.nodes_count);
                self.with_nan += (0..3).any(|axis| built.bb_min[axis].is_nan()) as u64;
                self.absent += case.children.iter().any(|child| child.present == 0) as u64;
            }
            Ok(None) => self.without += 1,
            Err(_) => {}
        }
    }

    fn lines(&self) -> Vec<String> {
        let Reached { boxes, trees, without, absent, with_nan, nodes } = self;
        let of_boxes = boxes.lines(&[1, 2]).map(|line| format!("child boxes {line}"));
        let of_trees = trees.lines(&[1, 2, 4]).map(|line| format!("trees {line}"));
        let found = [
            format!("without a tree: {without}"),
            format!("trees: {}; largest: {nodes} nodes", trees.none() - without),
            format!("trees with absent children: {absent}"),
            format!("trees with a NaN in their box: {with_nan}"),
        ];
        of_boxes.chain(of_trees).chain(found).collect()
    }
}

/// The fixed composites, then random ones up to `cases` in all; of those that differ the shortest is shown.
pub fn run(seed: u64, cases: u64, sides: &Sides) -> Line {
    let (mut reached, mut composites) = (Reached::default(), Composites::new(seed));
    let asked = |case: &Case, done: u64| {
        let theirs = expected(case);
        reached.note(case, &theirs);
        differs(case, &theirs, sides, seed ^ done << 20)
    };
    let size = |case: &Case| case.children.len();
    let line = Cases::new("composite", cases, fixed()).compared(|_| composites.next(), asked, size, shown);
    line.reaching(reached.lines())
}

#[cfg(test)]
mod tests {
    use super::*;
    use crate::proved::COMPOSITE;
    use crate::report::needs_reference;

    #[test]
    fn composites_match_and_everything_is_reached() {
        needs_reference!();
        oracle::on_large_stack(|| run(1, 8_000, &COMPOSITE)).holds();
    }

    #[test]
    fn wrong_composites_are_found() {
        needs_reference!();
        let found = |wrong: Sides| oracle::on_large_stack(|| run(2, 2_000, &wrong)).mismatches > 0;
        assert!(!found(COMPOSITE));
        let word_of_absent = |children: &[Child], out: &mut [u8]| {
            (COMPOSITE.boxes)(children, out)?;
            out.chunks_exact_mut(CHILD_BOX).take(children.len()).for_each(|record| record[12] = 1);
            Ok(())
        };
        assert!(found(Sides { boxes: word_of_absent, ..COMPOSITE }));
        let not_moved = |child: &Child| (child.present != 0).then_some((child.box_min, child.box_max));
        assert!(found(Sides { computed: not_moved, ..COMPOSITE }));
        let at_five: Tree = |children, nodes, trees, order, work| match children.len() {
            5 => (COMPOSITE.tree)(&[children, &[Child::ABSENT]].concat(), nodes, trees, order, work),
            _ => (COMPOSITE.tree)(children, nodes, trees, order, work),
        };
        assert!(found(Sides { tree: at_five, ..COMPOSITE }));
        let given_boxes: Tree = |children, nodes, trees, order, work| {
            let still = |child: &Child| Child { transform: Mat4::identity(), ..*child };
            (COMPOSITE.tree)(&children.iter().map(still).collect::<Vec<_>>(), nodes, trees, order, work)
        };
        assert!(found(Sides { tree: given_boxes, ..COMPOSITE }));
    }
}
