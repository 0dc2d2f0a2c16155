//! What is timed: the sides of an operation over the same inputs.

use crate::lists::{self, inputs, spread, Tame};
use crate::{composites, octants, polygons, prepare, server, shrink, walks};
use bounds::bvh::{build_bvh, records_len, work_len, BvhItem};
use bounds::{float, math};
use oracle::{float as source, math as reference, tree, Aabb};
use std::cell::Cell;
use std::hint::black_box;
use std::rc::Rc;

/// Goes once over all inputs.
pub type Pass = Box<dyn FnMut()>;

#[derive(Clone, Copy, Debug, PartialEq, Eq)]
pub enum Side {
    /// The proved library.
    Library,
    Reference,
    /// The plain Rust walk of floor/plain.
    Plain,
    /// The walk tuned by hand.
    Tuned,
    /// The library's walk, and the boxes of what it handed out compared.
    Filtered,
    /// Every box compared.
    Force,
}

impl Side {
    pub fn name(self) -> &'static str {
        match self {
            Side::Library => "library",
            Side::Reference => "reference",
            Side::Plain => "plain",
            Side::Tuned => "tuned",
            Side::Filtered => "with the filter",
            Side::Force => "brute force",
        }
    }
}

#[derive(Clone, Copy, Debug, PartialEq, Eq)]
pub enum Kind {
    Build,
    Walk,
    Server,
    Polygon,
    Shrink,
    Octants,
    Composite,
    Prepare,
    Step,
}

#[derive(Clone)]
pub struct Subject {
    pub kind: Kind,
    pub name: &'static str,
    pub sizes: &'static [usize],
    /// The sizes whose instructions are counted.
    pub counted: &'static [usize],
    /// The work of a size, by a seed.
    pub work: fn(usize, u64) -> Work,
}

pub struct Work {
    pub passes: Vec<(Side, Pass)>,
    /// What a pass does: so many boxes, records, polygons, vertices, children or calls.
    pub units: usize,
    pub queries: Option<Queries>,
}

/// Means of one query.
#[derive(Clone, Copy)]
pub struct Queries {
    pub trees: usize,
    pub met: f64,
    pub handed: f64,
    pub reads: f64,
}

/// Few enough that the processor learns their branches, and too many.
const STEPS: &[usize] = &[1_000, 100_000];

const LISTS: &[usize] = &[1_000, 10_000, LONGEST];

/// The most boxes of a list.
const LONGEST: usize = 32_767;

/// At threshold 1 more boxes would make too many nodes.
const SINGLES: &[usize] = &[1_000, 4_000, 16_384];

/// Both builds over the same lists of n boxes, one list after another: ours into buffers that are lent again and again, theirs
/// without turning its records into bytes.
fn builds(lists: Vec<Vec<BvhItem>>, n: usize, threshold: u32) -> Work {
    let mut builders: Vec<_> = lists.iter().map(|list| tree::builder(list, threshold)).collect();
    let theirs = move || builders.iter_mut().map(|build| build()).sum();
    let units = n * lists.len();
    let (mut nodes, mut trees) = (vec![0; records_len(n)], vec![0; records_len(n)]);
    let (mut order, mut work) = (vec![0; n], vec![0; work_len(n)]);
    let ours = move || {
        let build = |items: &Vec<BvhItem>| {
            let built = build_bvh(black_box(items), threshold, &mut nodes, &mut trees, &mut order, &mut work);
            built.expect("a list within the limits").nodes_count as usize
        };
        lists.iter().map(build).sum()
    };
    agreeing(ours, theirs, units)
}

/// Lists by one seed after another, as many as have the boxes of the longest: of one short list, built again and again, the
/// processor learns the branches, and a list is built once.
fn several(n: usize, seed: u64, threshold: u32, list: fn(usize, u64) -> Vec<BvhItem>) -> Work {
    let seeds = seed..seed + (LONGEST / n) as u64;
    builds(seeds.map(|seed| list(n, seed)).collect(), n, threshold)
}

fn one(list: Vec<BvhItem>, threshold: u32) -> Work {
    let n = list.len();
    builds(vec![list], n, threshold)
}

/// The two sides, each of which answers a number: nodes of a tree, indices in all, a sum of points. They are the same at each
/// pass.
pub fn agreeing(ours: impl FnMut() -> usize + 'static, theirs: impl FnMut() -> usize + 'static, units: usize) -> Work {
    fn pass(mut side: impl FnMut() -> usize + 'static, agreed: Rc<Cell<Option<usize>>>) -> Pass {
        Box::new(move || {
            let answer = black_box(side());
            assert_eq!(agreed.replace(Some(answer)).unwrap_or(answer), answer, "the same tree, lists or points");
        })
    }
    let agreed = Rc::default();
    both(pass(ours, Rc::clone(&agreed)), pass(theirs, agreed), units)
}

/// The library's pass and the reference's.
pub fn both(ours: Pass, theirs: Pass, units: usize) -> Work {
    Work { passes: vec![(Side::Library, ours), (Side::Reference, theirs)], units, queries: None }
}

/// One call after another: `black_box` keeps the compiler from taking several at once, or none.
pub fn each<T: 'static, R>(inputs: Vec<T>, call: impl Fn(&T) -> R + 'static) -> Pass {
    Box::new(move || {
        for input in &inputs {
            black_box(call(black_box(input)));
        }
    })
}

/// A call of each side for each input.
fn calls<T: Copy + 'static, A, B>(
    inputs: Vec<T>,
    ours: impl Fn(T) -> A + 'static,
    theirs: impl Fn(T) -> B + 'static,
) -> Work {
    let units = inputs.len();
    both(each(inputs.clone(), move |&input| ours(input)), each(inputs, move |&input| theirs(input)), units)
}

pub fn all() -> Vec<Subject> {
    let lists = builds_of_lists().into_iter().chain(walks::all()).chain(server::all());
    lists
        .chain(polygons::all())
        .chain(shrink::all())
        .chain(octants::all())
        .chain(composites::all())
        .chain(prepare::all())
        .chain(steps())
        .collect()
}

fn builds_of_lists() -> Vec<Subject> {
    let build = |name, sizes, counted, work| Subject { kind: Kind::Build, name, sizes, counted, work };
    vec![
        build("random, threshold 4", LISTS, &[10_000], |n, seed| several(n, seed, 4, spread)),
        build("random, threshold 1", SINGLES, &[4_000], |n, seed| several(n, seed, 1, spread)),
        build("equal, threshold 4", LISTS, &[10_000], |n, _| one(lists::equal(n), 4)),
        build("nested, threshold 4", LISTS, &[10_000], |n, _| one(lists::nested(n), 4)),
        build("one NaN, threshold 4", LISTS, &[10_000], |n, seed| several(n, seed, 4, lists::one_nan)),
        build("subnormal, threshold 4", LISTS, &[10_000], |n, seed| several(n, seed, 4, lists::subnormal)),
        build("hostile, threshold 1", SINGLES, &[1_000], |n, _| one(lists::hostile(n), 1)),
        build("deep subnormal, threshold 4", &[4_000, 16_384, 32_767], &[4_000], |n, _| {
            one(lists::deep_subnormal(n), 4)
        }),
        build("one list learned, threshold 4", &LISTS[..1], &[], |n, seed| one(spread(n, seed), 4)),
    ]
}

fn steps() -> Vec<Subject> {
    let step = |name, work| Subject { kind: Kind::Step, name, sizes: STEPS, counted: &STEPS[..1], work };
    vec![
        step("to_short", |n, seed| calls(inputs(n, seed, Tame::float), float::to_short, source::to_short)),
        step("vertex_value", |n, seed| calls(inputs(n, seed, Tame::float), float::vertex_value, source::vertex_value)),
        step("sqrt", |n, seed| calls(inputs(n, seed, |t| t.float().abs()), float::sqrt, f32::sqrt)),
        step("cmp_f32", |n, seed| {
            let x = inputs(n, seed, |t| (t.float(), t.float()));
            calls(x, |(a, b)| float::cmp_f32(a, b), |(a, b)| source::cmp_f32(a, b))
        }),
        step("vmin", |n, seed| {
            let x = inputs(n, seed, |t| (t.point(), t.point()));
            calls(x, |(a, b)| math::vmin(a, b), |(a, b)| reference::vmin(a, b))
        }),
        step("abs", |n, seed| calls(inputs(n, seed, Tame::point), bounds::Vec3::abs, reference::abs)),
        step("norm", |n, seed| calls(inputs(n, seed, Tame::point), math::norm, reference::norm)),
        step("transform_point", |n, seed| {
            let x = inputs(n, seed, |t| (t.matrix(), t.point()));
            calls(x, |(m, p)| m.transform_point(p), |(m, p)| reference::transform_point(&m, p))
        }),
        step("transform_box", |n, seed| {
            let x = inputs(n, seed, |t| (t.point(), t.point(), t.matrix()));
            let theirs = |(min, max, m)| reference::transform_box(Aabb { min, max }, &m);
            calls(x, |(min, max, m)| math::transform_box(min, max, &m), theirs)
        }),
    ]
}
