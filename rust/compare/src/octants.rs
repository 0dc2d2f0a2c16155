//! `calculate_octants` and the octants' bytes: one side's answers held to the reference's.
//!
//! Lists of 32,768 points of the kinds that a port could be slow on are held to a time limit too. The reference itself takes
//! up to ten seconds on some of them: of these it is given a sample, and the others are held to the plain sweep, which the
//! tests hold to the definition and to the reference.

use crate::clock::clock;
use crate::lent::Lent;
use crate::meshes::{compared, Operation, Outcome};
use crate::plain::octants as plain;
use crate::points::{Points, Style, LONG, STYLES};
use crate::random::Random;
use crate::report::{Line, Progress};
use oracle::geometry::{self as reference, VERTICES};
use oracle::Vec3;
use std::time::Duration;

/// Points, the lists' words and the words to work in; answers how many indices each list has.
pub type Calculate = fn(&[Vec3], &mut [u32], &mut [u32]) -> Result<[usize; 8], u32>;

/// Lists and an address, into lent bytes.
pub type Write = fn(&[Vec<u32>; 8], u64, &mut [u8]) -> Result<(), u32>;

/// In which a list of 32,768 has to be answered, by the time that the thread had a processor.
const LIMIT: Duration = Duration::from_millis(500);

/// Of so many cases one is a list of 32,768 of each kind.
const A_LONG_ONE: u64 = 25_000;

/// Points, and how many words are lent for the lists and to work in.
#[derive(Clone, Debug)]
pub struct Case {
    pub points: Vec<Vec3>,
    pub lists: usize,
    pub work: usize,
}

impl Case {
    fn exact(points: Vec<Vec3>) -> Case {
        let n = points.len();
        Case { points, lists: 8 * n, work: 10 * n }
    }
}

/// Random lists, most of them short.
struct Cases {
    points: Points,
    random: Random,
}

impl Cases {
    fn next(&mut self) -> Case {
        let r = &mut self.random;
        let n = match r.below(20_000) {
            0 => r.below(2_000),
            1..=200 => r.below(120),
            _ => r.below(10),
        };
        let style = r.pick(&STYLES);
        let mut case = Case::exact(self.points.of(n, style));
        match r.below(16) {
            0 => case.lists = case.lists.saturating_sub(1 + r.below(3)),
            1 => case.work = case.work.saturating_sub(1 + r.below(3)),
            2..=4 => (case.lists, case.work) = (case.lists + r.below(20), case.work + r.below(20)),
            _ => {}
        }
        case
    }
}

/// The refusals that come before an answer.
fn refused(case: &Case) -> Option<u32> {
    let n = case.points.len();
    match n > VERTICES {
        true => Some(1),
        false => (case.lists < 8 * n || case.work < 10 * n).then_some(2),
    }
}

fn expected(case: &Case) -> Result<[Vec<u32>; 8], u32> {
    let refused = refused(case).filter(|&number| number != 1);
    refused.map_or_else(|| reference::octants(&case.points).map_err(|refused| refused.0 as u32), Err)
}

/// Also how long the call took.
fn differs(case: &Case, expected: &Result<[Vec<u32>; 8], u32>, ours: Calculate, seed: u64) -> Result<Duration, String> {
    let n = case.points.len();
    let (mut lists, mut work) = (Lent::<u32>::new(case.lists, seed), Lent::<u32>::new(case.work, !seed));
    let begun = clock();
    let answer = ours(&case.points, lists.buffer(), work.buffer());
    let taken = clock() - begun;
    let counts = expected.as_ref().map(|lists| lists.each_ref().map(Vec::len)).map_err(|&number| number);
    if answer != counts {
        return Err(format!("{answer:?}, expected {counts:?}"));
    }
    let parts: Vec<(usize, &[u32])> = match expected {
        Ok(lists) => lists.iter().enumerate().map(|(k, list)| (k * n, &list[..])).collect(),
        Err(_) => Vec::new(),
    };
    lists.check_parts(&parts).map_err(|why| format!("lists: {why}"))?;
    work.check_guards().map_err(|why| format!("work: {why}"))?;
    Ok(taken)
}

fn indices(lists: &[Vec<u32>; 8]) -> usize {
    lists.iter().map(Vec::len).sum()
}

/// Lists with every special value.
pub fn lists(seed: u64, cases: u64, ours: Calculate) -> Line {
    let of = Operation { name: "octants", what: "indices", refusals: &[1, 2], limit: VERTICES };
    let mut fixed = at_the_limit(seed);
    let mut random = Cases { points: Points::new(seed), random: Random::new(!seed) };
    let case = || {
        let case = fixed.pop().unwrap_or_else(|| random.next());
        let len = case.points.len();
        (case, len)
    };
    compared(of, cases, case, |case, done| {
        let theirs = expected(case);
        differs(case, &theirs, ours, seed ^ done << 20)?;
        Ok(theirs.map(|lists| indices(&lists)))
    })
}

/// As many points as may be, and one more: with all that is needed, and with each buffer one short.
fn at_the_limit(seed: u64) -> Vec<Case> {
    let mut points = Points::new(seed ^ 1);
    let mut cases = Vec::new();
    for n in [VERTICES, VERTICES + 1] {
        let whole = Case::exact(points.of(n, Style::Random));
        let (lists, work) = (whole.lists - 1, whole.work - 1);
        cases.extend([Case { lists, ..whole.clone() }, Case { work, ..whole.clone() }, whole]);
    }
    cases
}

/// What a kind's long lists came to.
#[derive(Default)]
struct Long {
    longest: Duration,
    most: usize,
    asked: u64,
}

/// Of each kind a list of 32,768 for each 25,000 cases, at least one.
pub fn long(seed: u64, cases: u64, ours: Calculate) -> Line {
    let each = cases.div_ceil(A_LONG_ONE).max(1);
    let total = each * LONG.len() as u64;
    let mut progress = Progress::new("octants, long", total);
    let (mut mismatches, mut first, mut reached) = (0, None, Vec::new());
    let mut points = Points::new(seed ^ 2);
    for (k, style) in LONG.into_iter().enumerate() {
        let mut long = Long::default();
        for done in 0..each {
            if let Err(why) = long_one(points.of(VERTICES, style), style, done, ours, &mut long, seed ^ done << 20) {
                mismatches += 1;
                first.get_or_insert_with(|| format!("{style:?}, list {done} of {each} by this seed: {why}"));
            }
            progress.at(k as u64 * each + done);
        }
        let Long { longest, most, asked } = long;
        let name = format!("{style:?}").to_lowercase();
        reached.push(format!("{name}: {each}, {asked} by the reference; most indices {most}; longest {longest:.1?}"));
    }
    progress.end(mismatches);
    Line { operation: "octants, long".to_string(), cases: total, mismatches, smallest: first, reached }
}

/// One in so many of a kind, the last of them, goes to the reference too.
fn long_one(
    points: Vec<Vec3>,
    style: Style,
    done: u64,
    ours: Calculate,
    long: &mut Long,
    seed: u64,
) -> Result<(), String> {
    let case = Case::exact(points);
    let all = plain::all(&case.points);
    let once_in = style.asked_once_in() as u64;
    if done % once_in == once_in - 1 {
        long.asked += 1;
        if expected(&case).as_ref() != Ok(&all) {
            return Err("the reference's lists are not the sweep's".to_string());
        }
    }
    let all = Ok(all);
    let mut taken = differs(&case, &all, ours, seed)?;
    if taken > LIMIT {
        // A busy machine may have taken it.
        taken = taken.min(differs(&case, &all, ours, seed)?);
    }
    long.longest = long.longest.max(taken);
    long.most = long.most.max(all.as_ref().map_or(0, indices));
    match taken > LIMIT {
        true => Err(format!("took {taken:.1?}, over {LIMIT:.1?}")),
        false => Ok(()),
    }
}

/// Lists, an address and how many bytes are lent.
#[derive(Clone, Debug)]
pub struct Written {
    pub lists: [Vec<u32>; 8],
    pub address: u64,
    pub room: usize,
}

impl Written {
    fn needed(&self) -> usize {
        128 + 4 * indices(&self.lists)
    }
}

/// No list and one as long as may be or longer, the last address and the one behind it, room enough and one byte less: also
/// refusals in their order.
fn written_at_the_limit() -> Vec<Written> {
    let mut cases = Vec::new();
    for (list, len) in [(0, 0), (0, VERTICES), (7, VERTICES), (0, VERTICES + 1), (7, VERTICES + 1)] {
        let mut lists: [Vec<u32>; 8] = Default::default();
        lists[list] = (0..len as u32).collect();
        let last = u64::MAX - 96 - 4 * len as u64;
        for address in [last, last + 1] {
            let case = Written { lists: lists.clone(), address, room: 0 };
            let room = case.needed();
            cases.extend([Written { room, ..case.clone() }, Written { room: room - 1, ..case }]);
        }
    }
    cases
}

fn written(r: &mut Random) -> Written {
    let longest = r.once_in(4_000);
    let mut list = || {
        let len = match r.below(16) {
            0 if longest => VERTICES + 1,
            0..=4 if longest => VERTICES,
            0..=5 => 0,
            6 => r.below(60),
            _ => r.below(5),
        };
        (0..len).map(|_| r.u32()).collect()
    };
    let mut case = Written { lists: std::array::from_fn(|_| list()), address: 0, room: 0 };
    // The last address that there is room behind, and those around it.
    let last = u64::MAX - 96 - 4 * indices(&case.lists) as u64;
    case.address = match r.below(8) {
        0 => last,
        1 => last.saturating_add(1 + r.below(3) as u64),
        2 => last - r.below(3) as u64,
        3 => r.pick(&[0, 0x1000, u64::MAX, u64::MAX - 96, u64::MAX - 95, u32::MAX as u64]),
        4 | 5 => r.u64(),
        _ => 0x5000_0000 + r.u32() as u64,
    };
    case.room = match r.below(16) {
        0 => case.needed() - 1 - r.below(3),
        1 => r.below(case.needed()),
        2..=6 => case.needed() + r.below(40),
        _ => case.needed(),
    };
    case
}

fn written_differs(case: &Written, ours: Write, seed: u64) -> Outcome {
    let mut out = Lent::<u8>::new(case.room, seed);
    let answer = ours(&case.lists, case.address, out.buffer());
    // The reference has no buffer: 2 comes after 1.
    let short = case.room < case.needed() && case.lists.iter().all(|list| list.len() <= VERTICES);
    let expected = match short {
        true => Err(2),
        false => reference::octant_bytes(&case.lists, case.address).map_err(|refused| refused.0 as u32),
    };
    if answer != expected.as_ref().map(|_| ()).map_err(|&number| number) {
        return Err(format!("{answer:?}, expected {:?}", expected.map(|_| ())));
    }
    out.check(expected.as_deref().unwrap_or_default())?;
    Ok(expected.map(|bytes| bytes.len()))
}

/// The bytes of lists that hold anything.
pub fn bytes(seed: u64, cases: u64, ours: Write) -> Line {
    let of = Operation { name: "octant_bytes", what: "bytes", refusals: &[1, 2, 12], limit: VERTICES };
    let (mut fixed, mut random) = (written_at_the_limit(), Random::new(seed));
    let case = || {
        let case = fixed.pop().unwrap_or_else(|| written(&mut random));
        let len = case.lists.iter().map(Vec::len).max().unwrap_or(0);
        (case, len)
    };
    compared(of, cases, case, |case, done| written_differs(case, ours, seed ^ done << 20))
}

#[cfg(test)]
mod tests {
    use super::*;
    use crate::proved;

    fn left_out(test: &str) -> bool {
        oracle::missing().inspect(|why| eprintln!("{test} is left out: {why}")).is_some()
    }

    fn holds(line: Line) {
        assert_eq!((line.mismatches, line.smallest), (0, None));
        assert!(line.reached.iter().all(|what| !what.ends_with(": 0")), "{:?}", line.reached);
    }

    #[test]
    fn octants_match() {
        if left_out("octants_match") {
            return;
        }
        for ours in [proved::octants, plain::calculate] {
            holds(lists(1, 40_000, ours));
        }
    }

    /// One of each kind, and each within the limit.
    #[test]
    fn long_lists_match_in_time() {
        if left_out("long_lists_match_in_time") {
            return;
        }
        let line = long(1, 1, proved::octants);
        assert_eq!((line.mismatches, line.smallest), (0, None));
        assert_eq!(line.reached.len(), LONG.len());
    }

    #[test]
    fn bytes_match() {
        if left_out("bytes_match") {
            return;
        }
        for ours in [proved::octant_bytes, plain::write] {
            holds(bytes(1, 30_000, ours));
        }
    }

    #[test]
    fn wrong_octants_are_found() {
        if left_out("wrong_octants_are_found") {
            return;
        }
        let last_of_equal: Calculate = |vertices, lists, work| {
            let turned: Vec<Vec3> = vertices.iter().rev().copied().collect();
            let (n, counts) = (vertices.len(), plain::calculate(&turned, lists, work)?);
            for k in 0..8 {
                let list = &mut lists[k * n..k * n + counts[k]];
                list.reverse();
                list.iter_mut().for_each(|index| *index = n as u32 - 1 - *index);
            }
            Ok(counts)
        };
        let one_too_many: Calculate = |vertices, lists, work| {
            let counts = plain::calculate(vertices, lists, work)?;
            let n = vertices.len();
            (0..8).filter(|&k| counts[k] < n).for_each(|k| lists[k * n + counts[k]] ^= 1);
            Ok(counts)
        };
        let equal_infinities: Calculate = |vertices, lists, work| {
            let finite = |x: f32| x.clamp(f32::MIN, f32::MAX);
            let vertices: Vec<Vec3> = vertices.iter().map(|v| v.map(finite)).collect();
            plain::calculate(&vertices, lists, work)
        };
        for wrong in [last_of_equal, one_too_many, equal_infinities] {
            assert!(lists(2, 2_000, wrong).mismatches > 0);
        }
    }

    #[test]
    fn slow_octants_are_found() {
        let slow: Calculate = |vertices, lists, work| {
            let begun = clock();
            while clock() - begun <= LIMIT {}
            plain::calculate(vertices, lists, work)
        };
        let mut long = Long::default();
        let points = Points::new(1).of(100, Style::Line);
        let found = long_one(points, Style::Line, 0, slow, &mut long, 1);
        assert!(found.is_err_and(|why| why.starts_with("took")));
    }

    #[test]
    fn wrong_bytes_are_found() {
        if left_out("wrong_bytes_are_found") {
            return;
        }
        let null_pointers: Write = |lists, address, out| {
            plain::write(lists, address, out)?;
            (0..8).filter(|&k| lists[k].is_empty()).for_each(|k| out[32 + 8 * k..40 + 8 * k].fill(0));
            Ok(())
        };
        let no_limit: Write = |lists, address, out| match plain::write(lists, address, out) {
            Err(12) => plain::write(lists, 0, out),
            answer => answer,
        };
        for wrong in [null_pointers, no_limit] {
            assert!(bytes(2, 2_000, wrong).mismatches > 0);
        }
    }
}
