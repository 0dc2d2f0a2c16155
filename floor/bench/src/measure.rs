//! Times the sides in turn, so that a slow moment of the machine meets all of them, and takes the least.

use crate::subjects::{Pass, Queries, Side, Subject};
use compare::clock::clock;
use std::time::Duration;

/// One size of a subject. Times are of a whole pass, in nanoseconds.
pub struct Row {
    pub size: usize,
    /// What a pass does: so many boxes, records, polygons, vertices, children or calls.
    pub units: usize,
    pub times: Vec<(Side, f64)>,
    pub instructions: Vec<(Side, u64)>,
    pub queries: Option<Queries>,
}

impl Row {
    pub fn time(&self, side: Side) -> Option<f64> {
        self.times.iter().find(|(of, _)| *of == side).map(|(_, time)| *time)
    }

    /// Nanoseconds of one of them.
    pub fn each(&self, side: Side) -> Option<f64> {
        Some(self.time(side)? / self.units.max(1) as f64)
    }

    /// The library's time by another side's.
    pub fn ratio(&self, to: Side) -> Option<f64> {
        Some(self.time(Side::Library)? / self.time(to)?)
    }

    pub fn instructions(&self, side: Side) -> Option<f64> {
        let of = |side: &Side| self.instructions.iter().find(|(of, _)| of == side);
        of(&side).map(|(_, count)| *count as f64 / self.units.max(1) as f64)
    }
}

pub struct Series {
    pub subject: Subject,
    pub rows: Vec<Row>,
}

/// A sample lasts at least this long, so that the clock's own steps do not show.
const LEAST: Duration = Duration::from_millis(1);

/// After this long a side has samples enough, if it has a few.
const ENOUGH: Duration = Duration::from_secs(10);
pub const FEWEST: usize = 3;

/// After this long it has enough, be it one.
const LONG: Duration = Duration::from_secs(20);

pub fn row(subject: &Subject, size: usize, samples: usize, seed: u64) -> Row {
    let mut work = (subject.work)(size, seed);
    let times = least(&mut work.passes, samples);
    Row { size, units: work.units, times, instructions: Vec::new(), queries: work.queries }
}

/// A side's samples so far.
struct Sampled {
    side: Side,
    /// Passes of one sample.
    passes: u32,
    taken: usize,
    spent: Duration,
    least: f64,
}

impl Sampled {
    fn enough(&self, samples: usize) -> bool {
        self.taken >= samples || self.spent > ENOUGH && self.taken >= FEWEST || self.spent > LONG
    }
}

/// The least time of each pass. What else runs on the machine only adds time. A side that has enough waits for no other:
/// of a slow one there are few samples, of a quick one beside it not.
fn least(passes: &mut [(Side, Pass)], samples: usize) -> Vec<(Side, f64)> {
    let first = |(side, pass): &mut (Side, Pass)| {
        let begun = clock();
        let (passes, least) = passes_a_sample(pass);
        Sampled { side: *side, passes, taken: 1, spent: clock() - begun, least }
    };
    let mut sampled: Vec<Sampled> = passes.iter_mut().map(first).collect();
    while sampled.iter().any(|s| !s.enough(samples)) {
        for (s, (_, pass)) in sampled.iter_mut().zip(passes.iter_mut()).filter(|(s, _)| !s.enough(samples)) {
            let begun = clock();
            s.least = s.least.min(sample(pass, s.passes));
            (s.taken, s.spent) = (s.taken + 1, s.spent + (clock() - begun));
        }
    }
    sampled.into_iter().map(|s| (s.side, s.least)).collect()
}

/// How many passes make a sample, and the first.
fn passes_a_sample(pass: &mut Pass) -> (u32, f64) {
    let mut passes = 1;
    loop {
        let time = sample(pass, passes);
        if time * passes as f64 > LEAST.as_nanos() as f64 {
            return (passes, time);
        }
        passes *= 2;
    }
}

/// Nanoseconds of one pass, from several.
fn sample(pass: &mut Pass, passes: u32) -> f64 {
    let begun = clock();
    (0..passes).for_each(|_| pass());
    (clock() - begun).as_nanos() as f64 / passes as f64
}

#[cfg(test)]
mod tests {
    use super::*;
    use std::hint::black_box;

    #[test]
    fn each_pass_is_timed_and_the_clock_goes_on() {
        let busy = |n: u64| -> Pass {
            Box::new(move || {
                black_box((0..n).map(black_box).sum::<u64>());
            })
        };
        let mut passes = [(Side::Library, busy(1_000)), (Side::Reference, busy(50_000))];
        let times = least(&mut passes, 3);
        assert_eq!(times.iter().map(|(side, _)| *side).collect::<Vec<_>>(), [Side::Library, Side::Reference]);
        assert!(times[0].1 > 0.0 && times[0].1 * 5.0 < times[1].1, "{times:?}");
    }

    #[test]
    fn a_side_has_enough_by_its_number_or_its_time() {
        let side = |taken, seconds| Sampled {
            side: Side::Library,
            passes: 1,
            taken,
            spent: Duration::from_secs(seconds),
            least: 1.0,
        };
        for (taken, seconds, enough) in
            [(30, 1, false), (31, 1, true), (2, 11, false), (3, 11, true), (3, 9, false), (1, 19, false), (1, 21, true)]
        {
            assert_eq!(side(taken, seconds).enough(31), enough, "{taken} samples, {seconds} s");
        }
    }
}
