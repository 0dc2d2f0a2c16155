//! Operations of one word over all 2^32 of them (or every n-th).

use crate::operation::made;
use crate::report::{Line, Progress};
use bounds::float;
use oracle::float as source;
use std::sync::atomic::{AtomicU64, Ordering::Relaxed};
use std::sync::Mutex;

/// How much of it: every `stride`-th word from `first`, on this many threads.
#[derive(Clone, Copy)]
pub struct Extent {
    pub first: u32,
    pub stride: u32,
    pub threads: u32,
}

const ALL: u64 = 1 << 32;

pub const NAMES: [&str; 9] =
    ["value_bits", "bits(value)", "to_i32", "wrap_i16", "to_short", "vertex_value", "sqrt", "order_key", "of_count"];

/// The operation of that name.
pub fn run(name: &str, extent: Extent) -> Option<Line> {
    let f = f32::from_bits;
    Some(match name {
        "value_bits" => every(name, extent, float::value_bits, |w| made(f(w))),
        "bits(value)" => every(name, extent, |w| float::bits(float::value(w)), |w| made(f(w))),
        "to_i32" => every(name, extent, |w| float::to_i32(f(w)) as u32, |w| f(w) as i32 as u32),
        "wrap_i16" => every(name, extent, |w| float::wrap_i16(w as i32) as u32, |w| w as i16 as u32),
        "to_short" => every(name, extent, |w| float::to_short(f(w)) as u32, |w| source::to_short(f(w)) as u32),
        "vertex_value" => {
            every(name, extent, |w| float::vertex_value(f(w)) as u32, |w| source::vertex_value(f(w)) as u32)
        }
        "sqrt" => every(name, extent, |w| made(float::sqrt(f(w))), |w| made(f(w).sqrt())),
        "order_key" => every(name, extent, |w| orders(w, keys), |w| orders(w, sorted)),
        // 16 bits: the words' low halves have every count.
        "of_count" => every(name, extent, |w| made(float::of_count(w as u16)), |w| made(w as u16 as f32)),
        _ => return None,
    })
}

fn keys(a: u32, b: u32) -> std::cmp::Ordering {
    float::order_key(a).cmp(&float::order_key(b))
}

fn sorted(a: u32, b: u32) -> std::cmp::Ordering {
    source::cmp_f32(f32::from_bits(a), f32::from_bits(b))
}

/// How a word stands to the next, to the one with the other sign, and to minus infinity (which every NaN is below).
/// Both orders being transitive, these fix the order of every two words.
fn orders(word: u32, cmp: fn(u32, u32) -> std::cmp::Ordering) -> u32 {
    let others = [word.wrapping_add(1), word ^ 0x8000_0000, 0xFF80_0000];
    others.iter().fold(0, |sum, &other| 4 * sum + (cmp(word, other) as i32 + 1) as u32)
}

fn every<A, B>(name: &str, extent: Extent, ours: A, theirs: B) -> Line
where
    A: Fn(u32) -> u32 + Sync,
    B: Fn(u32) -> u32 + Sync,
{
    let Extent { first, stride, threads } = extent;
    let total = (ALL - first as u64).div_ceil(stride as u64);
    let (done, mismatches, least) = (AtomicU64::new(0), AtomicU64::new(0), Mutex::new(None::<u32>));
    let progress = Mutex::new(Progress::new(name, total));
    let part = |thread: u32| {
        let (from, to) = (total * thread as u64 / threads as u64, total * (thread as u64 + 1) / threads as u64);
        let mut at = from;
        while at < to {
            let end = to.min(at + (1 << 22));
            for i in at..end {
                let word = (first as u64 + i * stride as u64) as u32;
                if ours(word) != theirs(word) {
                    mismatches.fetch_add(1, Relaxed);
                    keep_plainest(&least, word);
                }
            }
            let sum = done.fetch_add(end - at, Relaxed);
            progress.lock().expect("no panic under the lock").at(sum);
            at = end;
        }
    };
    std::thread::scope(|s| {
        for thread in 0..threads {
            let part = &part;
            s.spawn(move || part(thread));
        }
    });
    let mismatches = mismatches.into_inner();
    progress.into_inner().expect("all threads are done").end(mismatches);
    let smallest = least.into_inner().expect("all threads are done").map(|w| {
        format!(
            "input {w:08X} ({:e})\n  proved library  {:08X}\n  reference       {:08X}",
            f32::from_bits(w),
            ours(w),
            theirs(w)
        )
    });
    let words = if stride == 1 { "all words".to_string() } else { format!("1 word in {stride}") };
    Line { operation: format!("{name}, {words}"), cases: total, mismatches, smallest, reached: Vec::new() }
}

/// Of the words that do not match, the one with the fewest bits: all are seen, so nothing needs shrinking.
#[cold]
fn keep_plainest(least: &Mutex<Option<u32>>, word: u32) {
    let mut least = least.lock().expect("no panic under the lock");
    if least.is_none_or(|kept| (word.count_ones(), word) < (kept.count_ones(), kept)) {
        *least = Some(word);
    }
}
