//! What a long step is doing, and for how long, on a terminal only.

use crate::number::counted;
use crate::pace::Pace;
use bounds::Geometry;
use std::io::{stderr, IsTerminal, Write};
use std::sync::atomic::{AtomicBool, AtomicUsize, Ordering};
use std::sync::mpsc::{channel, RecvTimeoutError};
use std::time::{Duration, Instant};

/// A step that takes less is not worth a line.
const PATIENCE: Duration = Duration::from_secs(1);

/// Whether a line is shown: of work within work the outermost alone has one.
static SHOWN: AtomicBool = AtomicBool::new(false);

fn is_shown() -> bool {
    stderr().is_terminal() && !SHOWN.load(Ordering::Relaxed)
}

/// Does the work. Where standard error is a terminal and it takes a while, a line there says so and counts the seconds; it is
/// gone when the work is done.
pub fn during<T>(what: &str, work: impl FnOnce() -> T) -> T {
    showing(|seconds| format!("{what}: {seconds:.0} s"), work)
}

/// [`during`] of work that counts what it has done of so many parts: the line says how many, and when the rest may be done.
pub fn counting<T>(what: &str, total: usize, work: impl FnOnce(&AtomicUsize) -> T) -> T {
    let done = AtomicUsize::new(0);
    let words = |seconds: f64| {
        let n = done.load(Ordering::Relaxed).min(total);
        let left = if n == 0 {
            String::new()
        } else {
            format!(", some {:.0} s left", seconds / n as f64 * (total - n) as f64)
        };
        format!("{what}: {n} of {total}, {seconds:.0} s{left}")
    };
    showing(words, || work(&done))
}

/// What [`showing`] says while a mesh is prepared: of kind 4 about how many vertices are shrunk.
pub fn preparing(geometry: &Geometry) -> impl Fn(f64) -> String + Sync {
    let (polygons, kind) = (counted(geometry.polygons.len(), "polygon"), geometry.kind);
    let measured = is_shown() && kind == Geometry::PLAIN;
    let pace = measured.then(|| Pace::of(geometry)).flatten();
    move |seconds| match &pace {
        Some(pace) => pace.words(seconds),
        None => format!("preparing {polygons} as kind {kind}: {seconds:.0} s"),
    }
}

/// Does the work, and shows a line of so many seconds while it takes.
pub fn showing<T>(words: impl Fn(f64) -> String + Sync, work: impl FnOnce() -> T) -> T {
    if !is_shown() || SHOWN.swap(true, Ordering::Relaxed) {
        return work();
    }
    let (done, waiting) = channel::<()>();
    let (start, words) = (Instant::now(), &words);
    std::thread::scope(|scope| {
        scope.spawn(move || {
            let mut width = 0;
            while waiting.recv_timeout(PATIENCE) == Err(RecvTimeoutError::Timeout) {
                let line = words(start.elapsed().as_secs_f64());
                width = width.max(line.chars().count());
                show(&format!("\r{line:width$}"));
            }
            if width > 0 {
                show(&format!("\r{:width$}\r", ""));
            }
        });
        let answer = work();
        drop(done); // a panic drops it as well
        SHOWN.store(false, Ordering::Relaxed);
        answer
    })
}

/// A terminal that does not take it is not worth a failure.
fn show(text: &str) {
    let mut out = stderr().lock();
    let _ = out.write_all(text.as_bytes()).and_then(|()| out.flush());
}
