//! What a long step is doing, and for how long, on a terminal only.

use std::io::{stderr, IsTerminal, Write};
use std::sync::mpsc::{channel, RecvTimeoutError};
use std::time::{Duration, Instant};

/// A step that takes less is not worth a line.
const PATIENCE: Duration = Duration::from_millis(400);

/// Does the work. Where standard error is a terminal and it takes a while, a line there says so and counts the seconds; it is
/// gone when the work is done.
pub fn during<T>(what: &str, work: impl FnOnce() -> T) -> T {
    if !stderr().is_terminal() {
        return work();
    }
    let (done, waiting) = channel::<()>();
    let start = Instant::now();
    std::thread::scope(|scope| {
        scope.spawn(move || {
            let mut shown = false;
            while waiting.recv_timeout(PATIENCE) == Err(RecvTimeoutError::Timeout) {
                shown = true;
                show(&format!("\r{what}: {:.0} s", start.elapsed().as_secs_f64()));
            }
            if shown {
                show(&format!("\r{:width$}\r", "", width = what.chars().count() + 12));
            }
        });
        let answer = work();
        drop(done); // a panic drops it as well
        answer
    })
}

/// A terminal that does not take it is not worth a failure.
fn show(text: &str) {
    let mut out = stderr().lock();
    let _ = out.write_all(text.as_bytes()).and_then(|()| out.flush());
}
