//! Work on all processors: a shared counter hands out its pieces.

use std::num::NonZero;
use std::sync::atomic::{AtomicBool, AtomicUsize, Ordering};
use std::sync::Mutex;
use std::thread;

/// The processors that there are; one where that is not known.
pub fn processors() -> usize {
    thread::available_parallelism().map_or(1, NonZero::get)
}

/// Does the work of each number below `n`, on all processors, and answers what came of each, in their order. `done` counts what is
/// finished. After a failure no more is begun; of several the one with the lowest number is answered.
pub fn each<T: Send, E: Send>(
    n: usize,
    done: &AtomicUsize,
    work: impl Fn(usize) -> Result<T, E> + Sync,
) -> Result<Vec<T>, E> {
    let (next, failed) = (AtomicUsize::new(0), AtomicBool::new(false));
    let answers: Mutex<Vec<Option<Result<T, E>>>> = Mutex::new((0..n).map(|_| None).collect());
    let worker = || {
        while !failed.load(Ordering::Relaxed) {
            let k = next.fetch_add(1, Ordering::Relaxed);
            if k >= n {
                break;
            }
            let answer = work(k);
            failed.fetch_or(answer.is_err(), Ordering::Relaxed);
            done.fetch_add(1, Ordering::Relaxed);
            answers.lock().expect("no worker panics while it holds the list")[k] = Some(answer);
        }
    };
    thread::scope(|scope| {
        for _ in 1..processors().min(n) {
            scope.spawn(worker);
        }
        worker();
    });
    // Numbers are handed out rising, so what was not begun stands behind the failure.
    answers.into_inner().expect("no worker panicked").into_iter().map_while(|answer| answer).collect()
}

#[cfg(test)]
mod tests {
    use super::*;

    #[test]
    fn answers_stand_in_order_and_the_first_failure_is_told() {
        let done = AtomicUsize::new(0);
        let squares: Result<Vec<usize>, ()> = each(1000, &done, |k| Ok(k * k));
        assert_eq!(squares, Ok((0..1000).map(|k| k * k).collect()));
        assert_eq!(done.into_inner(), 1000);
        let odd = each(1000, &AtomicUsize::new(0), |k| if k < 300 { Ok(k) } else { Err(k) });
        assert_eq!(odd, Err(300));
        assert_eq!(each(0, &AtomicUsize::new(0), Err::<(), usize>), Ok(vec![]));
    }
}
