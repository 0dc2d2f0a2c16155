//! A clock for times on a shared machine.

use std::time::Duration;

/// The time that this thread had a processor: a shared machine takes it away now and then.
#[cfg(all(target_os = "linux", target_pointer_width = "64"))]
pub fn clock() -> Duration {
    #[repr(C)]
    struct Timespec {
        seconds: i64,
        nanoseconds: i64,
    }
    unsafe extern "C" {
        fn clock_gettime(clock: i32, time: *mut Timespec) -> i32;
    }
    const THREAD_CPUTIME: i32 = 3;
    let mut time = Timespec { seconds: 0, nanoseconds: 0 };
    // SAFETY: the system's struct, exclusively borrowed; where the clock is missing it is left as it is.
    unsafe { clock_gettime(THREAD_CPUTIME, &mut time) };
    Duration::new(time.seconds as u64, time.nanoseconds as u32)
}

/// The time that passes.
#[cfg(not(all(target_os = "linux", target_pointer_width = "64")))]
pub fn clock() -> Duration {
    use std::sync::LazyLock;
    static BEGUN: LazyLock<std::time::Instant> = LazyLock::new(std::time::Instant::now);
    BEGUN.elapsed()
}

#[cfg(test)]
mod tests {
    use super::*;

    #[test]
    fn work_takes_time() {
        let begun = clock();
        let sum: u64 = (0..5_000_000u64).map(std::hint::black_box).sum();
        assert!(std::hint::black_box(sum) > 0 && clock() > begun);
    }
}
