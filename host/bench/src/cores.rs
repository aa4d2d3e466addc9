//! The time that a piece of work has on a core: what other programs take meanwhile is not counted.

use std::fs;
use std::thread;
use std::time::{Duration, Instant};

/// What the work gives, and how long this thread was on a core for it; the time that passed, where the system does not tell.
pub fn timed<T>(work: impl FnOnce() -> T) -> (T, Duration) {
    let before = on_core();
    let begin = Instant::now();
    let result = work();
    let passed = begin.elapsed();
    let time = match (before, on_core()) {
        (Some(before), Some(after)) if after > before => passed.min(after - before),
        _ => passed,
    };
    (result, time)
}

/// The time that this thread has had on a core so far.
fn on_core() -> Option<Duration> {
    // The system brings the count up to date when a thread leaves its core, so it sleeps for a moment.
    thread::sleep(Duration::from_micros(1));
    let told = fs::read_to_string("/proc/thread-self/schedstat").ok()?;
    told.split(' ').next()?.parse().ok().map(Duration::from_nanos)
}

#[cfg(test)]
mod tests {
    use super::*;

    #[test]
    fn work_takes_no_longer_than_what_passes() {
        let begin = Instant::now();
        let (sum, time) =
            timed(|| (0..3_000_000_u64).fold(0, |sum, next| std::hint::black_box(sum ^ next)));
        assert_eq!(sum, (0..3_000_000).fold(0, |sum, next| sum ^ next));
        assert!(Duration::from_micros(100) < time && time <= begin.elapsed(), "{time:?}");
    }
}
