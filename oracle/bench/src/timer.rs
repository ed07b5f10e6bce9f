//! The least of many runs.

use std::time::Instant;

/// The least time of a run in nanoseconds. What `prepare` does isn't timed.
pub fn least<T>(runs: u32, mut prepare: impl FnMut() -> T, mut run: impl FnMut(&mut T)) -> f64 {
    (0..runs)
        .map(|_| {
            let mut thing = prepare();
            let start = Instant::now();
            run(&mut thing);
            start.elapsed().as_nanos() as f64
        })
        .fold(f64::INFINITY, f64::min)
}
