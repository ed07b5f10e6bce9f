//! Stand-in for clock_lib: what circuit.rs uses of it, and a clock set by hand.

use std::sync::atomic::{AtomicU64, Ordering};
use std::time::Duration;

/// A point in time, counted from the clock's own zero.
#[derive(Clone, Copy, Debug, PartialEq, Eq, PartialOrd, Ord)]
pub struct Monotonic(Duration);

impl Monotonic {
    /// The time since `earlier`, zero if that is later.
    pub fn saturating_duration_since(self, earlier: Self) -> Duration {
        self.0.saturating_sub(earlier.0)
    }
}

/// A source of time.
pub trait Clock: Send + Sync {
    /// The present reading.
    fn now(&self) -> Monotonic;
}

/// The builder's clock until a `SetClock` takes its place. It stands at zero.
#[derive(Clone, Copy, Debug, Default)]
pub struct SystemClock;

impl SystemClock {
    /// The clock.
    pub const fn new() -> Self {
        Self
    }
}

impl Clock for SystemClock {
    fn now(&self) -> Monotonic {
        Monotonic(Duration::ZERO)
    }
}

/// A clock that reads the milliseconds last set: any `u64`, also an earlier one.
#[derive(Debug, Default)]
pub struct SetClock(AtomicU64);

impl SetClock {
    /// Sets the reading.
    pub fn set(&self, ms: u64) {
        self.0.store(ms, Ordering::Relaxed);
    }
}

impl Clock for SetClock {
    fn now(&self) -> Monotonic {
        Monotonic(Duration::from_millis(self.0.load(Ordering::Relaxed)))
    }
}
