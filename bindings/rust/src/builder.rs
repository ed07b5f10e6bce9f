//! Settings, and the builder.
use core::time::Duration;
use std::sync::Mutex;

use crate::breaker::CircuitBreaker;
use crate::clock::Clock;
use crate::error::ThrottleError;
use crate::ffi::{policy, Setting};
use crate::owned::Owned;

/// The condition under which a closed breaker trips open.
#[non_exhaustive]
#[derive(Debug, Clone, Copy, PartialEq)]
pub enum Trip {
    /// Trip after this many failures in a row. 0 becomes 1.
    Consecutive(u32),
    /// Trip when the share of failures among the newest `window` calls reaches `ratio`, with at least
    /// `min_calls` of them.
    Ratio {
        /// How many calls are kept: 1 to 4,096, where 0 becomes 1.
        window: u32,
        /// The share that trips. NaN becomes 1.0, else it is clamped to 0.0 to 1.0.
        ratio: f64,
        /// The calls before the share is looked at, at most the window.
        min_calls: u32,
    },
    /// Trip when at least `failures` failures lie within a rolling `period`.
    Windowed {
        /// The failures that trip: 1 to 4,096, where 0 becomes 1.
        failures: u32,
        /// The period, in whole milliseconds: the rest is dropped.
        period: Duration,
    },
}

impl Trip {
    /// A setting with this policy's numbers and nothing else.
    fn setting(self) -> Setting {
        match self {
            Self::Consecutive(n) => Setting {
                kind: policy::CONSECUTIVE,
                limit: n,
                ..Setting::default()
            },
            Self::Ratio {
                window,
                ratio,
                min_calls,
            } => Setting {
                kind: policy::RATIO,
                limit: window,
                ratio,
                min_calls,
                ..Setting::default()
            },
            Self::Windowed { failures, period } => Setting {
                kind: policy::WINDOWED,
                limit: failures,
                period_secs: period.as_secs(),
                period_nanos: period.subsec_nanos(),
                ..Setting::default()
            },
        }
    }
}

/// Builds a [`CircuitBreaker`]. Without a setting: `Trip::Consecutive(5)`, a cooldown of 30 seconds,
/// and one trial that must succeed.
///
/// # Examples
///
/// ```
/// use std::time::Duration;
/// use pudvirez::{BreakerState, CircuitBreaker, SystemClock, Trip};
///
/// let breaker = CircuitBreaker::builder()
///     .trip(Trip::Windowed { failures: 3, period: Duration::from_secs(10) })
///     .cooldown(Duration::from_secs(5))
///     .half_open(2, 2)
///     .build(SystemClock::new())?;
/// assert_eq!(breaker.state(), BreakerState::Closed);
/// # Ok::<(), pudvirez::ThrottleError>(())
/// ```
#[derive(Debug, Clone, Copy, PartialEq)]
#[must_use = "a builder does nothing until `.build(clock)`"]
pub struct CircuitBreakerBuilder {
    trip: Trip,
    cooldown: Duration,
    trials: u32,
    required: u32,
}

impl Default for CircuitBreakerBuilder {
    fn default() -> Self {
        Self::new()
    }
}

impl CircuitBreakerBuilder {
    /// A builder with the default policy.
    pub const fn new() -> Self {
        Self {
            trip: Trip::Consecutive(5),
            cooldown: Duration::from_secs(30),
            trials: 1,
            required: 1,
        }
    }

    /// When the breaker trips.
    pub fn trip(mut self, trip: Trip) -> Self {
        self.trip = trip;
        self
    }

    /// How long it stays open, in whole milliseconds: the rest is dropped.
    pub fn cooldown(mut self, cooldown: Duration) -> Self {
        self.cooldown = cooldown;
        self
    }

    /// How many trials may be out at once in half-open, and how many must succeed to close. 0 trials
    /// become 1, and `required` is cut to 1 to `trials`.
    pub fn half_open(mut self, trials: u32, required: u32) -> Self {
        self.trials = trials;
        self.required = required;
        self
    }

    /// A fresh closed breaker that reads this clock.
    ///
    /// # Errors
    ///
    /// [`ThrottleError::Limit`] for a window or failures over 4,096.
    pub fn build<C: Clock>(self, clock: C) -> Result<CircuitBreaker<C>, ThrottleError> {
        Ok(CircuitBreaker {
            owned: Mutex::new(Owned::build(self.setting())?),
            clock,
        })
    }

    pub(crate) fn setting(self) -> Setting {
        Setting {
            cooldown_secs: self.cooldown.as_secs(),
            cooldown_nanos: self.cooldown.subsec_nanos(),
            trials: self.trials,
            required: self.required,
            ..self.trip.setting()
        }
    }
}
