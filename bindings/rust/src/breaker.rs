//! The breaker.
use core::fmt;
use std::sync::{Mutex, MutexGuard, PoisonError};

use crate::builder::CircuitBreakerBuilder;
use crate::clock::{Clock, SystemClock};
use crate::decision::Decision;
use crate::error::ThrottleError;
use crate::ffi::state;
use crate::owned::Owned;
use crate::permit::{Permit, SlotGuard};

/// The state of a breaker, as a snapshot.
#[derive(Debug, Clone, Copy, PartialEq, Eq, Hash)]
pub enum BreakerState {
    /// Calls are admitted and failures counted.
    Closed,
    /// A few trial calls are admitted.
    HalfOpen,
    /// Calls are shed.
    Open,
}

impl BreakerState {
    /// The state of this code, in a sound record.
    pub(crate) fn of(code: u8) -> Self {
        match code {
            state::CLOSED => Self::Closed,
            state::HALF_OPEN => Self::HalfOpen,
            _ => Self::Open,
        }
    }
}

/// A circuit breaker timed by the clock `C`. Threads share it by reference: one lock guards it, and
/// each call is one step under that lock.
///
/// Settle the [`Permit`] of each admitted call. That is exact: a permit's ticket says which spell of
/// the breaker it belongs to, so an answer that comes late changes nothing in a later spell.
///
/// # Examples
///
/// ```
/// use std::time::Duration;
/// use pudvirez::{BreakerState, CircuitBreaker, Decision, ManualClock, ThrottleError, Trip};
///
/// let clock = ManualClock::new(0);
/// let breaker = CircuitBreaker::builder()
///     .trip(Trip::Consecutive(1))
///     .cooldown(Duration::from_secs(1))
///     .build(&clock)?;
/// breaker.try_acquire(Decision::Acquired)?.failure()?;
/// assert_eq!(breaker.state(), BreakerState::Open);
///
/// clock.set(400);
/// let shed = breaker.try_acquire(Decision::Acquired).unwrap_err();
/// assert_eq!(shed, ThrottleError::CircuitOpen { retry_after: Duration::from_millis(600) });
///
/// clock.set(1000);
/// breaker.try_acquire(Decision::Acquired)?.success();
/// assert_eq!(breaker.state(), BreakerState::Closed);
/// # Ok::<(), ThrottleError>(())
/// ```
pub struct CircuitBreaker<C: Clock = SystemClock> {
    pub(crate) owned: Mutex<Owned>,
    pub(crate) clock: C,
}

// On one clock only, so that `CircuitBreaker::builder()` needs no type; `build` names the clock.
impl CircuitBreaker<SystemClock> {
    /// Starts building a breaker.
    pub fn builder() -> CircuitBreakerBuilder {
        CircuitBreakerBuilder::new()
    }
}

impl<C: Clock> CircuitBreaker<C> {
    /// The state as the last call left it. An open breaker whose cooldown is over stays
    /// [`Open`](BreakerState::Open) until the next admission.
    #[must_use]
    pub fn state(&self) -> BreakerState {
        BreakerState::of(self.lock().record.shared.state)
    }

    /// Puts new settings in force: closed, with nothing counted. Permits of before have no effect any more.
    /// To be able to come back, save the breaker first: [`Checkpoints`](crate::Checkpoints).
    ///
    /// # Errors
    ///
    /// [`ThrottleError::Limit`] for a window or a number of failures over 4,096; the breaker stays as it was.
    pub fn reconfigure(&self, settings: CircuitBreakerBuilder) -> Result<(), ThrottleError> {
        self.lock().reconfigure(settings.setting())
    }

    /// Admits a call without waiting, given the reply of the inner limiter to a request of 1 unit.
    ///
    /// A breaker that sheds has no use for an [`Acquired`](Decision::Acquired) unit: after
    /// [`ThrottleError::CircuitOpen`] give it back to the inner limiter. With
    /// [`try_acquire_with`](Self::try_acquire_with) there is none to give back.
    ///
    /// # Errors
    ///
    /// - [`ThrottleError::CircuitOpen`] where the breaker sheds, with the delay.
    /// - [`ThrottleError::InnerRetry`] and [`ThrottleError::CostExceedsCapacity`] where the breaker would admit
    ///   but the reply is not `Acquired`. The admission has been given back; a move from open to
    ///   half-open stays.
    ///
    /// # Examples
    ///
    /// ```
    /// use std::time::Duration;
    /// use pudvirez::{CircuitBreaker, Decision, ManualClock, ThrottleError};
    ///
    /// let breaker = CircuitBreaker::builder().build(ManualClock::new(0))?;
    /// let retry = Decision::Retry { after: Duration::from_millis(5) };
    /// assert_eq!(breaker.try_acquire(retry).unwrap_err(), ThrottleError::InnerRetry);
    /// # Ok::<(), ThrottleError>(())
    /// ```
    pub fn try_acquire(&self, inner: Decision) -> Result<Permit<'_, C>, ThrottleError> {
        let now_ms = self.now_ms();
        let ticket = self.lock().try_admit(now_ms, inner)?;
        Ok(Permit::new(self, ticket))
    }

    /// Admits a call without waiting, and asks the inner limiter for 1 unit only if the breaker admits:
    /// a shed takes no unit. The breaker isn't locked while it is asked.
    ///
    /// # Errors
    ///
    /// As [`try_acquire`](Self::try_acquire). The admission has been given back if the limiter refused,
    /// and also if `ask` panics.
    ///
    /// # Examples
    ///
    /// ```
    /// use std::time::Duration;
    /// use pudvirez::{CircuitBreaker, Decision, ManualClock, ThrottleError, Trip};
    ///
    /// let breaker = CircuitBreaker::builder().trip(Trip::Consecutive(1)).build(ManualClock::new(0))?;
    /// let mut units = 1;
    /// let mut take = || match units {
    ///     0 => Decision::Retry { after: Duration::from_millis(5) },
    ///     _ => { units -= 1; Decision::Acquired }
    /// };
    /// let permit = breaker.try_acquire_with(&mut take)?;
    /// assert_eq!(breaker.try_acquire_with(&mut take).unwrap_err(), ThrottleError::InnerRetry);
    /// permit.failure()?;
    ///
    /// let shed = breaker.try_acquire_with(|| unreachable!("an open breaker does not ask"));
    /// assert_eq!(shed.unwrap_err().number(), 6);
    /// # Ok::<(), ThrottleError>(())
    /// ```
    pub fn try_acquire_with(
        &self,
        ask: impl FnOnce() -> Decision,
    ) -> Result<Permit<'_, C>, ThrottleError> {
        let now_ms = self.now_ms();
        let ticket = self.lock().admit(now_ms)?;
        let slot = SlotGuard::new(self, ticket);
        match ask() {
            Decision::Acquired => Ok(slot.into_permit()),
            Decision::Retry { .. } => Err(ThrottleError::InnerRetry),
            Decision::Impossible { capacity } => {
                Err(ThrottleError::CostExceedsCapacity { cost: 1, capacity })
            }
        }
    }

    /// Whether a waiter that holds this permit of this breaker may still go.
    ///
    /// # Errors
    ///
    /// [`ThrottleError::CircuitOpen`] if the breaker has left the permit's spell and is not closed. The
    /// delay is what is left of the cooldown, and zero in half-open.
    pub fn still_admits(&self, permit: &Permit<'_, C>) -> Result<(), ThrottleError> {
        let now_ms = self.now_ms();
        self.lock().still_admits(now_ms, permit.ticket)
    }

    /// Reports a success of a call that has no permit. Prefer [`Permit::success`].
    ///
    /// It carries no ticket: in half-open it counts as a trial that succeeded, whatever spell the
    /// answer belonged to.
    pub fn record_success(&self) {
        let now_ms = self.now_ms();
        told(self.lock().record_manual(now_ms, true));
    }

    /// Reports a failure of a call that has no permit. Prefer [`Permit::failure`].
    ///
    /// It carries no ticket: in half-open it opens the breaker, whatever spell the answer belonged
    /// to.
    ///
    /// # Errors
    ///
    /// [`ThrottleError::Full`], as [`Permit::failure`].
    ///
    /// # Examples
    ///
    /// ```
    /// use pudvirez::{BreakerState, CircuitBreaker, ManualClock, Trip};
    ///
    /// let breaker = CircuitBreaker::builder().trip(Trip::Consecutive(2)).build(ManualClock::new(0))?;
    /// breaker.record_failure()?;
    /// breaker.record_failure()?;
    /// assert_eq!(breaker.state(), BreakerState::Open);
    /// # Ok::<(), pudvirez::ThrottleError>(())
    /// ```
    pub fn record_failure(&self) -> Result<(), ThrottleError> {
        let now_ms = self.now_ms();
        self.lock().record_manual(now_ms, false)
    }

    /// Forces the breaker closed and empties its history. A new spell begins, from closed too.
    ///
    /// # Examples
    ///
    /// ```
    /// use pudvirez::{BreakerState, CircuitBreaker, ManualClock, Trip};
    ///
    /// let breaker = CircuitBreaker::builder().trip(Trip::Consecutive(1)).build(ManualClock::new(0))?;
    /// breaker.record_failure()?;
    /// breaker.reset();
    /// assert_eq!(breaker.state(), BreakerState::Closed);
    /// # Ok::<(), pudvirez::ThrottleError>(())
    /// ```
    pub fn reset(&self) {
        told(self.lock().reset());
    }

    /// Failures in a thousand of the calls that a [`Trip::Ratio`](crate::Trip::Ratio) breaker holds,
    /// the remainder dropped; 0 for another policy or none held.
    #[must_use]
    pub fn board(&self) -> u64 {
        told(self.lock().board())
    }

    /// Read before the lock is taken, so that a clock can't hold it.
    pub(crate) fn now_ms(&self) -> u64 {
        self.clock.now_ms()
    }

    pub(crate) fn lock(&self) -> MutexGuard<'_, Owned> {
        self.owned.lock().unwrap_or_else(PoisonError::into_inner)
    }
}

impl<C: Clock> fmt::Debug for CircuitBreaker<C> {
    fn fmt(&self, f: &mut fmt::Formatter<'_>) -> fmt::Result {
        f.debug_struct("CircuitBreaker")
            .field("state", &self.state())
            .finish_non_exhaustive()
    }
}

/// The answer of a call that a sound breaker never refuses.
pub(crate) fn told<T>(answer: Result<T, ThrottleError>) -> T {
    match answer {
        Ok(value) => value,
        Err(refused) => unreachable!("a sound breaker {refused}"),
    }
}
