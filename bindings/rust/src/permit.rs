//! Permits.
use core::fmt;

use crate::breaker::{told, CircuitBreaker};
use crate::clock::{Clock, SystemClock};
use crate::error::ThrottleError;
use crate::ffi::Ticket;
use crate::preview::{Outcome, Preview};

/// An admitted call. Settle it once the outcome is known; dropped unsettled it is a failure.
///
/// Settling is exact: the permit's ticket says which spell of the breaker it belongs to. In a later
/// spell it changes nothing, and [`success`](Self::success) and [`failure`](Self::failure) tell nothing.
#[must_use = "settle the permit; dropping it counts as a failure"]
pub struct Permit<'a, C: Clock = SystemClock> {
    breaker: &'a CircuitBreaker<C>,
    pub(crate) ticket: Ticket,
    settled: bool,
}

impl<'a, C: Clock> Permit<'a, C> {
    pub(crate) fn new(breaker: &'a CircuitBreaker<C>, ticket: Ticket) -> Self {
        Self {
            breaker,
            ticket,
            settled: false,
        }
    }

    /// Whether it is a trial of a half-open breaker.
    #[must_use]
    pub fn is_trial(&self) -> bool {
        self.ticket.probe != 0
    }

    /// Records that the call succeeded.
    pub fn success(mut self) {
        let now_ms = self.read_clock();
        told(self.breaker.lock().permit_success(now_ms, self.ticket));
    }

    /// Records that the call failed.
    ///
    /// # Errors
    ///
    /// [`ThrottleError::Full`], number 5: a closed [`Trip::Windowed`](crate::Trip::Windowed) breaker still
    /// holds 4,096 times after those at the front that are past its period are gone, and has no place for
    /// one more. The failure is not recorded, the breaker is as it was, and the permit is used up. Only
    /// readings that went back lead there; [`reset`](CircuitBreaker::reset) empties the times.
    pub fn failure(mut self) -> Result<(), ThrottleError> {
        let now_ms = self.read_clock();
        self.breaker.lock().permit_failure(now_ms, self.ticket)
    }

    /// Gives the admission back without an outcome: the call was never made. Answers the units to
    /// refund to the inner limiter, which are 1 in every state.
    ///
    /// # Examples
    ///
    /// ```
    /// use pudvirez::{CircuitBreaker, Decision, ManualClock};
    ///
    /// let breaker = CircuitBreaker::builder().build(ManualClock::new(0))?;
    /// let refund = breaker.try_acquire(Decision::Acquired)?.cancel();
    /// assert_eq!(refund, 1);
    /// # Ok::<(), pudvirez::ThrottleError>(())
    /// ```
    #[must_use = "these units are to be refunded to the inner limiter"]
    pub fn cancel(mut self) -> u32 {
        self.settled = true;
        told(self.breaker.lock().permit_cancel(self.ticket))
    }

    /// What finishing the permit so would answer and leave, at the clock's present reading. Nothing
    /// changes, and the permit is still to be finished; until then another thread may move the breaker.
    ///
    /// # Examples
    ///
    /// ```
    /// use std::time::Duration;
    /// use pudvirez::{BreakerState, CircuitBreaker, Decision, ManualClock, Outcome, Trip};
    ///
    /// let breaker = CircuitBreaker::builder()
    ///     .trip(Trip::Consecutive(1))
    ///     .cooldown(Duration::from_secs(1))
    ///     .build(ManualClock::new(30))?;
    /// let permit = breaker.try_acquire(Decision::Acquired)?;
    /// let preview = permit.preview(Outcome::Failure);
    /// assert_eq!(preview.state, BreakerState::Open);
    /// assert_eq!(preview.to_string(), "would open until 1030 ms");
    ///
    /// assert_eq!(breaker.state(), BreakerState::Closed);
    /// permit.failure()?;
    /// assert_eq!(breaker.state(), preview.state);
    /// # Ok::<(), pudvirez::ThrottleError>(())
    /// ```
    #[must_use]
    pub fn preview(&self, outcome: Outcome) -> Preview {
        let now_ms = match outcome {
            Outcome::Success | Outcome::Failure => Some(self.breaker.now_ms()),
            Outcome::Cancel => None,
        };
        let owned = self.breaker.lock();
        let told = match now_ms {
            Some(now_ms) => owned.preview_settle(now_ms, self.ticket, outcome == Outcome::Success),
            None => owned.preview_abort(self.ticket),
        };
        Preview::new(told, &owned.record, self.ticket, outcome)
    }

    /// The reading to settle at. A clock that panics leaves the permit to its drop.
    fn read_clock(&mut self) -> u64 {
        let now_ms = self.breaker.now_ms();
        self.settled = true;
        now_ms
    }
}

impl<C: Clock> Drop for Permit<'_, C> {
    fn drop(&mut self) {
        if self.settled {
            return;
        }
        let now_ms = self.breaker.now_ms();
        // A drop has nobody to tell number 5 to; the breaker is as it was.
        let _ = self.breaker.lock().permit_dropped(now_ms, self.ticket);
    }
}

impl<C: Clock> fmt::Debug for Permit<'_, C> {
    fn fmt(&self, f: &mut fmt::Formatter<'_>) -> fmt::Result {
        f.debug_struct("Permit")
            .field("trial", &self.is_trial())
            .finish_non_exhaustive()
    }
}

/// An admission whose limiter is being asked. Dropped before it becomes a permit it is given back.
pub(crate) struct SlotGuard<'a, C: Clock> {
    breaker: &'a CircuitBreaker<C>,
    ticket: Option<Ticket>,
}

impl<'a, C: Clock> SlotGuard<'a, C> {
    pub(crate) fn new(breaker: &'a CircuitBreaker<C>, ticket: Ticket) -> Self {
        Self {
            breaker,
            ticket: Some(ticket),
        }
    }

    pub(crate) fn into_permit(mut self) -> Permit<'a, C> {
        let ticket = self.ticket.take().expect("a guard holds its ticket");
        Permit::new(self.breaker, ticket)
    }
}

impl<C: Clock> Drop for SlotGuard<'_, C> {
    fn drop(&mut self) {
        if let Some(ticket) = self.ticket.take() {
            told(self.breaker.lock().abort(ticket));
        }
    }
}
