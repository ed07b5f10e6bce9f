//! Waits for an inner limiter.
use core::fmt;
use core::time::Duration;

use crate::breaker::{told, CircuitBreaker};
use crate::clock::Clock;
use crate::error::{checked_wait, units, ThrottleError};
use crate::ffi::phase::{HOLDING, LOOKING};
use crate::ffi::reply::{GRANTED, NEVER, RETRY};
use crate::ffi::{act, told as number, Pending, Turn, Waited};
use crate::owned::ticket;
use crate::permit::Permit;

/// What the inner limiter replied to a waiting call that asks for 1 unit.
#[derive(Debug, Clone, Copy, PartialEq, Eq, Hash)]
pub enum Reply {
    /// The unit has been taken, and may be used after this long.
    Granted {
        /// Zero: now.
        after: Duration,
    },
    /// Nothing was taken.
    Retry {
        /// When to ask again; zero for a race that was lost.
        after: Duration,
    },
    /// The request can never be granted.
    Never,
}

/// What a wait is driven over: the inner limiter, and the clock and sleep of the runtime.
///
/// The times of a wait are since any one start, and at most 2^62 nanoseconds. A limiter without pauses
/// leaves the methods that have a body as they are.
pub trait Host {
    /// The clock.
    fn now(&mut self) -> Duration;

    /// Asks the limiter for 1 unit, to be used within this budget: `Duration::MAX` without a deadline.
    fn ask(&mut self, budget: Duration) -> Reply;

    /// The limiter's capacity.
    fn capacity(&mut self) -> u32;

    /// Takes units back that were granted and are not used.
    fn refund(&mut self, cost: u32);

    /// Sleeps this long.
    fn sleep(&mut self, nap: Duration);

    /// Sleeps this long, or until the resume epoch is another than this.
    fn sleep_unless_resumed(&mut self, nap: Duration, epoch: u64) {
        let _ = epoch;
        self.sleep(nap);
    }

    /// Lets others run.
    fn yield_now(&mut self) {
        std::thread::yield_now();
    }

    /// A number that changes when a pause is lifted.
    fn resume_epoch(&mut self) -> u64 {
        0
    }

    /// How much longer the limiter is paused.
    fn paused_for(&mut self) -> Duration {
        Duration::ZERO
    }

    /// By how much pauses have postponed what the limiter granted, in all.
    fn postponed(&mut self) -> Duration {
        Duration::ZERO
    }
}

impl<H: Host + ?Sized> Host for &mut H {
    fn now(&mut self) -> Duration {
        (**self).now()
    }

    fn ask(&mut self, budget: Duration) -> Reply {
        (**self).ask(budget)
    }

    fn capacity(&mut self) -> u32 {
        (**self).capacity()
    }

    fn refund(&mut self, cost: u32) {
        (**self).refund(cost);
    }

    fn sleep(&mut self, nap: Duration) {
        (**self).sleep(nap);
    }

    fn sleep_unless_resumed(&mut self, nap: Duration, epoch: u64) {
        (**self).sleep_unless_resumed(nap, epoch);
    }

    fn yield_now(&mut self) {
        (**self).yield_now();
    }

    fn resume_epoch(&mut self) -> u64 {
        (**self).resume_epoch()
    }

    fn paused_for(&mut self) -> Duration {
        (**self).paused_for()
    }

    fn postponed(&mut self) -> Duration {
        (**self).postponed()
    }
}

/// A call that was admitted and waits for the inner limiter. Dropped before its end it gives its
/// admission back to the breaker, and a granted unit to the host: also where the host, or the breaker's
/// clock, panics in the middle of a turn.
#[must_use = "take its turns; dropping it gives the admission back"]
pub struct Waiting<'a, C: Clock, H: Host> {
    breaker: &'a CircuitBreaker<C>,
    host: H,
    pub(crate) pending: Pending,
    /// A unit that the limiter granted, and no turn has been told of yet.
    in_hand: bool,
}

impl<C: Clock> CircuitBreaker<C> {
    /// Admits a call, waits until the inner limiter grants it a unit, and answers its permit: the thread
    /// sleeps as the host does. A breaker that sheds answers at once.
    ///
    /// # Errors
    ///
    /// - [`ThrottleError::CircuitOpen`] where the breaker sheds, at once or when the wait is over: then
    ///   the unit has been refunded to the host.
    /// - [`ThrottleError::CostExceedsCapacity`] for [`Reply::Never`].
    /// - [`ThrottleError::Time`] for a time over 2^62 nanoseconds.
    ///
    /// After each the admission has been given back; a move from open to half-open stays.
    ///
    /// # Examples
    ///
    /// ```
    /// use std::time::{Duration, Instant};
    /// use pudvirez::{CircuitBreaker, Host, Reply, SystemClock, ThrottleError};
    ///
    /// /// A limiter that grants one unit every 2 ms, and runs on this thread.
    /// struct Spaced { start: Instant, next: Duration }
    ///
    /// impl Host for Spaced {
    ///     fn now(&mut self) -> Duration { self.start.elapsed() }
    ///     fn ask(&mut self, budget: Duration) -> Reply {
    ///         let after = self.next.saturating_sub(self.now());
    ///         if after > budget { return Reply::Retry { after }; }
    ///         self.next = self.now() + after + Duration::from_millis(2);
    ///         Reply::Granted { after }
    ///     }
    ///     fn capacity(&mut self) -> u32 { 1 }
    ///     fn refund(&mut self, _cost: u32) { self.next -= Duration::from_millis(2); }
    ///     fn sleep(&mut self, nap: Duration) { std::thread::sleep(nap); }
    /// }
    ///
    /// let breaker = CircuitBreaker::builder().build(SystemClock::new())?;
    /// let mut limiter = Spaced { start: Instant::now(), next: Duration::from_millis(5) };
    /// let missed = breaker.acquire_timeout(&mut limiter, Duration::ZERO).unwrap_err();
    /// assert_eq!(missed, ThrottleError::DeadlineExceeded);
    /// breaker.acquire(&mut limiter)?.success();
    /// assert!(limiter.start.elapsed() >= Duration::from_millis(5));
    /// # Ok::<(), ThrottleError>(())
    /// ```
    pub fn acquire<H: Host>(&self, host: H) -> Result<Permit<'_, C>, ThrottleError> {
        self.admit_waiting(host, None)?.all_turns()
    }

    /// Like [`acquire`](Self::acquire), but waits at most for this timeout.
    ///
    /// # Errors
    ///
    /// As [`acquire`](Self::acquire), and [`ThrottleError::DeadlineExceeded`] at the deadline, or at once
    /// where the reply shows that it will be missed. A granted unit has been refunded.
    pub fn acquire_timeout<H: Host>(
        &self,
        host: H,
        timeout: Duration,
    ) -> Result<Permit<'_, C>, ThrottleError> {
        self.admit_waiting(host, Some(timeout))?.all_turns()
    }

    /// Admits a call that is to wait for the inner limiter, and leaves its turns to the caller.
    ///
    /// # Errors
    ///
    /// [`ThrottleError::CircuitOpen`] where the breaker sheds, and [`ThrottleError::Time`]. All is as it was.
    pub fn admit_waiting<H: Host>(
        &self,
        mut host: H,
        timeout: Option<Duration>,
    ) -> Result<Waiting<'_, C, H>, ThrottleError> {
        let clock = nanos(host.now());
        let now_ms = self.now_ms();
        let pending = self.lock().wait_start(now_ms, clock, timeout.map(nanos))?;
        Ok(Waiting {
            breaker: self,
            host,
            pending,
            in_hand: false,
        })
    }
}

impl<'a, C: Clock, H: Host> Waiting<'a, C, H> {
    /// Sees the wait through.
    fn all_turns(mut self) -> Result<Permit<'a, C>, ThrottleError> {
        loop {
            if let Some(permit) = self.turn()? {
                return Ok(permit);
            }
        }
    }

    /// Takes one turn: asks the limiter or checks the grant that is held, and then sleeps or yields as
    /// the turn says. A permit if the wait is over, and nothing if it goes on.
    ///
    /// # Errors
    ///
    /// As [`acquire_timeout`](CircuitBreaker::acquire_timeout). After [`ThrottleError::Time`] the wait is as
    /// it was, and a unit that the turn's reply granted has been refunded; after the others the wait has
    /// ended. A turn of an ended wait is refused with [`ThrottleError::Turn`], and asks for nothing.
    pub fn turn(&mut self) -> Result<Option<Permit<'a, C>>, ThrottleError> {
        // of a turn that a panic cut short
        let left = core::mem::take(&mut self.in_hand);
        self.give_back(left.into());
        let turn = self.read();
        let capacity = self.host.capacity();
        let now_ms = self.breaker.now_ms();
        let told = self
            .breaker
            .lock()
            .wait_turn(&mut self.pending, turn, now_ms, capacity);
        // The wait holds it from now on, or it is among what goes back.
        let granted = core::mem::take(&mut self.in_hand);
        let back = match told.number {
            number::OK | number::COST_EXCEEDS_CAPACITY => 0,
            number::CIRCUIT_OPEN => units(told.v2),
            number::DEADLINE_EXCEEDED => units(told.v1),
            _ => granted.into(),
        };
        self.give_back(back);
        Ok(self.follow(checked_wait(told)?))
    }

    /// The eight numbers of a turn. Only a wait that looks asks the limiter.
    fn read(&mut self) -> Turn {
        let epoch_before = self.host.resume_epoch();
        let postponed_before = nanos(self.host.postponed());
        let clock = nanos(self.host.now());
        let (kind, duration) = if self.pending.wait.phase == LOOKING {
            let reply = self.host.ask(self.remaining(clock));
            self.in_hand = matches!(reply, Reply::Granted { .. });
            reply.numbers()
        } else {
            (GRANTED, 0)
        };
        // So that no sleep outlasts a pause that is lifted: a check sleeps past the epoch before its
        // pause was read, and a look sees a resume that came after.
        let early = self.host.resume_epoch();
        let pause = nanos(self.host.paused_for());
        let late = self.host.resume_epoch();
        Turn {
            clock,
            epoch_before,
            epoch_after: if kind == RETRY { late } else { early },
            kind,
            duration,
            pause,
            postponed_before,
            postponed_after: nanos(self.host.postponed()),
        }
    }

    /// What is left until the deadline.
    fn remaining(&self, clock: u64) -> Duration {
        let wait = &self.pending.wait;
        if wait.limited == 0 {
            return Duration::MAX;
        }
        Duration::from_nanos(wait.deadline.saturating_sub(clock))
    }

    /// Does what a turn says; the permit of one that admits.
    fn follow(&mut self, told: Waited) -> Option<Permit<'a, C>> {
        let nap = Duration::from_nanos(told.v2);
        match told.v1 {
            act::SLEEP => self.host.sleep(nap),
            act::SLEEP_UNLESS_RESUMED => self.host.sleep_unless_resumed(nap, told.v3),
            act::YIELD => self.host.yield_now(),
            act::LOOK_AGAIN => {}
            _ => {
                let ticket = ticket(told.v2, told.v3);
                return Some(Permit::new(self.breaker, ticket));
            }
        }
        None
    }

    #[cfg(test)]
    pub(crate) fn host_mut(&mut self) -> &mut H {
        &mut self.host
    }

    fn give_back(&mut self, cost: u32) {
        if cost > 0 {
            self.host.refund(cost);
        }
    }
}

impl<C: Clock, H: Host> Drop for Waiting<'_, C, H> {
    fn drop(&mut self) {
        // A wait that has ended gave its ticket back, or handed it on in a permit.
        if !matches!(self.pending.wait.phase, LOOKING | HOLDING) {
            return;
        }
        // One that looks holds nothing; its turn's unit may be in hand.
        let in_hand = core::mem::take(&mut self.in_hand);
        let held = told(self.breaker.lock().wait_drop(&mut self.pending));
        self.give_back(held + u32::from(in_hand));
    }
}

impl<C: Clock, H: Host> fmt::Debug for Waiting<'_, C, H> {
    fn fmt(&self, f: &mut fmt::Formatter<'_>) -> fmt::Result {
        f.debug_struct("Waiting")
            .field("holding", &(self.pending.wait.phase == HOLDING))
            .finish_non_exhaustive()
    }
}

impl Reply {
    /// Kind and nanoseconds, as the C interface takes them.
    fn numbers(self) -> (u64, u64) {
        match self {
            Self::Granted { after } => (GRANTED, nanos(after)),
            Self::Retry { after } => (RETRY, nanos(after)),
            Self::Never => (NEVER, 0),
        }
    }
}

/// Whole nanoseconds. More than 64 bits hold is more than a wait takes.
fn nanos(time: Duration) -> u64 {
    u64::try_from(time.as_nanos()).unwrap_or(u64::MAX)
}
