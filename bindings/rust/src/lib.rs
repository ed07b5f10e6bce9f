//! A circuit breaker whose every step is proved: safe types over the C interface of Pudvirez, with the
//! words of throttle-net. The types themselves are tested, not proved.
//!
//! A [`CircuitBreaker`] stands before a service. It counts failures, opens when its [`Trip`] condition
//! is met, sheds calls while it is open, and lets a few trials through before it closes again.
//!
//! **Settle permits; a manual outcome has no ticket.** A spell is the time between two transitions of the
//! breaker. Settling a [`Permit`] is exact: its ticket says which spell it belongs to, so a late answer
//! does no harm. [`record_failure`](CircuitBreaker::record_failure) carries no ticket, and in half-open
//! opens the breaker whatever spell the answer belonged to.
//!
//! **Order.** From a half-open breaker, settling and cancelling the permits of its spell ends the same
//! in every order exactly when none is a failure or the successes, with the earlier ones, stay below the
//! required number. Otherwise some order closes the breaker and another opens it.
//!
//! The clock is handed in, and so is an inner limiter that stands behind the breaker: as a reply that it
//! gave already ([`try_acquire`](CircuitBreaker::try_acquire)), as a closure that is called only where the
//! breaker admits ([`try_acquire_with`](CircuitBreaker::try_acquire_with)), or as the [`Host`] of a call that
//! waits ([`acquire`](CircuitBreaker::acquire)).
#![warn(missing_docs)]

mod breaker;
mod builder;
mod checkpoints;
mod clock;
mod decision;
mod error;
mod ffi;
mod owned;
mod permit;
mod preview;
mod waiting;

pub use breaker::{BreakerState, CircuitBreaker};
pub use builder::{CircuitBreakerBuilder, Trip};
pub use checkpoints::Checkpoints;
pub use clock::{Clock, ManualClock, SystemClock};
pub use decision::Decision;
pub use error::ThrottleError;
pub use permit::Permit;
pub use preview::{Outcome, Preview};
pub use waiting::{Host, Reply, Waiting};

// The README's lines are tested too.
#[cfg(doctest)]
#[doc = include_str!("../README.md")]
struct Readme;

#[cfg(test)]
mod tests;
