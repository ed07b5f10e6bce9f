//! Tests that look into the record. Those of the public side alone stand in the documentation.
mod cases;
mod checkpoints;
mod flags;
mod layout;
mod misuse;
mod orders;
mod panics;
mod previews;
mod saved_bytes;
mod threads;
mod wait_rows;
mod waits;

use core::time::Duration;

use crate::ffi::Ticket;
use crate::owned::Owned;
use crate::{CircuitBreaker, Clock, Decision, ManualClock, Permit, Trip};

/// A breaker with a cooldown of 1,000 ms.
fn breaker(
    clock: &ManualClock,
    trip: Trip,
    trials: u32,
    required: u32,
) -> CircuitBreaker<&ManualClock> {
    CircuitBreaker::builder()
        .trip(trip)
        .cooldown(Duration::from_millis(1000))
        .half_open(trials, required)
        .build(clock)
        .expect("a setting within the limits")
}

fn admitted<C: Clock>(breaker: &CircuitBreaker<C>) -> Permit<'_, C> {
    breaker
        .try_acquire(Decision::Acquired)
        .expect("an admission")
}

fn ticket(generation: u64, probe: bool) -> Ticket {
    Ticket {
        generation,
        probe: probe.into(),
    }
}

/// Test-only: a breaker as it stands, every field and all places.
fn snapshot<C: Clock>(breaker: &CircuitBreaker<C>) -> Owned {
    breaker.lock().clone()
}

/// Test-only: puts a breaker back to where it stood.
fn restore<C: Clock>(breaker: &CircuitBreaker<C>, start: &Owned) {
    let mut owned = breaker.lock();
    owned.record = start.record;
    owned.places.copy_from_slice(&start.places);
}

/// The fields that document 01's journal prints: state, generation, inflight, successes, open-until.
fn journal_fields<C: Clock>(breaker: &CircuitBreaker<C>) -> (u8, u64, u32, u32, u64) {
    let h = breaker.lock().record.shared;
    let counts = h.counts;
    (
        h.state,
        h.generation,
        counts.inflight,
        counts.successes,
        h.open_until,
    )
}
