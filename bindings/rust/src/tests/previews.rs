//! Previews: nothing moves, and the call then leaves what was previewed.
use core::cell::Cell;
use core::time::Duration;
use std::panic::{catch_unwind, resume_unwind, AssertUnwindSafe};

use super::{admitted, breaker, restore, snapshot, ticket};
use crate::ffi::Ticket;
use crate::owned::Owned;
use crate::Outcome::{Cancel, Failure, Success};
use crate::{
    BreakerState, CircuitBreaker, Clock, Decision, ManualClock, Outcome, Permit, ThrottleError,
    Trip,
};

type Desk<'a> = CircuitBreaker<&'a ManualClock>;

const OUTCOMES: [Outcome; 3] = [Success, Failure, Cancel];

const fn ratio(window: u32, ratio: f64, min_calls: u32) -> Trip {
    Trip::Ratio {
        window,
        ratio,
        min_calls,
    }
}

const fn windowed(failures: u32, ms: u64) -> Trip {
    Trip::Windowed {
        failures,
        period: Duration::from_millis(ms),
    }
}

fn finish(permit: Permit<'_, &ManualClock>, outcome: Outcome) -> Result<(), ThrottleError> {
    match outcome {
        Success => permit.success(),
        Failure => return permit.failure(),
        Cancel => assert_eq!(permit.cancel(), 1),
    }
    Ok(())
}

/// Looks, then finishes, and holds the one against the other.
fn looked_and_finished(b: &Desk, start: &Owned, ticket: Ticket, outcome: Outcome) {
    restore(b, start);
    let permit = Permit::new(b, ticket);
    let preview = permit.preview(outcome);
    let whole = match outcome {
        Cancel => b.lock().preview_abort(ticket),
        _ => b
            .lock()
            .preview_settle(b.now_ms(), ticket, outcome == Success),
    };
    assert_eq!(snapshot(b), *start, "nothing moves: {preview}");
    let answer = finish(permit, outcome);
    let left = snapshot(b).record;
    let h = left.shared;
    assert_eq!((whole.breaker, whole.len), (left, h.len), "{preview}");
    assert_eq!((preview.answer, preview.state), (answer, b.state()));
    assert_eq!(
        (preview.generation, preview.open_until, preview.len),
        (h.generation, h.open_until, h.len)
    );
    assert_eq!(
        (preview.trials, preview.successes, preview.run),
        (h.counts.inflight, h.counts.successes, h.run)
    );
}

/// Each outcome, with a ticket of this generation and of its neighbours, a trial or not.
fn every_look(b: &Desk, start: &Owned) {
    let present = start.record.shared.generation;
    for generation in [present, present.wrapping_sub(1), present.wrapping_add(1)] {
        for probe in [false, true] {
            for outcome in OUTCOMES {
                looked_and_finished(b, start, ticket(generation, probe), outcome);
            }
        }
    }
}

/// Every look, at two readings, at each breaker that so many admissions and finishes lead to. Counts them by
/// state.
fn walk(b: &Desk, clock: &ManualClock, now: u64, left: u32, met: &mut [u32; 3]) {
    let start = snapshot(b);
    let h = start.record.shared;
    met[usize::from(h.state)] += 1;
    for later in [0, 60] {
        clock.set(now + later);
        every_look(b, &start);
    }
    if left == 0 {
        return;
    }
    let now = match BreakerState::of(h.state) {
        BreakerState::Open => h.open_until,
        _ => now + 20,
    };
    for step in 0..4 {
        restore(b, &start);
        clock.set(now);
        match OUTCOMES.get(step) {
            Some(&outcome) => {
                let last = Permit::new(b, ticket(h.generation, h.counts.inflight > 0));
                finish(last, outcome).expect("recorded");
            }
            None => {
                if let Ok(permit) = b.try_acquire(Decision::Acquired) {
                    core::mem::forget(permit); // finished by its ticket
                }
            }
        }
        walk(b, clock, now, left - 1, met);
    }
}

#[test]
fn the_call_leaves_what_was_previewed() {
    let trips = [
        Trip::Consecutive(1),
        Trip::Consecutive(3),
        ratio(2, 1.0, 1),
        ratio(3, 0.5, 3),
        windowed(1, 0),
        windowed(2, 50),
        windowed(4096, 30),
    ];
    let mut met = [0; 3];
    for trip in trips {
        for (trials, required) in [(1, 1), (2, 2)] {
            let clock = ManualClock::new(0);
            let b = breaker(&clock, trip, trials, required);
            walk(&b, &clock, 100, 4, &mut met);
        }
    }
    assert!(met.iter().all(|&state| state > 50), "{met:?}");
}

/// A closed Windowed breaker of 100 ms with failures at these readings.
fn listed<'a>(clock: &'a ManualClock, failures: u32, times: &[u64]) -> Desk<'a> {
    let b = breaker(clock, windowed(failures, 100), 1, 1);
    let mut start = snapshot(&b);
    start.record.shared.len = u32::try_from(times.len()).expect("a few");
    start.places[..times.len()].copy_from_slice(times);
    restore(&b, &start);
    assert!(start.is_sound());
    b
}

#[test]
fn a_full_list_is_previewed_too() {
    let clock = ManualClock::new(0);
    for len in [4095, 4096] {
        let times: Vec<u64> = (1000..1000 + len).collect();
        let b = listed(&clock, 4096, &times);
        let start = snapshot(&b);
        for now in [0, 1099, 1100, 1101, 1102, 5000, 5195, 5196, 9000, u64::MAX] {
            clock.set(now);
            every_look(&b, &start);
        }
    }
}

/// What is said of finishing a permit with this ticket.
fn said(b: &Desk, (generation, probe): (u64, bool), outcome: Outcome) -> String {
    let permit = Permit::new(b, ticket(generation, probe));
    let said = permit.preview(outcome).to_string();
    core::mem::forget(permit);
    said
}

const PLAIN: (u64, bool) = (0, false);

#[test]
fn a_closed_breaker_says_what_it_would_count() {
    let clock = ManualClock::new(30);
    let b = breaker(&clock, Trip::Consecutive(3), 1, 1);
    let stays = |n| format!("would stay closed with {n} in a row");
    assert_eq!(said(&b, PLAIN, Failure), stays("1 failure"));
    assert_eq!(said(&b, PLAIN, Success), stays("0 failures"));
    admitted(&b).failure().expect("recorded");
    assert_eq!(said(&b, PLAIN, Failure), stays("2 failures"));
    admitted(&b).failure().expect("recorded");
    assert_eq!(said(&b, PLAIN, Failure), "would open until 1030 ms");
    assert_eq!(
        said(&b, PLAIN, Cancel),
        "would change nothing: a closed breaker has no trials out"
    );
}

#[test]
fn lists_are_said_by_their_length() {
    let clock = ManualClock::new(150);
    let b = listed(&clock, 4, &[0, 49, 50]);
    let stays = |n| format!("would stay closed with {n} in the list");
    assert_eq!(said(&b, PLAIN, Failure), stays("2 failures"), "0 and 49 go");
    assert_eq!(said(&b, PLAIN, Success), stays("1 failure"));
    clock.set(100);
    assert_eq!(said(&b, PLAIN, Success), stays("3 failures"));
    assert_eq!(said(&b, PLAIN, Failure), "would open until 1100 ms");

    let b = breaker(&clock, ratio(2, 1.0, 2), 1, 1);
    assert_eq!(said(&b, PLAIN, Failure), stays("1 call"));
    admitted(&b).failure().expect("recorded");
    assert_eq!(said(&b, PLAIN, Success), stays("2 calls"));
    assert_eq!(said(&b, PLAIN, Failure), "would open until 1100 ms");
    admitted(&b).success();
    assert_eq!(
        said(&b, PLAIN, Failure),
        stays("2 calls"),
        "the oldest goes"
    );
}

#[test]
fn a_half_open_breaker_says_what_is_missing() {
    let clock = ManualClock::new(0);
    let b = breaker(&clock, Trip::Consecutive(1), 3, 2);
    b.record_failure().expect("recorded");
    clock.set(1000);
    let (one, other) = (admitted(&b), admitted(&b));
    let stays = |said| format!("would stay half-open with {said} successes");
    assert_eq!(
        one.preview(Success).to_string(),
        stays("1 trial out and 1 of 2")
    );
    assert_eq!(
        one.preview(Cancel).to_string(),
        stays("1 trial out and 0 of 2")
    );
    assert_eq!(one.preview(Failure).to_string(), "would open until 2000 ms");
    one.success();
    assert_eq!(other.preview(Success).to_string(), "would close");
    assert_eq!(
        other.preview(Cancel).to_string(),
        stays("0 trials out and 1 of 2")
    );
    assert_eq!(
        said(&b, (2, false), Cancel),
        "would change nothing: the permit is no trial"
    );
    other.success();
    assert_eq!(b.state(), BreakerState::Closed);
}

#[test]
fn a_late_permit_is_said_to_change_nothing() {
    let clock = ManualClock::new(0);
    let b = breaker(&clock, Trip::Consecutive(1), 1, 1);
    let late = admitted(&b);
    admitted(&b).failure().expect("recorded");
    for outcome in OUTCOMES {
        assert_eq!(
            late.preview(outcome).to_string(),
            "would change nothing: the permit is of another generation"
        );
        assert_eq!(
            said(&b, (1, true), outcome),
            "would change nothing: the breaker is open"
        );
    }
}

#[test]
fn number_5_is_previewed() {
    let clock = ManualClock::new(5000);
    let b = listed(&clock, 4096, &[5000; 4096]);
    let permit = admitted(&b);
    let preview = permit.preview(Failure);
    assert_eq!(preview.answer, Err(ThrottleError::Full));
    assert_eq!((preview.state, preview.len), (BreakerState::Closed, 4096));
    assert_eq!(
        preview.to_string(),
        "would be refused with 5: a failure with 4,096 older times left"
    );
    assert_eq!(
        permit.preview(Success).to_string(),
        "would stay closed with 4096 failures in the list"
    );
    assert_eq!(permit.failure(), Err(ThrottleError::Full));
}

#[test]
fn a_permit_that_was_only_looked_at_is_a_failure_when_dropped() {
    let clock = ManualClock::new(7);
    let b = breaker(&clock, Trip::Consecutive(2), 1, 1);
    let permit = admitted(&b);
    for outcome in OUTCOMES {
        let _ = permit.preview(outcome);
    }
    drop(permit);
    assert_eq!(b.lock().record.shared.run, 1);
}

/// Panics when it is read while this is set. No message is printed.
struct Broken(Cell<bool>);

impl Clock for Broken {
    fn now_ms(&self) -> u64 {
        if self.0.get() {
            resume_unwind(Box::new("a clock that fails"));
        }
        0
    }
}

#[test]
fn a_clock_that_panics_leaves_the_permit() {
    let clock = Broken(Cell::new(false));
    let b = CircuitBreaker::builder().build(&clock).expect("a breaker");
    let permit = admitted(&b);
    let before = snapshot(&b);
    clock.0.set(true);
    assert!(catch_unwind(AssertUnwindSafe(|| permit.preview(Failure))).is_err());
    assert_eq!(permit.preview(Cancel).answer, Ok(()), "reads no clock");
    assert_eq!(snapshot(&b), before);
    clock.0.set(false);
    permit.failure().expect("recorded");
    assert_eq!(b.lock().record.shared.run, 1);
}
