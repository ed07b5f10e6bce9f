//! Two threads at once: every run ends where some interleaving of their calls ends.
use core::time::Duration;
use std::sync::Barrier;

use super::orders::{
    end, finish, interleavings, Abort, Failure, Finish, Outcome, Start, Success, SPELL,
};
use super::{snapshot, ticket};
use crate::{CircuitBreaker, Decision, ManualClock, ThrottleError, Trip};

const ROUNDS: usize = 300;

fn calls(outcomes: &[Outcome]) -> Vec<Finish> {
    let call = |&outcome| Finish {
        outcome,
        ticket: ticket(SPELL, true),
    };
    outcomes.iter().map(call).collect()
}

fn at_once(breaker: &CircuitBreaker<&ManualClock>, one: &[Finish], other: &[Finish]) {
    let gate = Barrier::new(2);
    std::thread::scope(|threads| {
        for part in [one, other] {
            let gate = &gate;
            threads.spawn(move || {
                gate.wait();
                part.iter().for_each(|call| finish(breaker, *call));
            });
        }
    });
}

fn rounds(start: Start, one: &[Outcome], other: &[Outcome]) {
    let clock = ManualClock::new(0);
    let b = start.breaker(&clock);
    let (from, one, other) = (snapshot(&b), calls(one), calls(other));
    let merges = interleavings(&one, &other);
    let allowed: Vec<_> = merges.iter().map(|order| end(&b, &from, order)).collect();
    for _ in 0..ROUNDS {
        super::restore(&b, &from);
        at_once(&b, &one, &other);
        assert!(
            allowed.contains(&snapshot(&b)),
            "{start:?} {one:?} {other:?}"
        );
    }
}

#[test]
fn finishing_at_once() {
    let start = |required, earlier| Start {
        trip: Trip::Consecutive(1),
        trials: 3,
        required,
        earlier,
    };
    rounds(start(1, 0), &[Success], &[Failure]);
    rounds(start(2, 0), &[Success, Success], &[Failure, Abort]);
    rounds(start(2, 1), &[Abort, Success], &[Abort, Failure]);
    rounds(start(3, 0), &[Success, Success], &[Abort, Success]);
    rounds(start(3, 0), &[Success, Failure], &[Success, Success]);
}

/// Threads that admit and settle as they like, through many spells: once all permits are settled no trial
/// is out, and the breaker is sound.
#[test]
fn admitting_and_settling_at_once() {
    let clock = ManualClock::new(0);
    let b = CircuitBreaker::builder()
        .trip(Trip::Consecutive(2))
        .cooldown(Duration::ZERO)
        .half_open(3, 2)
        .build(&clock)
        .expect("a breaker");
    std::thread::scope(|threads| {
        for thread in 0..4 {
            let b = &b;
            threads.spawn(move || (0..2000).for_each(|i| one_call(b, 3 * thread + i)));
        }
    });
    let end = snapshot(&b);
    assert_eq!(end.record.shared.counts.inflight, 0);
    assert!(end.record.shared.generation > 0);
    assert!(end.is_sound());
}

/// Two of five calls fail, one is cancelled and two succeed. Only a lack of free trials sheds.
fn one_call(breaker: &CircuitBreaker<&ManualClock>, turn: usize) {
    let permit = match breaker.try_acquire(Decision::Acquired) {
        Ok(permit) => permit,
        Err(refused) => {
            let retry_after = Duration::ZERO;
            return assert_eq!(refused, ThrottleError::CircuitOpen { retry_after });
        }
    };
    match turn % 5 {
        0 => permit.failure().expect("recorded or stale"),
        1 => drop(permit),
        2 => assert_eq!(permit.cancel(), 1),
        _ => permit.success(),
    }
}
