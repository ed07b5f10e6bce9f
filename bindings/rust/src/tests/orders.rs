//! The statement on finishing orders (`FinishingOrders` of crates/breaker/specs/Orders.antt), on the library:
//! what every order of finishing calls does to a half-open breaker.
//!
//! On permits of its spell all orders end equal exactly when no call is a failure or the successes, with
//! the earlier ones, stay below the required number. Otherwise some order ends Closed and another Open.
use core::time::Duration;

use super::{admitted, breaker, restore, snapshot, ticket};
use crate::ffi::{self, Ticket};
use crate::owned::Owned;
use crate::{BreakerState, CircuitBreaker, Clock, ManualClock, Permit, Trip};

#[derive(Debug, Clone, Copy, PartialEq, Eq)]
pub(super) enum Outcome {
    Success,
    Failure,
    Abort,
}

pub(super) use Outcome::{Abort, Failure, Success};

/// A finishing call, with a ticket that holds a trial or not.
#[derive(Debug, Clone, Copy, PartialEq, Eq)]
pub(super) struct Finish {
    pub(super) outcome: Outcome,
    pub(super) ticket: Ticket,
}

/// Where a sequence starts: a half-open breaker with all trials out, and some successes before.
#[derive(Debug, Clone, Copy)]
pub(super) struct Start {
    pub(super) trip: Trip,
    pub(super) trials: u32,
    pub(super) required: u32,
    pub(super) earlier: u32,
}

/// The spell that every start is in: Closed 0, Open 1, HalfOpen 2.
pub(super) const SPELL: u64 = 2;

impl Start {
    pub(super) fn breaker(self, clock: &ManualClock) -> CircuitBreaker<&ManualClock> {
        clock.set(0);
        let b = breaker(clock, self.trip, self.trials, self.required);
        b.record_failure().expect("recorded");
        clock.set(1000);
        for _ in 0..self.earlier {
            admitted(&b).success();
        }
        for _ in 0..self.trials {
            core::mem::forget(admitted(&b)); // its ticket is made anew by the test
        }
        let h = b.lock().record.shared;
        assert_eq!((h.state, h.generation), (1, SPELL));
        let counts = (h.counts.inflight, h.counts.successes);
        assert_eq!(counts, (self.trials, self.earlier));
        b
    }

    fn harmless(self, calls: &[Finish]) -> bool {
        let many = |outcome| calls.iter().filter(|c| c.outcome == outcome).count();
        many(Failure) == 0 || self.earlier as usize + many(Success) < self.required as usize
    }
}

/// All starts with up to 3 trials, for each policy. All of them trip at their first failure.
fn starts() -> Vec<Start> {
    let period = Duration::from_millis(50);
    let trips = [
        Trip::Consecutive(1),
        Trip::Ratio {
            window: 4,
            ratio: 0.5,
            min_calls: 1,
        },
        Trip::Windowed {
            failures: 1,
            period,
        },
    ];
    let mut all = Vec::new();
    for trip in trips {
        for trials in 1..=3 {
            for required in 1..=trials {
                let start = |earlier| Start {
                    trip,
                    trials,
                    required,
                    earlier,
                };
                all.extend((0..required).map(start));
            }
        }
    }
    all
}

pub(super) fn finish<C: Clock>(breaker: &CircuitBreaker<C>, call: Finish) {
    let permit = Permit::new(breaker, call.ticket);
    match call.outcome {
        Success => permit.success(),
        Failure => permit.failure().expect("a failure is recorded or stale"),
        Abort => assert_eq!(permit.cancel(), 1),
    }
}

/// Where the breaker ends after these calls from this start.
pub(super) fn end<C: Clock>(breaker: &CircuitBreaker<C>, start: &Owned, calls: &[Finish]) -> Owned {
    restore(breaker, start);
    calls.iter().for_each(|call| finish(breaker, *call));
    snapshot(breaker)
}

/// All merges of two sequences that keep the order of each: what two threads can do.
pub(super) fn interleavings<T: Copy>(a: &[T], b: &[T]) -> Vec<Vec<T>> {
    if a.is_empty() || b.is_empty() {
        return vec![[a, b].concat()];
    }
    let mut all = Vec::new();
    for (first, rest) in [
        (a[0], interleavings(&a[1..], b)),
        (b[0], interleavings(a, &b[1..])),
    ] {
        all.extend(rest.into_iter().map(|tail| [&[first][..], &tail].concat()));
    }
    all
}

/// All orders of a sequence: each call put at each place of the orders of the others.
fn orders<T: Copy>(calls: &[T]) -> Vec<Vec<T>> {
    match calls.split_first() {
        None => vec![Vec::new()],
        Some((first, rest)) => orders(rest)
            .iter()
            .flat_map(|order| interleavings(&[*first], order))
            .collect(),
    }
}

/// All bags of up to `most` of these calls.
fn bags(calls: &[Finish], most: usize) -> Vec<Vec<Finish>> {
    let mut all = vec![Vec::new()];
    if most == 0 {
        return all;
    }
    for (i, call) in calls.iter().enumerate() {
        let more = bags(&calls[i..], most - 1);
        all.extend(more.into_iter().map(|rest| [&[*call][..], &rest].concat()));
    }
    all
}

/// Every outcome, with a trial and without.
fn of_this_spell() -> Vec<Finish> {
    let outcomes = [Success, Failure, Abort];
    let both = outcomes.iter().flat_map(|&outcome| {
        [true, false].map(|probe| Finish {
            outcome,
            ticket: ticket(SPELL, probe),
        })
    });
    both.collect()
}

fn state_of(end: &Owned) -> BreakerState {
    match end.record.shared.state {
        0 => BreakerState::Closed,
        1 => BreakerState::HalfOpen,
        _ => BreakerState::Open,
    }
}

fn check_all_orders(
    b: &CircuitBreaker<&ManualClock>,
    from: &Owned,
    start: Start,
    calls: &[Finish],
) {
    let ends: Vec<Owned> = orders(calls)
        .iter()
        .map(|order| end(b, from, order))
        .collect();
    let equal = ends.iter().all(|e| *e == ends[0]);
    assert_eq!(equal, start.harmless(calls), "{start:?} {calls:?}");
    if !equal {
        for state in [BreakerState::Closed, BreakerState::Open] {
            assert!(
                ends.iter().any(|e| state_of(e) == state),
                "{start:?} {calls:?}"
            );
        }
    }
}

#[test]
fn all_orders_of_up_to_four_calls() {
    let clock = ManualClock::new(0);
    let bags = bags(&of_this_spell(), 4);
    assert_eq!(bags.len(), 210);
    for start in starts() {
        let b = start.breaker(&clock);
        let from = snapshot(&b);
        bags.iter()
            .for_each(|calls| check_all_orders(&b, &from, start, calls));
    }
}

/// Each split of two threads, with up to two calls each.
fn splits() -> Vec<(Vec<Finish>, Vec<Finish>)> {
    let outcomes = [Success, Failure, Abort].map(|outcome| Finish {
        outcome,
        ticket: ticket(SPELL, true),
    });
    let mut sequences = vec![Vec::new()];
    for first in outcomes {
        sequences.push(vec![first]);
        sequences.extend(outcomes.map(|second| vec![first, second]));
    }
    let pair = |a: &Vec<Finish>| {
        sequences
            .iter()
            .map(|b| (a.clone(), b.clone()))
            .collect::<Vec<_>>()
    };
    sequences.iter().flat_map(pair).collect()
}

/// All merges of two threads end equal where the statement says that all orders do, and each ends as an
/// order of the calls by their rules: by the first failure, or by the success that is the required one.
#[test]
fn all_interleavings_of_two_threads() {
    let clock = ManualClock::new(0);
    for start in starts() {
        let b = start.breaker(&clock);
        let from = snapshot(&b);
        for (one, other) in splits() {
            let merges = interleavings(&one, &other);
            let ends: Vec<Owned> = merges.iter().map(|order| end(&b, &from, order)).collect();
            for (order, end) in merges.iter().zip(&ends) {
                assert_eq!(
                    state_of(end),
                    first_to_decide(start, order),
                    "{start:?} {order:?}"
                );
            }
            let harmless = start.harmless(&[one, other].concat());
            assert!(!harmless || ends.iter().all(|e| *e == ends[0]));
        }
    }
}

fn first_to_decide(start: Start, order: &[Finish]) -> BreakerState {
    let mut successes = start.earlier;
    for call in order {
        match call.outcome {
            Failure => return BreakerState::Open,
            Success => successes += 1,
            Abort => {}
        }
        if successes == start.required {
            return BreakerState::Closed;
        }
    }
    BreakerState::HalfOpen
}

/// A ticket of neither the present spell nor the next, anywhere among the calls, changes nothing.
#[test]
fn strangers_change_nothing() {
    let clock = ManualClock::new(0);
    let bags = bags(&of_this_spell(), 3);
    for start in starts() {
        let b = start.breaker(&clock);
        let from = snapshot(&b);
        for (outcome, generation) in [(Failure, 0), (Success, SPELL - 1), (Abort, SPELL + 2)] {
            let stranger = Finish {
                outcome,
                ticket: ticket(generation, true),
            };
            for calls in &bags {
                let without = end(&b, &from, calls);
                for with in interleavings(&[stranger], calls) {
                    assert_eq!(end(&b, &from, &with), without, "{start:?} {with:?}");
                }
            }
        }
    }
}

/// The batch of these calls, from this start: where it ends, and each call's number.
fn batch(start: &Owned, calls: &[Finish]) -> (Owned, Vec<u64>) {
    let mut owned = start.clone();
    let mut answers = vec![77; calls.len()];
    let generations: Vec<u64> = calls.iter().map(|c| c.ticket.generation).collect();
    let flags = |of: fn(&Finish) -> bool| calls.iter().map(|c| of(c).into()).collect::<Vec<u8>>();
    let probes = flags(|c| c.ticket.probe != 0);
    let settles = flags(|c| c.outcome != Abort);
    let marks = flags(|c| c.outcome == Success);
    let (n, list) = (calls.len(), owned.places.as_mut_ptr());
    let told = unsafe {
        ffi::pudvirez_finish_all(
            &mut owned.record,
            list,
            ffi::PLACES,
            1000,
            generations.as_ptr(),
            n,
            probes.as_ptr(),
            n,
            settles.as_ptr(),
            n,
            marks.as_ptr(),
            n,
            answers.as_mut_ptr(),
            n,
        )
    };
    assert_eq!(told, ffi::Told::default());
    (owned, answers)
}

/// The C interface's batch ends where its calls in turn end.
#[test]
fn a_batch_is_its_calls_in_turn() {
    let clock = ManualClock::new(0);
    let bags = bags(&of_this_spell(), 3);
    for start in starts() {
        let b = start.breaker(&clock);
        let from = snapshot(&b);
        for order in bags.iter().flat_map(|calls| orders(calls)) {
            let (ended, answers) = batch(&from, &order);
            assert_eq!(ended, end(&b, &from, &order), "{start:?} {order:?}");
            assert!(answers.iter().all(|number| *number == 0));
        }
    }
}
