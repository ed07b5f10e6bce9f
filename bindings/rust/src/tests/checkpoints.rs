//! Saves and new settings, as document 02 has them (W-201).
use core::mem::forget;
use core::time::Duration;

use super::{admitted, breaker, journal_fields, restore, snapshot};
use crate::owned::Owned;
use crate::{
    BreakerState, Checkpoints, CircuitBreaker, CircuitBreakerBuilder, Clock, Decision, ManualClock,
    ThrottleError, Trip,
};

pub(super) const NAME: &str = "EVENING1";

pub(super) const MINUTE: Duration = Duration::from_secs(60);

pub(super) fn saved<C: Clock>(breaker: &CircuitBreaker<C>) -> Checkpoints {
    let mut saves = Checkpoints::new();
    saves.save(NAME, breaker).expect("a save");
    saves
}

/// Closed at 30 with one failure, of two that trip.
fn closed(clock: &ManualClock, trip: Trip) -> CircuitBreaker<&ManualClock> {
    clock.set(30);
    let b = breaker(clock, trip, 3, 3);
    b.record_failure().expect("recorded");
    b
}

/// The same, open until 1,031.
fn open(clock: &ManualClock, trip: Trip) -> CircuitBreaker<&ManualClock> {
    let b = closed(clock, trip);
    clock.set(31);
    b.record_failure().expect("recorded");
    b
}

/// The same in half-open, with one success and one trial out. The trial is a trait probe too, which the
/// safe types can't take.
pub(super) fn half_open(clock: &ManualClock, trip: Trip) -> CircuitBreaker<&ManualClock> {
    let b = open(clock, trip);
    clock.set(1031);
    admitted(&b).success();
    forget(admitted(&b));
    b.lock().record.shared.counts.trait_probes = 1;
    b
}

pub(super) const RATIO: Trip = Trip::Ratio {
    window: 4,
    ratio: 1.0,
    min_calls: 2,
};

pub(super) const WINDOWED: Trip = Trip::Windowed {
    failures: 2,
    period: MINUTE,
};

/// Each policy in each state.
fn breakers(clock: &ManualClock) -> Vec<CircuitBreaker<&ManualClock>> {
    let trips = [Trip::Consecutive(2), RATIO, WINDOWED];
    let states = [closed, open, half_open];
    let each = trips.map(|trip| states.map(|state| state(clock, trip)));
    each.into_iter().flatten().collect()
}

/// An open Windowed breaker with 4,096 times.
fn full(clock: &ManualClock) -> CircuitBreaker<&ManualClock> {
    let failures = 4096;
    let period = Duration::MAX;
    let b = breaker(clock, Trip::Windowed { failures, period }, 1, 1);
    for _ in 0..failures {
        b.record_failure().expect("recorded");
    }
    assert_eq!(b.lock().record.shared.len, failures);
    b
}

/// The call is refused so, and leaves the breaker and the saves.
fn refused(
    saves: &mut Checkpoints,
    b: &CircuitBreaker<&ManualClock>,
    why: ThrottleError,
    call: impl FnOnce(&mut Checkpoints) -> Result<(), ThrottleError>,
) {
    let before = (snapshot(b), saves.clone());
    assert_eq!(call(saves), Err(why));
    assert_eq!((snapshot(b), saves.clone()), before);
}

#[test]
fn all_that_was_saved_comes_back_in_the_generation_after_the_present_one() {
    let clock = ManualClock::new(0);
    for b in breakers(&clock) {
        let (saves, at_save) = (saved(&b), snapshot(&b));
        for present in breakers(&clock) {
            let mut expected = at_save.clone();
            let shared = &mut expected.record.shared;
            shared.generation = snapshot(&present).record.shared.generation + 1;
            shared.counts.inflight = 0;
            shared.counts.trait_probes = 0;
            saves.restore(NAME, &present).expect("it is there");
            assert_eq!(snapshot(&present), expected);
        }
    }
}

#[test]
fn a_save_changes_neither_the_breaker_nor_earlier_saves() {
    let clock = ManualClock::new(0);
    let mut saves = Checkpoints::new();
    for (b, name) in breakers(&clock).iter().zip('A'..) {
        let before = (snapshot(b), saves.as_bytes().to_vec());
        saves
            .save(&name.to_string().repeat(8), b)
            .expect("a new name");
        assert_eq!(snapshot(b), before.0);
        assert!(saves.as_bytes().starts_with(&before.1));
    }
}

/// Settles four permits of before: as a success, as a failure, by a drop and by a cancel.
fn late_answers(b: &CircuitBreaker<&ManualClock>, between: impl FnOnce()) {
    let permits = [admitted(b), admitted(b), admitted(b), admitted(b)];
    between();
    let start = snapshot(b);
    let [success, failure, dropped, cancelled] = permits;
    success.success();
    assert_eq!(snapshot(b), start, "success");
    failure.failure().expect("ignored");
    assert_eq!(snapshot(b), start, "failure");
    drop(dropped);
    assert_eq!(snapshot(b), start, "drop");
    assert_eq!(cancelled.cancel(), 1);
    assert_eq!(snapshot(b), start, "cancel");
}

#[test]
fn permits_of_before_new_settings_have_no_effect() {
    let clock = ManualClock::new(0);
    let b = breaker(&clock, Trip::Consecutive(1), 1, 1);
    late_answers(&b, || {
        let two = CircuitBreaker::builder().trip(Trip::Consecutive(2));
        b.reconfigure(two).expect("new settings");
        // a success would empty the run, and a failure open
        b.record_failure().expect("recorded");
    });
    assert_eq!(b.lock().record.shared.run, 1);
}

#[test]
fn permits_of_before_a_return_have_no_effect() {
    let clock = ManualClock::new(0);
    let b = closed(&clock, WINDOWED);
    late_answers(&b, || {
        saved(&b).restore(NAME, &b).expect("it is there");
    });
    assert_eq!(snapshot(&b).places[..2], [30, 0]);
}

#[test]
fn a_half_open_breaker_comes_back_with_no_trial_out() {
    let clock = ManualClock::new(0);
    let b = breaker(&clock, Trip::Consecutive(1), 5, 3);
    b.record_failure().expect("recorded");
    clock.set(1000);
    admitted(&b).success();
    late_answers(&b, || {
        saved(&b).restore(NAME, &b).expect("it is there");
        assert_eq!(journal_fields(&b), (1, 3, 0, 1, 1000));
        forget(admitted(&b)); // a cancel would give this one back
    });
    let rest = [(); 4].map(|()| admitted(&b));
    assert!(rest.iter().all(crate::Permit::is_trial));
    let shed = ThrottleError::CircuitOpen {
        retry_after: Duration::ZERO,
    };
    assert_eq!(b.try_acquire(Decision::Acquired).unwrap_err(), shed);
    let [one, other, _third, _fourth] = rest;
    one.success();
    assert_eq!(b.state(), BreakerState::HalfOpen);
    other.success();
    assert_eq!(b.state(), BreakerState::Closed);
}

/// It is of the generation after the saved one, which a return must not come to again.
#[test]
fn a_permit_from_between_a_save_and_the_return_has_no_effect() {
    let clock = ManualClock::new(0);
    let b = closed(&clock, Trip::Consecutive(2));
    let saves = saved(&b);
    b.reset();
    let between = admitted(&b);
    saves.restore(NAME, &b).expect("it is there");
    between.failure().expect("ignored");
    assert_eq!(journal_fields(&b), (0, 2, 0, 0, 0));
    assert_eq!(b.lock().record.shared.run, 1);
    admitted(&b).failure().expect("recorded");
    assert_eq!(b.state(), BreakerState::Open);
}

#[test]
fn the_generation_wraps() {
    let clock = ManualClock::new(0);
    let b = closed(&clock, WINDOWED);
    let mut last = snapshot(&b);
    last.record.shared.generation = u64::MAX;
    restore(&b, &last);
    saved(&b).restore(NAME, &b).expect("it is there");
    assert_eq!(b.lock().record.shared.generation, 0);
    restore(&b, &last);
    b.reconfigure(CircuitBreaker::builder())
        .expect("new settings");
    assert_eq!(b.lock().record.shared.generation, 0);
}

#[test]
fn new_settings_are_a_fresh_record_of_the_next_generation() {
    let clock = ManualClock::new(0);
    for trip in [Trip::Consecutive(u32::MAX), RATIO, WINDOWED] {
        let settings = CircuitBreaker::builder().trip(trip).half_open(0, 9);
        for b in breakers(&clock) {
            let mut fresh = Owned::build(settings.setting()).expect("a breaker");
            fresh.record.shared.generation = snapshot(&b).record.shared.generation + 1;
            b.reconfigure(settings).expect("new settings");
            assert_eq!(snapshot(&b), fresh);
        }
    }
}

/// Ratio with this window and Windowed with these failures.
fn limited(limit: u32) -> [CircuitBreakerBuilder; 2] {
    let ratio = Trip::Ratio {
        window: limit,
        ratio: 0.5,
        min_calls: 1,
    };
    let windowed = Trip::Windowed {
        failures: limit,
        period: MINUTE,
    };
    [ratio, windowed].map(|trip| CircuitBreaker::builder().trip(trip))
}

#[test]
fn new_settings_over_the_limit_are_refused() {
    let clock = ManualClock::new(0);
    for settings in [limited(4097), limited(u32::MAX)].concat() {
        for b in breakers(&clock) {
            let mut none = Checkpoints::new();
            refused(&mut none, &b, ThrottleError::Limit, |_| {
                b.reconfigure(settings)
            });
        }
    }
    for settings in limited(4096) {
        let b = closed(&clock, WINDOWED);
        b.reconfigure(settings).expect("within the limit");
    }
}

#[test]
fn a_permit_counts_after_refused_new_settings_and_a_refused_return() {
    let clock = ManualClock::new(0);
    let b = closed(&clock, WINDOWED);
    let permit = admitted(&b);
    let [ratio, _] = limited(4097);
    assert_eq!(b.reconfigure(ratio), Err(ThrottleError::Limit));
    let absent = saved(&b).restore("ABSENT01", &b);
    assert_eq!(absent, Err(ThrottleError::Name));
    permit.failure().expect("recorded");
    assert_eq!(b.state(), BreakerState::Open);
}

#[test]
fn names_come_in_the_order_of_the_saves_and_through_bytes() {
    let clock = ManualClock::new(0);
    let many = full(&clock);
    let mut saves = Checkpoints::new();
    saves.save("SECOND02", &closed(&clock, RATIO)).expect("new");
    saves.save("FIRST001", &many).expect("new");
    saves
        .save("\0 third\x7f", &open(&clock, WINDOWED))
        .expect("ASCII too");
    let expected = ["SECOND02", "FIRST001", "\0 third\x7f"];
    assert!(saves.names().eq(expected));
    let read = Checkpoints::from_bytes(saves.as_bytes()).expect("whole saves");
    assert_eq!(read, saves);
    assert!(read.names().eq(expected));
    assert_eq!(
        format!("{read:?}"),
        r#"["SECOND02", "FIRST001", "\0 third\u{7f}"]"#
    );
    let b = closed(&clock, RATIO);
    read.restore("FIRST001", &b).expect("it is there");
    assert_eq!(snapshot(&b).places, snapshot(&many).places);
    read.restore("SECOND02", &b).expect("it is there");
    assert_eq!(snapshot(&b).places[..2], [1, 0]);
}

#[test]
fn no_bytes_are_no_saves() {
    let clock = ManualClock::new(0);
    let mut none = Checkpoints::from_bytes(&[]).expect("no saves");
    assert_eq!(none, Checkpoints::new());
    assert_eq!(none.as_bytes(), []);
    assert_eq!(none.names().next(), None);
    let b = closed(&clock, RATIO);
    refused(&mut none, &b, ThrottleError::Name, |none| {
        none.restore(NAME, &b)
    });
    none.save(NAME, &b).expect("room");
    assert_eq!(none, saved(&b));
}

#[test]
fn a_name_that_is_not_8_bytes_of_ascii_is_refused() {
    let clock = ManualClock::new(0);
    let b = half_open(&clock, WINDOWED);
    let mut saves = saved(&b);
    let eight_bytes = "\u{c4}BCDEFG";
    assert_eq!(eight_bytes.len(), 8);
    for name in [
        "",
        "EVENING",
        "MORNING",
        "EVENING12",
        "MORNING12",
        "EVENING1MORNING1",
        eight_bytes,
        "ABCDEF\u{80}",
    ] {
        refused(&mut saves, &b, ThrottleError::Name, |saves| {
            saves.save(name, &b)
        });
        refused(&mut saves, &b, ThrottleError::Name, |saves| {
            saves.restore(name, &b)
        });
    }
}

#[test]
fn a_name_is_all_its_8_bytes() {
    let clock = ManualClock::new(0);
    let b = half_open(&clock, RATIO);
    let mut saves = saved(&b);
    for name in ["EVENING2", "FVENING1", "EVEN\0NG1", "evening1"] {
        refused(&mut saves, &b, ThrottleError::Name, |saves| {
            saves.restore(name, &b)
        });
        saves.save(name, &b).expect("another name");
        saves.restore(name, &b).expect("it is there");
    }
}

#[test]
fn a_name_that_is_there_is_refused_and_keeps_its_save() {
    let clock = ManualClock::new(0);
    let (first, second) = (closed(&clock, WINDOWED), open(&clock, RATIO));
    let mut saves = saved(&first);
    saves.save("EVENING2", &first).expect("another name");
    refused(&mut saves, &second, ThrottleError::Name, |saves| {
        saves.save(NAME, &second)
    });
    refused(&mut saves, &second, ThrottleError::Name, |saves| {
        saves.save("EVENING2", &second)
    });
    saves.restore(NAME, &second).expect("it is there");
    assert_eq!(second.state(), BreakerState::Closed);
}

/// A save of 4,096 times has 8 + 78 + 8 · 4,096 bytes of body, which fill 67 blocks of 496; 128 fit.
#[test]
fn a_save_that_does_not_fit_is_refused() {
    let clock = ManualClock::new(0);
    let (many, few) = (full(&clock), closed(&clock, WINDOWED));
    let mut saves = saved(&many);
    assert_eq!(saves.as_bytes().len(), 67 * 512);
    refused(&mut saves, &many, ThrottleError::Name, |saves| {
        saves.save("EVENING2", &many)
    });
    for i in 67..128 {
        saves.save(&format!("SMALL{i:03}"), &few).expect("room");
    }
    assert_eq!(saves.as_bytes().len(), 65_536);
    refused(&mut saves, &few, ThrottleError::Name, |saves| {
        saves.save("SMALL128", &few)
    });
    assert_eq!(saves.names().count(), 62);
    let read = Checkpoints::from_bytes(saves.as_bytes()).expect("65,536 bytes");
    read.restore("SMALL127", &many).expect("it is there");
    assert_eq!(snapshot(&many).places, snapshot(&few).places);
}
