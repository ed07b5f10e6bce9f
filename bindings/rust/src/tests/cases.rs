//! The cases of document 01, through the safe types.
use core::time::Duration;

use super::{admitted, breaker, journal_fields, restore, snapshot, ticket};
use crate::{
    BreakerState, CircuitBreaker, Decision, ManualClock, Permit, SystemClock, ThrottleError, Trip,
};

fn shed(ms: u64) -> ThrottleError {
    ThrottleError::CircuitOpen {
        retry_after: Duration::from_millis(ms),
    }
}

/// A breaker that opened at 30 with open-until 1,030.
fn opened(clock: &ManualClock, trials: u32, required: u32) -> CircuitBreaker<&ManualClock> {
    let b = breaker(clock, Trip::Consecutive(1), trials, required);
    clock.set(30);
    b.record_failure().expect("recorded");
    b
}

/// The same in half-open, with both of its trials out.
fn two_trials(
    clock: &ManualClock,
    required: u32,
    run: impl FnOnce(Permit<'_, &ManualClock>, Permit<'_, &ManualClock>),
) -> BreakerState {
    let b = opened(clock, 2, required);
    clock.set(1030);
    run(admitted(&b), admitted(&b));
    b.state()
}

#[test]
fn the_journal() {
    let clock = ManualClock::new(10);
    let b = breaker(&clock, Trip::Consecutive(2), 1, 1);
    let (one, other) = (admitted(&b), admitted(&b));
    assert_eq!(one.ticket, ticket(0, false));
    assert_eq!(journal_fields(&b), (0, 0, 0, 0, 0));
    clock.set(20);
    one.failure().expect("recorded");
    assert_eq!(journal_fields(&b), (0, 0, 0, 0, 0));
    clock.set(30);
    other.failure().expect("recorded");
    assert_eq!(journal_fields(&b), (2, 1, 0, 0, 1030));
    clock.set(500);
    assert_eq!(b.try_acquire(Decision::Acquired).unwrap_err(), shed(530));
    clock.set(1030);
    let trial = admitted(&b);
    assert_eq!(trial.ticket, ticket(2, true));
    assert_eq!(journal_fields(&b), (1, 2, 1, 0, 1030));
    clock.set(1040);
    Permit::new(&b, ticket(1, true)).success();
    assert_eq!(journal_fields(&b), (1, 2, 1, 0, 1030));
    clock.set(1050);
    trial.success();
    assert_eq!(journal_fields(&b), (0, 3, 0, 0, 1030));
}

#[test]
fn p5_open_until() {
    let clock = ManualClock::new(0);
    let b = opened(&clock, 1, 1);
    clock.set(1029);
    assert_eq!(b.try_acquire(Decision::Acquired).unwrap_err(), shed(1));
    clock.set(1030);
    let trial = admitted(&b);
    assert!(trial.is_trial());
    assert_eq!(b.try_acquire(Decision::Acquired).unwrap_err(), shed(0));
    assert_eq!(trial.cancel(), 1);
    assert_eq!(journal_fields(&b), (1, 2, 0, 0, 1030));
}

#[test]
fn p8_the_generation_wraps() {
    let clock = ManualClock::new(0);
    let b = breaker(&clock, Trip::Consecutive(1), 1, 1);
    let mut last = snapshot(&b);
    last.record.shared.generation = u64::MAX;
    restore(&b, &last);
    let permit = admitted(&b);
    assert_eq!(permit.ticket, ticket(u64::MAX, false));
    permit.failure().expect("recorded");
    assert_eq!(journal_fields(&b), (2, 0, 0, 0, 1000));
    restore(&b, &last);
    b.reset();
    assert_eq!(journal_fields(&b), (0, 0, 0, 0, 0));
}

#[test]
fn p9_the_last_reading() {
    let b = CircuitBreaker::builder()
        .trip(Trip::Consecutive(1))
        .cooldown(Duration::from_millis(1))
        .build(ManualClock::new(u64::MAX))
        .expect("a breaker");
    admitted(&b).failure().expect("recorded");
    assert_eq!(journal_fields(&b), (2, 1, 0, 0, u64::MAX));
    assert!(admitted(&b).is_trial());
}

#[test]
fn p10_reset_when_fresh() {
    let clock = ManualClock::new(0);
    let b = breaker(&clock, Trip::Consecutive(1), 1, 1);
    let early = admitted(&b);
    b.reset();
    assert_eq!(journal_fields(&b), (0, 1, 0, 0, 0));
    assert_eq!(b.still_admits(&early), Ok(()));
    early.failure().expect("ignored");
    assert_eq!(journal_fields(&b), (0, 1, 0, 0, 0));
}

#[test]
fn p11_two_required_open_in_either_order() {
    let clock = ManualClock::new(0);
    let first = two_trials(&clock, 2, |a, b| {
        a.success();
        b.failure().expect("recorded");
    });
    let second = two_trials(&clock, 2, |a, b| {
        b.failure().expect("recorded");
        a.success();
    });
    assert_eq!((first, second), (BreakerState::Open, BreakerState::Open));
}

#[test]
fn p11_one_required_and_the_order_decides() {
    let clock = ManualClock::new(0);
    let first = two_trials(&clock, 1, |a, b| {
        a.success();
        b.failure().expect("ignored");
    });
    let second = two_trials(&clock, 1, |a, b| {
        b.failure().expect("recorded");
        a.success();
    });
    assert_eq!((first, second), (BreakerState::Closed, BreakerState::Open));
}

#[test]
fn a_dropped_permit_is_a_failure() {
    let clock = ManualClock::new(7);
    let b = breaker(&clock, Trip::Consecutive(1), 1, 1);
    drop(admitted(&b));
    assert_eq!(journal_fields(&b), (2, 1, 0, 0, 1007));
}

#[test]
fn a_panic_drops_the_permit_and_the_breaker_goes_on() {
    let clock = ManualClock::new(0);
    let b = breaker(&clock, Trip::Consecutive(1), 1, 1);
    let panicked = std::thread::scope(|threads| {
        let worker = threads.spawn(|| {
            let _permit = admitted(&b);
            std::panic::resume_unwind(Box::new("the call went wrong"));
        });
        worker.join()
    });
    assert!(panicked.is_err());
    assert_eq!(b.state(), BreakerState::Open);
}

#[test]
fn a_settled_permit_acts_once() {
    let clock = ManualClock::new(0);
    let b = breaker(&clock, Trip::Consecutive(9), 1, 1);
    admitted(&b).failure().expect("recorded");
    assert_eq!(b.lock().record.shared.run, 1);
    admitted(&b).success();
    assert_eq!(b.lock().record.shared.run, 0);
    assert_eq!(admitted(&b).cancel(), 1);
    assert_eq!(b.lock().record.shared.run, 0);
}

#[test]
fn a_late_permit_does_no_harm_and_a_manual_failure_opens() {
    let clock = ManualClock::new(0);
    let b = breaker(&clock, Trip::Consecutive(1), 2, 2);
    let late = admitted(&b);
    admitted(&b).failure().expect("recorded");
    clock.set(1000);
    let trial = admitted(&b);
    assert_eq!(b.still_admits(&late), Err(shed(0)));
    late.failure().expect("ignored");
    assert_eq!(b.state(), BreakerState::HalfOpen);
    b.record_failure().expect("recorded");
    assert_eq!(b.state(), BreakerState::Open);
    assert_eq!(b.still_admits(&trial), Err(shed(1000)));
    trial.success();
    assert_eq!(b.state(), BreakerState::Open);
}

#[test]
fn manual_successes_close_a_half_open_breaker() {
    let clock = ManualClock::new(0);
    let b = opened(&clock, 2, 2);
    clock.set(1030);
    let trial = admitted(&b);
    b.record_success();
    assert_eq!(journal_fields(&b), (1, 2, 1, 1, 1030));
    b.record_success();
    assert_eq!(journal_fields(&b), (0, 3, 0, 0, 1030));
    trial.success();
}

#[test]
fn inner_refusals_give_the_trial_back() {
    let clock = ManualClock::new(0);
    let b = opened(&clock, 1, 1);
    clock.set(1030);
    let retry = Decision::Retry {
        after: Duration::MAX,
    };
    assert_eq!(b.try_acquire(retry).unwrap_err(), ThrottleError::InnerRetry);
    assert_eq!(journal_fields(&b), (1, 2, 0, 0, 1030));
    let never = b.try_acquire(Decision::Impossible { capacity: 100 });
    let expected = ThrottleError::CostExceedsCapacity {
        cost: 1,
        capacity: 100,
    };
    assert_eq!(never.unwrap_err(), expected);
    assert_eq!(journal_fields(&b), (1, 2, 0, 0, 1030));
}

#[test]
fn the_board_counts_failures_in_a_thousand() {
    let clock = ManualClock::new(0);
    let trip = Trip::Ratio {
        window: 4,
        ratio: f64::NAN,
        min_calls: 9,
    };
    let b = breaker(&clock, trip, 1, 1);
    assert_eq!(b.board(), 0);
    admitted(&b).failure().expect("recorded");
    admitted(&b).success();
    admitted(&b).success();
    assert_eq!(b.board(), 333);
    assert_eq!(snapshot(&b).places[..4], [1, 0, 0, 0]);
}

/// docs/DIFFERENCES.md's journal for number 5: `W 3 10 1000 1 1`, a failure at 99,999, then at 20 i.
#[test]
fn number_5_leaves_all_as_it_was() {
    let clock = ManualClock::new(99_999);
    let period = Duration::from_millis(10);
    let b = breaker(
        &clock,
        Trip::Windowed {
            failures: 3,
            period,
        },
        1,
        1,
    );
    admitted(&b).failure().expect("recorded");
    for i in 1..=4095 {
        clock.set(20 * i);
        admitted(&b).failure().expect("recorded");
    }
    clock.set(20 * 4096);
    let full = snapshot(&b);
    assert_eq!(full.record.shared.len, 4096);
    assert_eq!(admitted(&b).failure(), Err(ThrottleError::Full));
    assert_eq!(b.record_failure(), Err(ThrottleError::Full));
    drop(admitted(&b));
    assert_eq!(snapshot(&b), full);
    admitted(&b).success();
    b.reset();
    admitted(&b).failure().expect("recorded after a reset");
}

#[test]
fn settings_are_normalised_or_refused() {
    let clock = ManualClock::new(0);
    let c = snapshot(&breaker(&clock, Trip::Consecutive(0), 3, 9))
        .record
        .config;
    assert_eq!((c.limit, c.trials, c.required), (1, 3, 3));
    let plain = CircuitBreaker::builder().build(&clock).expect("a breaker");
    let c = snapshot(&plain).record.config;
    assert_eq!((c.kind, c.limit, c.cooldown_ms), (1, 5, 30_000));
    assert_eq!((c.trials, c.required), (1, 1));
    let period = Duration::MAX;
    let wide = Trip::Windowed {
        failures: 4097,
        period,
    };
    assert_eq!(
        CircuitBreaker::builder()
            .trip(wide)
            .build(&clock)
            .unwrap_err(),
        ThrottleError::Limit
    );
    let widest = Trip::Windowed {
        failures: 4096,
        period,
    };
    let c = snapshot(&breaker(&clock, widest, 0, 0)).record.config;
    assert_eq!((c.period_ms, c.trials, c.required), (u64::MAX, 1, 1));
}

/// What a limiter that replies so is told, and how often it was asked.
fn asked(b: &CircuitBreaker<&ManualClock>, reply: Decision) -> (Result<(), ThrottleError>, u32) {
    let mut asked = 0;
    let permit = b.try_acquire_with(|| {
        asked += 1;
        reply
    });
    (permit.map(core::mem::forget), asked)
}

#[test]
fn a_limiter_is_asked_only_where_the_breaker_admits() {
    let clock = ManualClock::new(0);
    let b = opened(&clock, 1, 1);
    clock.set(1029);
    assert_eq!(asked(&b, Decision::Acquired), (Err(shed(1)), 0));
    assert_eq!(journal_fields(&b), (2, 1, 0, 0, 1030));
    clock.set(1030);
    let after = Duration::from_millis(5);
    let retry = asked(&b, Decision::Retry { after });
    assert_eq!(retry, (Err(ThrottleError::InnerRetry), 1));
    assert_eq!(journal_fields(&b), (1, 2, 0, 0, 1030));
    let never = ThrottleError::CostExceedsCapacity {
        cost: 1,
        capacity: 7,
    };
    let impossible = asked(&b, Decision::Impossible { capacity: 7 });
    assert_eq!(impossible, (Err(never), 1));
    assert_eq!(journal_fields(&b), (1, 2, 0, 0, 1030));
    assert_eq!(asked(&b, Decision::Acquired), (Ok(()), 1));
    assert_eq!(journal_fields(&b), (1, 2, 1, 0, 1030));
    assert_eq!(asked(&b, Decision::Acquired), (Err(shed(0)), 0));
}

#[test]
fn a_limiter_may_use_the_breaker_while_it_is_asked() {
    let clock = ManualClock::new(0);
    let b = breaker(&clock, Trip::Consecutive(1), 1, 1);
    let late = b
        .try_acquire_with(|| {
            b.record_failure().expect("recorded");
            Decision::Acquired
        })
        .expect("a permit");
    assert_eq!(late.ticket, ticket(0, false));
    late.success();
    assert_eq!(journal_fields(&b), (2, 1, 0, 0, 1000));
}

#[test]
fn refusals_say_their_number() {
    assert_eq!(shed(530).number(), 6);
    assert_eq!(
        shed(530).to_string(),
        "refused with 6: circuit breaker is open; request shed, retry in 530ms"
    );
    assert_eq!(
        ThrottleError::Full.to_string(),
        "refused with 5: a failure with 4,096 older times left"
    );
}

#[test]
fn threads_may_share_a_breaker() {
    fn shared<T: Send + Sync>() {}
    shared::<CircuitBreaker<SystemClock>>();
    shared::<CircuitBreaker<ManualClock>>();
    shared::<Permit<'static, SystemClock>>();
}
