//! Document 01's cases, run on the unchanged Rust.

use std::time::Duration;

use throttle::plain::{
    Answer, CLOSED, Call, Config, End, HALF_OPEN, OPEN, Reply, Settings, State, Ticket,
};
use throttle::scope::{PLACES, meets_full, sound};
use throttle::scripted::Asked;
use throttle::{Subject, Trip};

fn settings(trip: Trip, cooldown_ms: u64, trials: u32, required: u32) -> Settings {
    Settings {
        trip,
        cooldown: Duration::from_millis(cooldown_ms),
        trials,
        required,
    }
}

fn breaker(trip: Trip, cooldown_ms: u64, trials: u32, required: u32) -> Subject {
    Subject::new(&settings(trip, cooldown_ms, trials, required))
}

fn ratio(window: u32, ratio: f64, min_calls: u32) -> Trip {
    Trip::Ratio {
        window,
        ratio,
        min_calls,
    }
}

fn windowed(failures: u32, period_ms: u64) -> Trip {
    Trip::Windowed {
        failures,
        period: Duration::from_millis(period_ms),
    }
}

fn ticket(generation: u64, probe: bool) -> Ticket {
    Ticket { generation, probe }
}

fn admit() -> Call {
    Call::Admit { via_trait: false }
}

fn settle(generation: u64, probe: bool, success: bool) -> Call {
    Call::Settle {
        ticket: ticket(generation, probe),
        success,
    }
}

/// Fails or succeeds at each reading with a ticket of generation 0.
fn outcomes(subject: &Subject, outcomes: &[(u64, bool)]) -> Vec<u8> {
    let step = |&(now, success): &(u64, bool)| {
        subject.call(now, &settle(0, false, success));
        subject.state().state
    };
    outcomes.iter().map(step).collect()
}

/// State, generation, inflight, successes, open-until: as the journal prints.
fn printed(state: &State) -> [u64; 5] {
    let [state, generation, _, inflight, _, successes, until, _] = state.numbers();
    [state, generation, inflight, successes, until]
}

#[test]
fn the_journals_case() {
    let subject = breaker(Trip::Consecutive(2), 1000, 1, 1);
    let granted = |generation, probe| Answer::granted(ticket(generation, probe));
    let lines = [
        (10, admit(), granted(0, false), [0, 0, 0, 0, 0]),
        (20, settle(0, false, false), Answer::DONE, [0, 0, 0, 0, 0]),
        (
            30,
            settle(0, false, false),
            Answer::DONE,
            [2, 1, 0, 0, 1030],
        ),
        (500, admit(), Answer::shed(530), [2, 1, 0, 0, 1030]),
        (1030, admit(), granted(2, true), [1, 2, 1, 0, 1030]),
        (
            1040,
            settle(1, true, true),
            Answer::DONE,
            [1, 2, 1, 0, 1030],
        ),
        (
            1050,
            settle(2, true, true),
            Answer::DONE,
            [0, 3, 0, 0, 1030],
        ),
    ];
    for (now, call, answer, left) in lines {
        assert_eq!(subject.call(now, &call), answer, "at {now}");
        assert_eq!(printed(&subject.state()), left, "at {now}");
    }
}

#[test]
fn the_builders_defaults() {
    let expected = Config {
        kind: 1,
        limit: 5,
        ratio_bits: 0,
        min_calls: 0,
        period_ms: 0,
        cooldown_ms: 30_000,
        trials: 1,
        required: 1,
    };
    assert_eq!(Subject::with_defaults().config(), expected);
    assert_eq!(Subject::with_defaults().state(), State::default());
}

#[test]
fn p1_to_p4_normalising() {
    let config = |trip| breaker(trip, 0, 1, 1).config();
    assert_eq!(config(Trip::Consecutive(0)).limit, 1);
    let raw = config(ratio(0, f64::NAN, 9));
    let numbers = (raw.limit, raw.ratio_bits, raw.min_calls);
    assert_eq!(numbers, (1, 1.0_f64.to_bits(), 1));
    assert_eq!(config(ratio(4, -0.0, 0)).ratio_bits, (-0.0_f64).to_bits());
    assert_eq!(config(ratio(4, -1.0, 0)).ratio_bits, 0);
    let clamped = breaker(Trip::Consecutive(1), 0, 3, 9).config();
    assert_eq!((clamped.trials, clamped.required), (3, 3));
}

#[test]
fn p5_open_until_is_reached_at_its_own_reading() {
    let subject = breaker(Trip::Consecutive(1), 1000, 1, 1);
    subject.call(30, &settle(0, false, false));
    assert_eq!(subject.state().open_until, 1030);
    assert_eq!(subject.call(1029, &admit()), Answer::shed(1));
    let probe = Answer::granted(ticket(2, true));
    assert_eq!(subject.call(1030, &admit()), probe);
    assert_eq!(subject.state().state, HALF_OPEN);
}

#[test]
fn p6_the_window_trips_at_the_sixth() {
    let subject = breaker(ratio(4, 0.5, 4), 1000, 1, 1);
    let calls = [false, true, false, true, true, false].map(|success| (0, success));
    let states = outcomes(&subject, &calls);
    assert_eq!(states, [CLOSED, CLOSED, CLOSED, CLOSED, CLOSED, OPEN]);
}

#[test]
fn p7_a_time_at_the_cutoff_counts() {
    let at = |second| {
        let subject = breaker(windowed(2, 100), 1000, 1, 1);
        outcomes(&subject, &[(0, false), (second, false)])
    };
    assert_eq!(at(100), [CLOSED, OPEN]);
    assert_eq!(at(101), [CLOSED, CLOSED]);
}

#[test]
fn p8_the_generation_wraps() {
    let subject = breaker(Trip::Consecutive(1), 0, 1, 1);
    let last = State {
        generation: u64::MAX,
        ..State::default()
    };
    subject.set_state(&last);
    subject.call(7, &settle(u64::MAX, false, false));
    let state = subject.state();
    assert_eq!((state.state, state.generation), (OPEN, 0));
}

#[test]
fn p9_open_until_is_capped() {
    let subject = breaker(Trip::Consecutive(1), 1, 1, 1);
    subject.call(u64::MAX, &settle(0, false, false));
    let state = subject.state();
    assert_eq!((state.state, state.open_until), (OPEN, u64::MAX));
}

#[test]
fn p10_a_reset_moves_the_generation_of_a_fresh_breaker() {
    let subject = breaker(Trip::Consecutive(1), 1000, 1, 1);
    subject.call(0, &Call::Reset);
    let after = subject.state();
    let moved = State {
        generation: 1,
        ..State::default()
    };
    assert_eq!(after, moved);
    let still = Call::StillAdmits {
        ticket: ticket(0, false),
    };
    assert_eq!(subject.call(0, &still), Answer::DONE);
    subject.call(0, &settle(0, false, false));
    assert_eq!(subject.state(), after);
}

#[test]
fn p11_orders_of_a_success_and_a_failure() {
    let ends = |required, order: [bool; 2]| {
        let subject = breaker(Trip::Consecutive(1), 1000, 2, required);
        let trying = State {
            state: HALF_OPEN,
            inflight: 2,
            ..State::default()
        };
        subject.set_state(&trying);
        for success in order {
            subject.call(0, &settle(0, true, success));
        }
        subject.state().state
    };
    assert_eq!([ends(2, [true, false]), ends(2, [false, true])], [OPEN; 2]);
    assert_eq!(ends(1, [true, false]), CLOSED);
    assert_eq!(ends(1, [false, true]), OPEN);
}

/// Fails at each reading, and gives the state and the list's length after it.
fn fail_all(subject: &Subject, readings: impl IntoIterator<Item = u64>) -> (u8, usize) {
    for reading in readings {
        subject.call(reading, &settle(0, false, false));
    }
    (subject.state().state, subject.state().items.len())
}

#[test]
fn number_5_is_where_the_rust_appends() {
    let subject = breaker(windowed(3, 10), 1000, 1, 1);
    let readings = [99_999].into_iter().chain((1..4096).map(|i| 20 * i));
    assert_eq!(fail_all(&subject, readings), (CLOSED, PLACES));
    let last = settle(0, false, false);
    let (config, state) = (subject.config(), subject.state());
    assert!(sound(&config, &state));
    assert!(meets_full(&config, &state, 20 * 4096, &last));
    assert!(!meets_full(&config, &state, 100_010, &last));
    assert!(!meets_full(
        &config,
        &state,
        20 * 4096,
        &settle(1, false, false)
    ));
    assert_eq!(fail_all(&subject, [20 * 4096]), (CLOSED, PLACES + 1));
    assert!(!sound(&config, &subject.state()));
}

#[test]
fn number_5_hides_a_trip_of_the_rust() {
    let subject = breaker(windowed(4096, 0), 1, 1, 1);
    let readings = [9999].into_iter().chain(1..4096);
    assert_eq!(fail_all(&subject, readings), (CLOSED, PLACES));
    let dropped = Call::Permit {
        ticket: ticket(0, false),
        end: End::Dropped,
    };
    assert!(meets_full(&subject.config(), &subject.state(), 0, &dropped));
    subject.call(0, &dropped);
    assert_eq!(subject.state().state, OPEN);
}

#[test]
fn the_trait_side_asks_the_inner_limiter_with_its_cost() {
    let subject = breaker(Trip::Consecutive(1), 1000, 1, 1);
    let reply = Reply::Retry(9);
    let retry = Answer::new(0, [2, 9, 0]);
    let asked = |call: Call| {
        let answer = subject.call(0, &call);
        (answer, subject.inner().script().asked.clone())
    };
    let peek = asked(Call::Peek { reply, cost: 4 });
    assert_eq!(peek, (retry, vec![Asked::Peek(4)]));
    let acquire = asked(Call::AcquireCost { reply, cost: 5 });
    assert_eq!(acquire, (retry, vec![Asked::Acquire(5)]));
    let reserve = asked(Call::Reserve {
        wait: Some(3),
        cost: 6,
    });
    let wait = Answer::new(0, [1, 3, 0]);
    assert_eq!(reserve, (wait, vec![Asked::Reserve(6, Duration::MAX)]));
    let refund = asked(Call::Refund { cost: 8 });
    assert_eq!(refund, (Answer::count(8), vec![Asked::Refund(8)]));
}

#[test]
fn an_inner_refusal_after_the_cooldown_leaves_half_open_without_trials() {
    let open = State {
        state: OPEN,
        generation: 1,
        open_until: 1030,
        ..State::default()
    };
    let left = State {
        state: HALF_OPEN,
        generation: 2,
        ..open.clone()
    };
    let refusals = [
        (Reply::Retry(1), Answer::RETRY),
        (Reply::Impossible, Answer::new(8, [1, 7, 0])),
    ];
    for (reply, answer) in refusals {
        let subject = breaker(Trip::Consecutive(1), 1000, 1, 1);
        subject.set_state(&open);
        let call = Call::TryAdmit { reply, capacity: 7 };
        assert_eq!(subject.call(1030, &call), answer);
        assert_eq!(subject.state(), left);
    }
}

#[test]
fn any_sound_state_can_be_set_and_read() {
    let subject = breaker(ratio(4096, 0.5, 1), 1000, u32::MAX, u32::MAX);
    let state = State {
        state: HALF_OPEN,
        generation: u64::MAX,
        run: u32::MAX,
        inflight: u32::MAX,
        trait_probes: u32::MAX,
        successes: u32::MAX - 1,
        open_until: u64::MAX,
        items: (0..4096).map(|i| i % 2).collect(),
    };
    assert!(sound(&subject.config(), &state));
    subject.set_state(&state);
    assert_eq!(subject.state(), state);
}
