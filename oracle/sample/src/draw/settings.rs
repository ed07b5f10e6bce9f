//! Raw settings, among them such as need normalising.

use std::time::Duration;

use throttle::Trip;
use throttle::plain::Settings;

use crate::prng::Prng;

/// Windows and failure counts; the small ones trip within a short sequence.
const LIMITS: [u32; 19] = [
    0, 1, 1, 1, 1, 2, 2, 2, 2, 2, 2, 3, 3, 3, 3, 10, 100, 4095, 4096,
];

/// Whole seconds in 2^64 - 1 ms.
const LAST_SECOND: u64 = u64::MAX / 1000;

pub fn settings(prng: &mut Prng) -> Settings {
    let trip = match prng.below(3) {
        0 => consecutive(prng),
        1 => ratio(prng),
        _ => Trip::Windowed {
            failures: prng.pick(&LIMITS),
            period: duration(prng),
        },
    };
    with_trip(prng, trip)
}

/// Ratio settings whose list may get as long as the storage.
pub fn long_ratio(prng: &mut Prng) -> Settings {
    let trip = Trip::Ratio {
        window: prng.pick(&[4095, 4096, 4096]),
        ratio: prng.pick(&[0.5, 0.5, 1.0 / 3.0, 0.1, 1.0]),
        min_calls: prng.pick(&[0, 4095, 4096, u32::MAX]),
    };
    with_trip(prng, trip)
}

/// Windowed settings for a list about as long as the storage.
pub fn long_windowed(prng: &mut Prng) -> Settings {
    let trip = Trip::Windowed {
        failures: prng.pick(&[3, 100, 100, 4095, 4096, 4096]),
        period: Duration::from_millis(prng.pick(&[0, 10, 100, 300])),
    };
    with_trip(prng, trip)
}

fn with_trip(prng: &mut Prng, trip: Trip) -> Settings {
    let trials = prng.pick(&[0, 1, 1, 1, 2, 2, 2, 3, 3, 4, 4, u32::MAX]);
    Settings {
        trip,
        cooldown: duration(prng),
        trials,
        required: required(prng, trials),
    }
}

fn required(prng: &mut Prng, trials: u32) -> u32 {
    match prng.below(12) {
        0 => 0,
        1 => 9,
        2 => trials,
        3 => u32::MAX,
        4..=7 => 1,
        _ => 1 + prng.below(trials.clamp(1, 4).into()) as u32,
    }
}

fn consecutive(prng: &mut Prng) -> Trip {
    let n = match prng.below(12) {
        0 => u32::MAX,
        _ => prng.pick(&LIMITS),
    };
    Trip::Consecutive(n)
}

fn ratio(prng: &mut Prng) -> Trip {
    let (window, ratio) = if prng.percent(35) {
        (prng.pick(&[10, 10, 100]), prng.pick(&ROUNDED_UP))
    } else {
        (prng.pick(&LIMITS), ratio_value(prng))
    };
    Trip::Ratio {
        window,
        ratio,
        min_calls: min_calls(prng, window),
    }
}

/// Tenths that lie below their binary64: the rounded quotient reaches them, the
/// exact one does not.
const ROUNDED_UP: [f64; 4] = [0.1, 0.1, 0.2, 0.9];

fn ratio_value(prng: &mut Prng) -> f64 {
    match prng.below(10) {
        0 => prng.pick(&[
            9.0,
            -1.0,
            f64::INFINITY,
            f64::NEG_INFINITY,
            1.0_f64.next_up(),
        ]),
        1 => f64::from_bits(prng.pick(&NANS)),
        2 => prng
            .pick(&[f64::from_bits(1), -f64::from_bits(1), 0.5, 0.1])
            .next_up(),
        3 => prng.pick(&[0.5_f64, 1.0 / 3.0, 0.1, 1.0]).next_down(),
        _ => prng.pick(&[0.0, -0.0, 0.5, 0.5, 1.0 / 3.0, 0.1, 1.0, f64::from_bits(1)]),
    }
}

/// Quiet and signalling, with either sign.
const NANS: [u64; 4] = [
    0x7ff8_0000_0000_0000,
    0xfff8_0000_0000_0000,
    0x7ff0_0000_0000_0001,
    0xffff_ffff_ffff_ffff,
];

fn min_calls(prng: &mut Prng, window: u32) -> u32 {
    match prng.below(5) {
        0 => 0,
        1 => window,
        2 => window.saturating_add(1 + prng.below(5) as u32),
        3 => u32::MAX,
        _ => prng.below(u64::from(window) + 1).min(5) as u32,
    }
}

/// Mostly a few milliseconds; at times with a rest to drop, or at the cap.
fn duration(prng: &mut Prng) -> Duration {
    match prng.below(20) {
        0 => Duration::ZERO,
        1 => Duration::from_nanos(999_999),
        2 => Duration::MAX,
        3 => Duration::new(LAST_SECOND, prng.pick(&[614_999_999, 615_000_000])),
        4 => Duration::new(LAST_SECOND, prng.pick(&[615_999_999, 616_000_000])),
        5..=8 => Duration::new(prng.below(3), prng.below(1_000_000_000) as u32),
        _ => Duration::from_millis(prng.pick(&[1, 2, 10, 30, 100, 1000])),
    }
}
