//! Headers, among them such as need normalising and such as number 2 refuses.

use sample::prng::Prng;

use crate::line::{Header, Policy};

/// A header that is never refused.
pub const PLAIN: Header = Header {
    policy: Policy::Consecutive { n: 2 },
    cooldown: 100,
    trials: 1,
    required: 1,
};

/// Counts that trip within a short journal, and some at the limits.
const LIMITS: [u32; 16] = [0, 1, 1, 1, 2, 2, 2, 2, 3, 3, 3, 4, 5, 10, 100, 4096];

pub fn header(prng: &mut Prng) -> Header {
    let policy = match prng.below(3) {
        0 => Policy::Consecutive { n: count(prng) },
        1 => ratio(prng),
        _ => Policy::Windowed {
            failures: count(prng),
            period: time(prng),
        },
    };
    with_policy(prng, policy)
}

/// A header under which 4,096 failures, each so many milliseconds after the one
/// before, don't trip behind a late one.
pub fn for_full(prng: &mut Prng) -> (Header, u64) {
    let (failures, period, step) = prng.pick(&[
        (3, 10, 20),
        (4096, 0, 1),
        (100, 50, 1),
        (4096, 1000, 1),
        (30, 200, 8),
    ]);
    let policy = Policy::Windowed { failures, period };
    (with_policy(prng, policy), step)
}

fn with_policy(prng: &mut Prng, policy: Policy) -> Header {
    let trials = prng.pick(&[0, 1, 1, 1, 2, 2, 3, 3, 4, u32::MAX]);
    let required = match prng.below(12) {
        0 => 0,
        1 => 9,
        2 => u32::MAX,
        3..=7 => 1,
        _ => 1 + prng.below(trials.clamp(1, 4).into()) as u32,
    };
    Header {
        policy,
        cooldown: time(prng),
        trials,
        required,
    }
}

fn count(prng: &mut Prng) -> u32 {
    match prng.below(50) {
        0 => prng.pick(&[4097, u32::MAX]),
        _ => prng.pick(&LIMITS),
    }
}

/// Mostly some milliseconds that readings come near.
fn time(prng: &mut Prng) -> u64 {
    match prng.below(12) {
        0 => 0,
        1 => prng.pick(&[u64::MAX, u64::MAX - 1, 1 << 32]),
        _ => prng.pick(&[1, 2, 10, 30, 100, 1000]),
    }
}

fn ratio(prng: &mut Prng) -> Policy {
    let window = count(prng);
    let min = match prng.below(5) {
        0 => window.saturating_add(1 + prng.below(5) as u32),
        1 => u32::MAX,
        _ => prng.below(u64::from(window) + 1).min(4) as u32,
    };
    let bits = bits(prng, window);
    Policy::Ratio { window, bits, min }
}

/// Mostly a quotient that the window can reach, or a neighbour of it.
fn bits(prng: &mut Prng, window: u32) -> u64 {
    let total = 1 + prng.below(window.clamp(1, 10).into());
    let quotient = prng.below(total + 1) as f64 / total as f64;
    match prng.below(10) {
        0 => prng.next(),
        1 => prng.pick(&ODD),
        2..=3 => quotient.next_up().to_bits(),
        4 => quotient.next_down().to_bits(),
        _ => quotient.to_bits(),
    }
}

/// Not a number, infinite, −0.0, subnormal, negative, above 1.
const ODD: [u64; 11] = [
    0x7ff8_0000_0000_0000,
    0xfff8_0000_0000_0000,
    0x7ff0_0000_0000_0001,
    0xffff_ffff_ffff_ffff,
    0x7ff0_0000_0000_0000,
    0xfff0_0000_0000_0000,
    0x8000_0000_0000_0000,
    0x0000_0000_0000_0001,
    0x8000_0000_0000_0001,
    0xbfe0_0000_0000_0000,
    0x4022_0000_0000_0000,
];
