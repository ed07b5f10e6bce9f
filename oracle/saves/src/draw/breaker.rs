//! Sound breakers of each policy and state, and settings of any numbers.

use sample::draw;
use sample::prng::Prng;
use throttle::Subject;
use throttle::plain::{CONSECUTIVE, Config, RATIO, Settings, State};
use throttle::scope::{PLACES, sound};

use super::Drawn;
use crate::block::{FULL, NEWEST};
use crate::body::listed_from;
use crate::setting::Setting;

/// A breaker; so often, in percent, of a list that may be as long as the storage.
pub fn breaker(prng: &mut Prng, long: u64) -> Drawn {
    let long = prng.percent(long);
    let settings = match long {
        true if prng.percent(40) => draw::long_ratio(prng),
        true => draw::long_windowed(prng),
        false => draw::settings(prng),
    };
    let config = Subject::new(&settings).config();
    let mut state = draw::start(prng, &config).state;
    if config.kind != CONSECUTIVE {
        state.items = items(prng, &config, long);
    }
    drawn(settings, config, state)
}

/// A breaker with so many times.
pub fn with_times(prng: &mut Prng, len: u64) -> Drawn {
    let settings = draw::long_windowed(prng);
    let config = Subject::new(&settings).config();
    let state = State {
        items: (1000..1000 + len).collect(),
        ..draw::start(prng, &config).state
    };
    drawn(settings, config, state)
}

fn drawn(settings: Settings, config: Config, state: State) -> Drawn {
    assert!(sound(&config, &state), "an unsound breaker: {state:?}");
    Drawn {
        settings,
        config,
        state,
    }
}

/// Of 0, 1, a few, as many as may be, about a whole number of blocks, or any number.
fn items(prng: &mut Prng, config: &Config, long: bool) -> Vec<u64> {
    let ratio = config.kind == RATIO;
    let most = match ratio {
        true => config.limit.into(),
        false => PLACES as u64,
    };
    let short = if ratio {
        420
    } else {
        prng.pick(&[20, 20, 20, 60, 60, 200])
    };
    let most = if long { most } else { most.min(short) };
    let len = match prng.below(12) {
        0 => 0,
        1 => 1,
        2..=4 => 2 + prng.below(8),
        5..=7 => most,
        8..=9 => block_edge(prng, ratio),
        _ => prng.below(most + 1),
    };
    let len = len.min(most) as usize;
    match ratio {
        true => (0..len).map(|_| prng.below(2)).collect(),
        false => times(prng, len),
    }
}

/// A length with which the joined body ends about where a block does.
fn block_edge(prng: &mut Prng, ratio: bool) -> u64 {
    let end = FULL as u64 * prng.pick(&[1, 1, 1, 2, 3, 8]) - listed_from(NEWEST) as u64;
    prng.near(if ratio { end } else { end / 8 })
}

fn times(prng: &mut Prng, len: usize) -> Vec<u64> {
    let first = prng.pick(&[0, 1000, 1 << 32, u64::MAX - 5000]);
    let form = prng.below(4);
    (0..len as u64)
        .map(|place| match form {
            0 => prng.next(),
            1 => first,
            2 => first + prng.below(5000),
            _ => first + place,
        })
        .collect()
}

/// Settings, some numbers of which are replaced by any others.
pub fn setting(prng: &mut Prng) -> Setting {
    let settings = draw::settings(prng);
    let mut numbers = settings.numbers();
    for _ in 0..prng.pick(&[0, 0, 1, 1, 2, 3]) {
        let any = prng.next() >> 32 >> prng.below(32);
        let narrow = prng.pick(&[0, 1, 4095, 4096, 4097, 4097, u32::MAX.into(), any]);
        let nanos = prng.pick(&[0, 999_999_999, 1_000_000_000, u32::MAX.into(), any]);
        match prng.pick(&[0, 1, 1, 1, 2, 3, 4, 5, 5, 6, 7, 7, 8, 9]) {
            0 => numbers[0] = prng.pick(&[0, 1, 2, 3, 4, 255]),
            place @ (1 | 3 | 8 | 9) => numbers[place] = narrow,
            place @ (5 | 7) => numbers[place] = nanos,
            place => numbers[place] = prng.next() >> prng.below(64),
        }
    }
    Setting::from_numbers(numbers).expect("every number fits its field")
}
