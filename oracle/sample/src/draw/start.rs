//! Sound states to start from.

use throttle::plain::{CLOSED, Config, HALF_OPEN, OPEN, RATIO, State, WINDOWED};

use crate::prng::Prng;

/// A state, and a reading near the times in it.
pub struct Start {
    pub state: State,
    pub clock: u64,
}

/// A start with a short list.
pub fn start(prng: &mut Prng, config: &Config) -> Start {
    let clock = base(prng);
    let items = match config.kind {
        RATIO => {
            let len = short_len(prng, config);
            outcomes(prng, config, len)
        }
        WINDOWED => times(prng, config, clock),
        _ => Vec::new(),
    };
    let code = prng.pick(&[CLOSED, CLOSED, HALF_OPEN, HALF_OPEN, OPEN]);
    let state = with_items(prng, config, code, clock, items);
    Start { state, clock }
}

/// A start with 4,094 to 4,096 items, or as many as the window lets in.
pub fn long_start(prng: &mut Prng, config: &Config) -> Start {
    let len = 4094 + prng.below(3) as usize;
    let (clock, items) = match config.kind {
        RATIO => {
            let len = len.min(config.limit as usize);
            (base(prng), outcomes(prng, config, len))
        }
        _ => many_times(prng, config, len),
    };
    let code = if prng.percent(10) { HALF_OPEN } else { CLOSED };
    let state = with_items(prng, config, code, clock, items);
    Start { state, clock }
}

fn base(prng: &mut Prng) -> u64 {
    match prng.below(10) {
        0 => prng.below(3),
        1..=7 => 100 + prng.below(2000),
        8 => u64::MAX - prng.below(3),
        _ => u64::MAX - prng.below(2000),
    }
}

fn with_items(prng: &mut Prng, config: &Config, code: u8, clock: u64, items: Vec<u64>) -> State {
    let state = State {
        state: code,
        generation: generation(prng),
        run: run(prng, config),
        open_until: open_until(prng, clock),
        items,
        ..State::default()
    };
    if code == HALF_OPEN {
        trying(prng, config, state)
    } else {
        state
    }
}

fn generation(prng: &mut Prng) -> u64 {
    match prng.below(10) {
        0..=5 => u64::MAX - prng.below(3),
        6..=8 => prng.below(4),
        _ => prng.next(),
    }
}

fn run(prng: &mut Prng, config: &Config) -> u32 {
    match prng.below(8) {
        0 => u32::MAX,
        1 => u32::MAX - 1,
        2..=4 => config.limit - 1,
        5 => config.limit,
        _ => prng.below(4) as u32,
    }
}

fn open_until(prng: &mut Prng, clock: u64) -> u64 {
    match prng.below(8) {
        0 => 0,
        1 => u64::MAX,
        2 => prng.next(),
        _ => clock.saturating_add(prng.below(50)),
    }
}

/// Trials under way: their number and the successes often next to the bound.
fn trying(prng: &mut Prng, config: &Config, state: State) -> State {
    let inflight = match prng.below(4) {
        0 => config.trials,
        1..=2 => config.trials - 1,
        _ => prng.below(u64::from(config.trials).min(4) + 1) as u32,
    };
    let trait_probes = match prng.below(8) {
        0..=1 => u32::MAX,
        2 => u32::MAX - 1,
        3 => inflight.saturating_add(1),
        4..=6 => prng.below(u64::from(inflight) + 1) as u32,
        _ => 0,
    };
    let successes = match prng.below(2) {
        0 => config.required - 1,
        _ => prng.below(config.required.into()) as u32,
    };
    State {
        inflight,
        trait_probes,
        successes,
        ..state
    }
}

fn short_len(prng: &mut Prng, config: &Config) -> usize {
    let room = u64::from(config.limit.min(100));
    let len = match prng.below(3) {
        0 => prng.below(room + 1),
        _ => room - prng.below(room.min(3)),
    };
    len as usize
}

/// About as many failures as trip, in one block at either end or strewn.
fn outcomes(prng: &mut Prng, config: &Config, len: usize) -> Vec<u64> {
    let mut items = vec![0; len];
    let failed = failures(prng, config, len);
    items[..failed].fill(1);
    match prng.below(3) {
        0 => items.reverse(),
        1 => shuffle(prng, &mut items),
        _ => {}
    }
    items
}

/// Often one less than what trips when one more call is recorded.
fn failures(prng: &mut Prng, config: &Config, len: usize) -> usize {
    let total = (len + 1).min(config.limit as usize);
    let needed = (f64::from_bits(config.ratio_bits) * total as f64).ceil() as usize;
    let less = prng.pick(&[0, 1, 1, 1, 2]);
    needed.saturating_sub(less).min(len)
}

fn shuffle(prng: &mut Prng, items: &mut [u64]) {
    for i in 1..items.len() {
        items.swap(i, prng.below(i as u64 + 1) as usize);
    }
}

fn times(prng: &mut Prng, config: &Config, clock: u64) -> Vec<u64> {
    let limit = u64::from(config.limit);
    let len = match prng.below(4) {
        0 => prng.below(6),
        _ => limit.min(110) - prng.below(limit.min(3)),
    };
    let span = config.period_ms.min(40) + 3;
    let mut times: Vec<u64> = (0..len)
        .map(|_| clock.saturating_sub(prng.below(span)))
        .collect();
    if prng.percent(70) {
        times.sort_unstable();
    }
    times
}

/// Four forms: rising times, times behind a later one at the front, equal
/// times, and times up to the last reading.
fn many_times(prng: &mut Prng, config: &Config, len: usize) -> (u64, Vec<u64>) {
    let places = 0..len as u64;
    match prng.below(40) {
        0..=7 => {
            let times = places.map(|i| 100 + i / 16).collect();
            let clock = config.period_ms.saturating_add(prng.below(110));
            (clock, times)
        }
        8..=32 => {
            let behind = places.skip(1).map(|i| i % 100);
            let clock = config.period_ms.saturating_add(90 + prng.below(60));
            (clock, [9999].into_iter().chain(behind).collect())
        }
        33..=38 => (500 - prng.below(20), vec![500; len]),
        _ => (u64::MAX, places.map(|i| u64::MAX - 255 + i / 16).collect()),
    }
}
