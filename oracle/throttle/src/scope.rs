//! What document 01 adds to the Rust: which records are sound, and number 5.

use crate::plain::{CLOSED, Call, Config, End, HALF_OPEN, OPEN, RATIO, State, WINDOWED};

/// The places of the lent list.
pub const PLACES: usize = 4096;

const ONE_BITS: u64 = 1.0_f64.to_bits();
const MINUS_ZERO_BITS: u64 = (-0.0_f64).to_bits();

/// Whether a record and its list are sound.
pub fn sound(config: &Config, state: &State) -> bool {
    sound_policy(config) && sound_trials(config) && sound_counters(config, state) && {
        let items = &state.items;
        match config.kind {
            RATIO => items.len() <= config.limit as usize && items.iter().all(|&item| item <= 1),
            WINDOWED => items.len() <= PLACES,
            _ => items.is_empty(),
        }
    }
}

fn sound_policy(config: &Config) -> bool {
    let Config {
        limit,
        ratio_bits,
        min_calls,
        period_ms,
        ..
    } = *config;
    let bounded = 1 <= limit && limit as usize <= PLACES;
    match config.kind {
        RATIO => bounded && sound_ratio(ratio_bits) && min_calls <= limit && period_ms == 0,
        WINDOWED => bounded && ratio_bits == 0 && min_calls == 0,
        1 => limit >= 1 && ratio_bits == 0 && min_calls == 0 && period_ms == 0,
        _ => false,
    }
}

fn sound_ratio(bits: u64) -> bool {
    bits <= ONE_BITS || bits == MINUS_ZERO_BITS
}

fn sound_trials(config: &Config) -> bool {
    1 <= config.required && config.required <= config.trials
}

fn sound_counters(config: &Config, state: &State) -> bool {
    let idle = state.inflight == 0 && state.trait_probes == 0 && state.successes == 0;
    match state.state {
        HALF_OPEN => state.inflight <= config.trials && state.successes < config.required,
        CLOSED | OPEN => idle,
        _ => false,
    }
}

/// Whether a call meets number 5: a failure that counts in Closed, while 4,096
/// times are left after eviction at the front. The Rust appends there.
pub fn meets_full(config: &Config, state: &State, now: u64, call: &Call) -> bool {
    config.kind == WINDOWED
        && state.state == CLOSED
        && fails(state.generation, call)
        && left_after_eviction(config, state, now) >= PLACES
}

fn fails(generation: u64, call: &Call) -> bool {
    match *call {
        Call::Settle {
            ticket,
            success: false,
        } => ticket.generation == generation,
        Call::Permit {
            ticket,
            end: End::Failure | End::Dropped,
        } => ticket.generation == generation,
        Call::Record { success } => !success,
        _ => false,
    }
}

fn left_after_eviction(config: &Config, state: &State, now: u64) -> usize {
    let cutoff = now.saturating_sub(config.period_ms);
    let items = state.items.iter();
    items.skip_while(|&&time| time < cutoff).count()
}
