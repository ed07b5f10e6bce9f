//! Puts a number into a field or a place, and takes the old one out.

use archive::Side;
use archive::ffi::Breaker;
use throttle::scope::PLACES;

use crate::act::Damage;

/// The fields of a record.
pub const FIELDS: usize = 16;

/// Puts it there, and answers what was there before.
pub fn swap(side: &mut Side, damage: Damage) -> Damage {
    let old = seen(side, damage.spot);
    match damage.spot {
        spot @ 0..FIELDS => put(&mut side.breaker, spot, damage.value),
        spot => side.list[(spot - FIELDS) % PLACES] = damage.value,
    }
    old
}

/// What stands there, after a narrow field has cut it.
pub fn seen(side: &Side, spot: usize) -> Damage {
    let value = match spot {
        0..FIELDS => fields(&side.breaker)[spot],
        _ => side.list[(spot - FIELDS) % PLACES],
    };
    Damage { spot, value }
}

fn fields(breaker: &Breaker) -> [u64; FIELDS] {
    let (config, shared) = (&breaker.config, &breaker.shared);
    [
        config.kind.into(),
        config.limit.into(),
        config.ratio_bits,
        config.min_calls.into(),
        config.period_ms,
        config.cooldown_ms,
        config.trials.into(),
        config.required.into(),
        shared.state.into(),
        shared.generation,
        shared.run.into(),
        shared.counts.inflight.into(),
        shared.counts.trait_probes.into(),
        shared.counts.successes.into(),
        shared.open_until,
        shared.len.into(),
    ]
}

fn put(breaker: &mut Breaker, field: usize, value: u64) {
    let (config, shared) = (&mut breaker.config, &mut breaker.shared);
    let narrow = value as u32;
    match field {
        0 => config.kind = value as u8,
        1 => config.limit = narrow,
        2 => config.ratio_bits = value,
        3 => config.min_calls = narrow,
        4 => config.period_ms = value,
        5 => config.cooldown_ms = value,
        6 => config.trials = narrow,
        7 => config.required = narrow,
        8 => shared.state = value as u8,
        9 => shared.generation = value,
        10 => shared.run = narrow,
        11 => shared.counts.inflight = narrow,
        12 => shared.counts.trait_probes = narrow,
        13 => shared.counts.successes = narrow,
        14 => shared.open_until = value,
        _ => shared.len = narrow,
    }
}
