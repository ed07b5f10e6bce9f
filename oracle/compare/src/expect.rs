//! Document 01's own numbers: 1 to 5 and 11, and which records are sound.

use archive::ffi::Setting;
use archive::{Side, state};
use throttle::plain::{CONSECUTIVE, Call, Config, RATIO, Settings, WINDOWED};
use throttle::scope::{self, PLACES};
use throttle::{Subject, Trip};

use crate::act::{Op, Step};

/// The number of a call that is refused before the breaker's rules.
pub fn refusal(step: &Step, sound: bool) -> Option<u64> {
    let short = matches!(step.op, Op::Finish { short: Some(_), .. });
    let places = step.how.places != PLACES || short;
    let known = match (&step.op, step.how.kind) {
        (Op::Call(call), Some(kind)) => knows(call, kind),
        _ => true,
    };
    match &step.op {
        Op::Set(_) | Op::IsSound => None,
        _ if places => Some(3),
        Op::Build(setting) => refused_setting(setting),
        _ if !sound => Some(4),
        _ if !known => Some(11),
        _ => None,
    }
}

/// Whether a call has a reply of this kind, or none at all.
pub fn knows(call: &Call, kind: u8) -> bool {
    match call {
        Call::Reserve { .. } => kind <= 1,
        Call::TryAdmit { .. } | Call::Peek { .. } => (1..=3).contains(&kind),
        Call::AcquireCost { .. } | Call::Available { .. } => (1..=3).contains(&kind),
        _ => true,
    }
}

fn refused_setting(setting: &Setting) -> Option<u64> {
    let nanos = |nanos: u32| nanos >= 1_000_000_000;
    match setting.kind {
        CONSECUTIVE | RATIO | WINDOWED => {}
        _ => return Some(4),
    }
    if nanos(setting.cooldown_nanos) || setting.kind == WINDOWED && nanos(setting.period_nanos) {
        return Some(1);
    }
    (setting.kind != CONSECUTIVE && setting.limit as usize > PLACES).then_some(2)
}

/// A setting that isn't refused, as the Rust takes it.
pub fn settings(setting: &Setting) -> Settings {
    let duration = std::time::Duration::new;
    let trip = match setting.kind {
        CONSECUTIVE => Trip::Consecutive(setting.limit),
        RATIO => Trip::Ratio {
            window: setting.limit,
            ratio: setting.ratio,
            min_calls: setting.min_calls,
        },
        _ => Trip::Windowed {
            failures: setting.limit,
            period: duration(setting.period_secs, setting.period_nanos),
        },
    };
    Settings {
        trip,
        cooldown: duration(setting.cooldown_secs, setting.cooldown_nanos),
        trials: setting.trials,
        required: setting.required,
    }
}

/// Whether the archive's record and list are sound.
pub fn sound(side: &Side) -> bool {
    let (config, shared) = (&side.breaker.config, &side.breaker.shared);
    let len = shared.len as usize;
    let config = Config {
        kind: config.kind,
        limit: config.limit,
        ratio_bits: config.ratio_bits,
        min_calls: config.min_calls,
        period_ms: config.period_ms,
        cooldown_ms: config.cooldown_ms,
        trials: config.trials,
        required: config.required,
    };
    len <= PLACES && side.clean_past(len) && {
        scope::sound(&config, &state(shared, &side.list[..]))
    }
}

/// Number 5, by the Rust's list. Only a full one is read.
pub fn full(rust: &Subject, config: &Config, now: u64, call: &Call) -> bool {
    config.kind == WINDOWED
        && rust.numbers()[7] >= PLACES as u64
        && scope::meets_full(config, &rust.state(), now, call)
}

/// Document 01's board figure of the Rust's list.
pub fn board(rust: &Subject, config: &Config) -> u64 {
    let items = rust.state().items;
    match (config.kind, items.len() as u64) {
        (RATIO, total @ 1..) => items.iter().sum::<u64>() * 1000 / total,
        _ => 0,
    }
}
