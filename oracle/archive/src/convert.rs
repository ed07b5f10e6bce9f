//! Numbers of the probe as the archive's, and back.

use throttle::Trip;
use throttle::plain::{self, Answer, Settings, State};
use throttle::turns::Handed;

use crate::ffi::{self, Config, Counts, Setting, Shared, Told, Turn, Waited};

pub fn plain_told(told: Told) -> Answer {
    Answer::new(told.number.into(), [told.v1, told.v2, told.v3])
}

pub fn plain_waited(waited: Waited) -> Answer {
    assert_eq!(waited.v4, 0, "no answer has a fourth value");
    Answer::new(waited.number.into(), [waited.v1, waited.v2, waited.v3])
}

/// A flag, where this byte is true.
#[inline]
pub fn flag(value: bool, yes: u8) -> u8 {
    if value { yes } else { 0 }
}

#[inline]
pub fn own(ticket: plain::Ticket, yes: u8) -> ffi::Ticket {
    ffi::Ticket {
        generation: ticket.generation,
        probe: flag(ticket.probe, yes),
    }
}

pub fn turn(handed: &Handed) -> Turn {
    let turn = handed.turn;
    Turn {
        clock: turn.clock,
        epoch_before: turn.epoch_before,
        epoch_after: turn.epoch_after,
        kind: turn.kind,
        duration: turn.duration,
        pause: turn.pause,
        postponed_before: turn.postponed_before,
        postponed_after: turn.postponed_after,
    }
}

pub fn config(config: &plain::Config) -> Config {
    Config {
        kind: config.kind,
        limit: config.limit,
        ratio_bits: config.ratio_bits,
        min_calls: config.min_calls,
        period_ms: config.period_ms,
        cooldown_ms: config.cooldown_ms,
        trials: config.trials,
        required: config.required,
    }
}

pub fn shared(state: &State) -> Shared {
    Shared {
        state: state.state,
        generation: state.generation,
        run: state.run,
        counts: Counts {
            inflight: state.inflight,
            trait_probes: state.trait_probes,
            successes: state.successes,
        },
        open_until: state.open_until,
        len: state.items.len() as u32,
    }
}

pub fn setting(settings: &Settings) -> Setting {
    let rest = Setting {
        cooldown_secs: settings.cooldown.as_secs(),
        cooldown_nanos: settings.cooldown.subsec_nanos(),
        trials: settings.trials,
        required: settings.required,
        ..Setting::default()
    };
    match settings.trip {
        Trip::Ratio {
            window,
            ratio,
            min_calls,
        } => Setting {
            kind: plain::RATIO,
            limit: window,
            ratio,
            min_calls,
            ..rest
        },
        Trip::Windowed { failures, period } => Setting {
            kind: plain::WINDOWED,
            limit: failures,
            period_secs: period.as_secs(),
            period_nanos: period.subsec_nanos(),
            ..rest
        },
        Trip::Consecutive(n) => Setting {
            kind: plain::CONSECUTIVE,
            limit: n,
            ..rest
        },
        trip => panic!("{trip:?} is not drawn"),
    }
}

/// The state in a record and its list, whose length must fit.
pub fn state(shared: &Shared, list: &[u64]) -> State {
    State {
        state: shared.state,
        generation: shared.generation,
        run: shared.run,
        inflight: shared.counts.inflight,
        trait_probes: shared.counts.trait_probes,
        successes: shared.counts.successes,
        open_until: shared.open_until,
        items: list[..shared.len as usize].to_vec(),
    }
}
