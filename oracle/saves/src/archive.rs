//! The archive's four calls of a save, as include/pudvirez.h has them.

use archive::ffi::{self, Breaker, Counts, Setting, Shared};
use archive::plain_told;
use throttle::plain::Answer;

use crate::record::Record;
use crate::setting;
use crate::world::{Call, Engine, Op, World};

/// The archive that is linked.
pub struct Archive;

impl Engine for Archive {
    fn call(&mut self, world: &mut World, call: &Call) -> Answer {
        let mut breaker = breaker(&world.record);
        let list = &mut world.list[..call.places];
        let answer = match &call.op {
            Op::Save(name) => save(
                &breaker,
                list,
                &mut world.buffer[..call.size],
                call.used,
                name,
            ),
            Op::Restore(name) => {
                let saves = &world.buffer[..call.size];
                restore(&mut breaker, list, saves, call.used, name)
            }
            Op::Reconfigure(setting) => reconfigure(&mut breaker, list, setting),
            Op::Check(at) => check(&world.buffer[*at..at + call.size]),
        };
        world.record = record(&breaker);
        answer
    }
}

fn save(breaker: &Breaker, list: &[u64], saves: &mut [u8], used: usize, name: &[u8]) -> Answer {
    // SAFETY: all are slices, and nothing overlaps.
    plain_told(unsafe {
        ffi::pudvirez_save(
            breaker,
            list.as_ptr(),
            list.len(),
            saves.as_mut_ptr(),
            saves.len(),
            used,
            name.as_ptr(),
            name.len(),
        )
    })
}

fn restore(
    breaker: &mut Breaker,
    list: &mut [u64],
    saves: &[u8],
    used: usize,
    name: &[u8],
) -> Answer {
    // SAFETY: as for a save.
    plain_told(unsafe {
        ffi::pudvirez_restore(
            breaker,
            list.as_mut_ptr(),
            list.len(),
            saves.as_ptr(),
            saves.len(),
            used,
            name.as_ptr(),
            name.len(),
        )
    })
}

fn reconfigure(breaker: &mut Breaker, list: &mut [u64], new: &setting::Setting) -> Answer {
    // SAFETY: as for a save.
    plain_told(unsafe {
        ffi::pudvirez_reconfigure(breaker, list.as_mut_ptr(), list.len(), setting(new))
    })
}

fn check(block: &[u8]) -> Answer {
    // SAFETY: as for a save.
    plain_told(unsafe { ffi::pudvirez_check_block(block.as_ptr(), block.len()) })
}

fn setting(from: &setting::Setting) -> Setting {
    Setting {
        kind: from.kind,
        limit: from.limit,
        ratio: f64::from_bits(from.ratio_bits),
        min_calls: from.min_calls,
        period_secs: from.period_secs,
        period_nanos: from.period_nanos,
        cooldown_secs: from.cooldown_secs,
        cooldown_nanos: from.cooldown_nanos,
        trials: from.trials,
        required: from.required,
    }
}

fn breaker(record: &Record) -> Breaker {
    Breaker {
        config: archive::config(&record.config()),
        shared: Shared {
            state: record.state,
            generation: record.generation,
            run: record.run,
            counts: Counts {
                inflight: record.inflight,
                trait_probes: record.trait_probes,
                successes: record.successes,
            },
            open_until: record.open_until,
            len: record.len,
        },
    }
}

fn record(breaker: &Breaker) -> Record {
    let (config, shared) = (&breaker.config, &breaker.shared);
    Record {
        kind: config.kind,
        limit: config.limit,
        ratio_bits: config.ratio_bits,
        min_calls: config.min_calls,
        period_ms: config.period_ms,
        cooldown_ms: config.cooldown_ms,
        trials: config.trials,
        required: config.required,
        state: shared.state,
        generation: shared.generation,
        run: shared.run,
        inflight: shared.counts.inflight,
        trait_probes: shared.counts.trait_probes,
        successes: shared.counts.successes,
        open_until: shared.open_until,
        len: shared.len,
    }
}
