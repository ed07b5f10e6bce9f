//! The breaker record as plain fields, and the table of its fields.

use throttle::plain::{Config, State};
use throttle::scope::{self, PLACES};

/// A field as it is saved: little-endian, in so many bytes.
pub struct Field {
    pub name: &'static str,
    pub width: usize,
    /// The first version that has it; in an older save it reads as 0.
    pub since: u16,
    pub get: fn(&Record) -> u64,
    /// Cuts a number that is too wide.
    pub put: fn(&mut Record, u64),
}

macro_rules! record {
    ($($name:ident: $number:ty, since $since:literal;)*) => {
        #[derive(Clone, Copy, Debug, Default, PartialEq, Eq)]
        pub struct Record {
            $(pub $name: $number,)*
        }

        /// In document 01's order.
        pub const FIELDS: &[Field] = &[$(Field {
            name: stringify!($name),
            width: size_of::<$number>(),
            since: $since,
            get: |record| u64::from(record.$name),
            put: |record, number| record.$name = number as $number,
        },)*];
    };
}

record! {
    kind: u8, since 1;
    limit: u32, since 1;
    ratio_bits: u64, since 1;
    min_calls: u32, since 1;
    period_ms: u64, since 1;
    cooldown_ms: u64, since 1;
    trials: u32, since 1;
    required: u32, since 1;
    state: u8, since 1;
    generation: u64, since 1;
    run: u32, since 1;
    inflight: u32, since 1;
    trait_probes: u32, since 1;
    successes: u32, since 1;
    open_until: u64, since 1;
    len: u32, since 1;
}

/// The fields that a version has.
pub fn fields(version: u16) -> impl Iterator<Item = &'static Field> {
    FIELDS.iter().filter(move |field| field.since <= version)
}

impl Record {
    pub fn new(config: &Config, state: &State) -> Self {
        Self {
            kind: config.kind,
            limit: config.limit,
            ratio_bits: config.ratio_bits,
            min_calls: config.min_calls,
            period_ms: config.period_ms,
            cooldown_ms: config.cooldown_ms,
            trials: config.trials,
            required: config.required,
            state: state.state,
            generation: state.generation,
            run: state.run,
            inflight: state.inflight,
            trait_probes: state.trait_probes,
            successes: state.successes,
            open_until: state.open_until,
            len: state.items.len() as u32,
        }
    }

    pub fn config(&self) -> Config {
        Config {
            kind: self.kind,
            limit: self.limit,
            ratio_bits: self.ratio_bits,
            min_calls: self.min_calls,
            period_ms: self.period_ms,
            cooldown_ms: self.cooldown_ms,
            trials: self.trials,
            required: self.required,
        }
    }

    fn state(&self, items: &[u64]) -> State {
        State {
            state: self.state,
            generation: self.generation,
            run: self.run,
            inflight: self.inflight,
            trait_probes: self.trait_probes,
            successes: self.successes,
            open_until: self.open_until,
            items: items.to_vec(),
        }
    }

    /// Whether it is sound with these items, as many as its length says.
    pub fn sound_with(&self, items: &[u64]) -> bool {
        self.len as usize == items.len() && scope::sound(&self.config(), &self.state(items))
    }

    /// Whether it is sound with this storage of 4,096 places.
    pub fn sound_on(&self, list: &[u64]) -> bool {
        let len = self.len as usize;
        len <= PLACES && list[len..].iter().all(|&place| place == 0) && {
            self.sound_with(&list[..len])
        }
    }
}
