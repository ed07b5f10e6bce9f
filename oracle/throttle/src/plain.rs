//! Settings, record, calls and answers as plain numbers, in document 01's order.

use std::time::Duration;

use crate::circuit::Trip;

pub const CLOSED: u8 = 0;
pub const HALF_OPEN: u8 = 1;
pub const OPEN: u8 = 2;

pub const CONSECUTIVE: u8 = 1;
pub const RATIO: u8 = 2;
pub const WINDOWED: u8 = 3;

/// Whole milliseconds, capped, as circuit.rs reads each duration.
pub fn capped_ms(duration: Duration) -> u64 {
    u64::try_from(duration.as_millis()).unwrap_or(u64::MAX)
}

/// What a caller hands to the builder.
#[derive(Clone, Copy, Debug)]
pub struct Settings {
    pub trip: Trip,
    pub cooldown: Duration,
    pub trials: u32,
    pub required: u32,
}

impl Settings {
    /// Kind, limit, ratio bits, min calls, period, cooldown, trials, required.
    /// A duration is two numbers: seconds and nanoseconds.
    pub fn numbers(&self) -> [u64; 10] {
        let (kind, limit, bits, min, period) = trip_numbers(self.trip);
        [
            kind.into(),
            limit.into(),
            bits,
            min.into(),
            period.as_secs(),
            period.subsec_nanos().into(),
            self.cooldown.as_secs(),
            self.cooldown.subsec_nanos().into(),
            self.trials.into(),
            self.required.into(),
        ]
    }

    /// The settings with these numbers; `None` for an unknown kind or a number
    /// too wide for its field.
    pub fn from_numbers(numbers: [u64; 10]) -> Option<Self> {
        let [
            kind,
            limit,
            bits,
            min,
            secs,
            nanos,
            cool_secs,
            cool_nanos,
            trials,
            required,
        ] = numbers;
        let limit = narrow(limit)?;
        let trip = match u8::try_from(kind).ok()? {
            CONSECUTIVE => Trip::Consecutive(limit),
            RATIO => Trip::Ratio {
                window: limit,
                ratio: f64::from_bits(bits),
                min_calls: narrow(min)?,
            },
            WINDOWED => Trip::Windowed {
                failures: limit,
                period: duration(secs, nanos)?,
            },
            _ => return None,
        };
        Some(Self {
            trip,
            cooldown: duration(cool_secs, cool_nanos)?,
            trials: narrow(trials)?,
            required: narrow(required)?,
        })
    }
}

fn narrow(number: u64) -> Option<u32> {
    u32::try_from(number).ok()
}

fn duration(secs: u64, nanos: u64) -> Option<Duration> {
    let nanos = narrow(nanos).filter(|&n| n < 1_000_000_000)?;
    Some(Duration::new(secs, nanos))
}

/// Kind, limit, ratio bits, min calls and period; 0 for another policy's.
fn trip_numbers(trip: Trip) -> (u8, u32, u64, u32, Duration) {
    match trip {
        Trip::Consecutive(n) => (CONSECUTIVE, n, 0, 0, Duration::ZERO),
        Trip::Ratio {
            window,
            ratio,
            min_calls,
        } => (RATIO, window, ratio.to_bits(), min_calls, Duration::ZERO),
        Trip::Windowed { failures, period } => (WINDOWED, failures, 0, 0, period),
    }
}

/// The settings that a built breaker keeps.
#[derive(Clone, Copy, Debug, PartialEq, Eq)]
pub struct Config {
    pub kind: u8,
    pub limit: u32,
    pub ratio_bits: u64,
    pub min_calls: u32,
    pub period_ms: u64,
    pub cooldown_ms: u64,
    pub trials: u32,
    pub required: u32,
}

impl Config {
    /// The config of settings taken as they are.
    pub fn of(settings: &Settings) -> Self {
        let (kind, limit, ratio_bits, min_calls, period) = trip_numbers(settings.trip);
        Self {
            kind,
            limit,
            ratio_bits,
            min_calls,
            period_ms: capped_ms(period),
            cooldown_ms: capped_ms(settings.cooldown),
            trials: settings.trials,
            required: settings.required,
        }
    }

    pub fn numbers(&self) -> [u64; 8] {
        [
            self.kind.into(),
            self.limit.into(),
            self.ratio_bits,
            self.min_calls.into(),
            self.period_ms,
            self.cooldown_ms,
            self.trials.into(),
            self.required.into(),
        ]
    }
}

/// What calls change: the rest of the record, and the list without its unused places.
#[derive(Clone, Debug, Default, PartialEq, Eq)]
pub struct State {
    pub state: u8,
    pub generation: u64,
    pub run: u32,
    pub inflight: u32,
    pub trait_probes: u32,
    pub successes: u32,
    pub open_until: u64,
    pub items: Vec<u64>,
}

impl State {
    /// The fields and the list's length, without the items.
    pub fn numbers(&self) -> [u64; 8] {
        [
            self.state.into(),
            self.generation,
            self.run.into(),
            self.inflight.into(),
            self.trait_probes.into(),
            self.successes.into(),
            self.open_until,
            self.items.len() as u64,
        ]
    }

    /// The state with these fields and items; `None` for a number too wide for
    /// its field or a length that isn't that of the items.
    pub fn from_numbers(numbers: [u64; 8], items: Vec<u64>) -> Option<Self> {
        let [
            state,
            generation,
            run,
            inflight,
            trait_probes,
            successes,
            open_until,
            len,
        ] = numbers;
        (len == items.len() as u64).then_some(())?;
        Some(Self {
            state: u8::try_from(state).ok()?,
            generation,
            run: narrow(run)?,
            inflight: narrow(inflight)?,
            trait_probes: narrow(trait_probes)?,
            successes: narrow(successes)?,
            open_until,
            items,
        })
    }
}

/// The generation of an admission, and whether it holds a trial.
#[derive(Clone, Copy, Debug, PartialEq, Eq)]
pub struct Ticket {
    pub generation: u64,
    pub probe: bool,
}

/// The inner limiter's reply; a retry has its delay in milliseconds.
#[derive(Clone, Copy, Debug, PartialEq, Eq)]
pub enum Reply {
    Acquired,
    Retry(u64),
    Impossible,
}

impl Reply {
    pub fn numbers(self) -> [u64; 2] {
        match self {
            Self::Acquired => [1, 0],
            Self::Retry(delay) => [2, delay],
            Self::Impossible => [3, 0],
        }
    }

    pub fn from_numbers(kind: u64, delay: u64) -> Option<Self> {
        match kind {
            1 => Some(Self::Acquired),
            2 => Some(Self::Retry(delay)),
            3 => Some(Self::Impossible),
            _ => None,
        }
    }
}

/// How a permit ends.
#[derive(Clone, Copy, Debug, PartialEq, Eq)]
pub enum End {
    Success,
    Failure,
    Dropped,
    Cancel,
}

impl End {
    pub const ALL: [Self; 4] = [Self::Success, Self::Failure, Self::Dropped, Self::Cancel];

    pub fn from_number(number: u64) -> Option<Self> {
        Self::ALL.into_iter().find(|&end| end as u64 + 1 == number)
    }
}

/// One call on a breaker, with the inner limiter's replies to it.
#[derive(Clone, Copy, Debug, PartialEq, Eq)]
pub enum Call {
    Admit { via_trait: bool },
    Settle { ticket: Ticket, success: bool },
    Abort { ticket: Ticket, via_trait: bool },
    ReleaseTraitProbe,
    Record { success: bool },
    Reset,
    StillAdmits { ticket: Ticket },
    TryAdmit { reply: Reply, capacity: u32 },
    Permit { ticket: Ticket, end: End },
    Peek { reply: Reply, cost: u32 },
    AcquireCost { reply: Reply, cost: u32 },
    Reserve { wait: Option<u64>, cost: u32 },
    Available { reply: Reply, count: u32 },
    Charge { left: u32, cost: u32 },
    Refund { cost: u32 },
}

/// The names of the op codes, from 1 on.
pub const OPS: [&str; 15] = [
    "admit_as",
    "settle",
    "abort_as",
    "release_trait_probe",
    "record_manual",
    "reset",
    "still_admits",
    "try_admit",
    "permit",
    "peek",
    "acquire_cost",
    "reserve",
    "available",
    "charge",
    "refund",
];

impl Call {
    /// The op code and its arguments.
    pub fn numbers(&self) -> (u64, [u64; 4]) {
        match *self {
            Self::Admit { via_trait } => (1, [via_trait.into(), 0, 0, 0]),
            Self::Settle { ticket, success } => (2, with_ticket(ticket, success.into())),
            Self::Abort { ticket, via_trait } => (3, with_ticket(ticket, via_trait.into())),
            Self::ReleaseTraitProbe => (4, [0; 4]),
            Self::Record { success } => (5, [success.into(), 0, 0, 0]),
            Self::Reset => (6, [0; 4]),
            Self::StillAdmits { ticket } => (7, with_ticket(ticket, 0)),
            Self::TryAdmit { reply, capacity } => (8, with_reply(reply, capacity)),
            Self::Permit { ticket, end } => (9, with_ticket(ticket, end as u64 + 1)),
            Self::Peek { reply, cost } => (10, with_reply(reply, cost)),
            Self::AcquireCost { reply, cost } => (11, with_reply(reply, cost)),
            Self::Reserve { wait, cost } => {
                let [some, ms] = wait.map_or([0, 0], |ms| [1, ms]);
                (12, [some, ms, cost.into(), 0])
            }
            Self::Available { reply, count } => (13, with_reply(reply, count)),
            Self::Charge { left, cost } => (14, [left.into(), 0, cost.into(), 0]),
            Self::Refund { cost } => (15, [0, 0, cost.into(), 0]),
        }
    }

    /// The call with these numbers; `None` where they are no call's.
    pub fn from_numbers(op: u64, args: [u64; 4]) -> Option<Self> {
        let call = Self::read(op, args)?;
        (call.numbers() == (op, args)).then_some(call)
    }

    /// Reads leniently: `from_numbers` then asks for the same numbers back.
    fn read(op: u64, [a, b, c, _]: [u64; 4]) -> Option<Self> {
        let ticket = Ticket {
            generation: a,
            probe: b == 1,
        };
        let reply = || Reply::from_numbers(a, b);
        let third = || narrow(c);
        Some(match op {
            1 => Self::Admit { via_trait: a == 1 },
            2 => Self::Settle {
                ticket,
                success: c == 1,
            },
            3 => Self::Abort {
                ticket,
                via_trait: c == 1,
            },
            4 => Self::ReleaseTraitProbe,
            5 => Self::Record { success: a == 1 },
            6 => Self::Reset,
            7 => Self::StillAdmits { ticket },
            8 => Self::TryAdmit {
                reply: reply()?,
                capacity: third()?,
            },
            9 => Self::Permit {
                ticket,
                end: End::from_number(c)?,
            },
            10 => Self::Peek {
                reply: reply()?,
                cost: third()?,
            },
            11 => Self::AcquireCost {
                reply: reply()?,
                cost: third()?,
            },
            12 => Self::Reserve {
                wait: (a == 1).then_some(b),
                cost: third()?,
            },
            13 => Self::Available {
                reply: reply()?,
                count: third()?,
            },
            14 => Self::Charge {
                left: narrow(a)?,
                cost: third()?,
            },
            15 => Self::Refund { cost: third()? },
            _ => return None,
        })
    }
}

fn with_ticket(ticket: Ticket, third: u64) -> [u64; 4] {
    [ticket.generation, ticket.probe.into(), third, 0]
}

fn with_reply(reply: Reply, third: u32) -> [u64; 4] {
    let [kind, delay] = reply.numbers();
    [kind, delay, third.into(), 0]
}

/// Document 01's number and up to three values.
#[derive(Clone, Copy, Debug, PartialEq, Eq)]
pub struct Answer {
    pub number: u64,
    pub values: [u64; 3],
}

impl Answer {
    /// Done, or yes, or nothing to tell.
    pub const DONE: Self = Self::new(0, [0; 3]);
    /// The inner limiter says retry.
    pub const RETRY: Self = Self::new(7, [0; 3]);
    /// A failure with no place left for its time.
    pub const FULL: Self = Self::new(5, [0; 3]);

    pub const fn new(number: u64, values: [u64; 3]) -> Self {
        Self { number, values }
    }

    pub const fn granted(ticket: Ticket) -> Self {
        Self::new(0, [ticket.generation, ticket.probe as u64, 0])
    }

    pub const fn shed(delay_ms: u64) -> Self {
        Self::new(6, [delay_ms, 0, 0])
    }

    /// One number passed on: a count, or a cost given back.
    pub const fn count(count: u64) -> Self {
        Self::new(0, [count, 0, 0])
    }
}
