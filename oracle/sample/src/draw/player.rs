//! Draws the next reading and the next call from what has happened so far.

use throttle::plain::{
    Answer, CLOSED, Call, Config, End, HALF_OPEN, OPEN, Reply, State, Ticket, WINDOWED,
};

use crate::prng::Prng;

pub struct Player {
    clock: u64,
    failed_percent: u64,
    /// Readings mostly move on by little, so that a long list stays long.
    calm: bool,
    granted: Vec<Ticket>,
}

impl Player {
    pub fn new(prng: &mut Prng, clock: u64, calm: bool) -> Self {
        Self {
            clock,
            failed_percent: if calm {
                85
            } else {
                prng.pick(&[40, 70, 80, 90])
            },
            calm,
            granted: Vec::new(),
        }
    }

    /// Keeps a ticket that was granted.
    pub fn heard(&mut self, call: &Call, answer: &Answer) {
        let ticket = matches!(call, Call::Admit { .. } | Call::TryAdmit { .. });
        if ticket && answer.number == 0 {
            self.keep(Ticket {
                generation: answer.values[0],
                probe: answer.values[1] == 1,
            });
        }
    }

    /// Keeps a ticket, to end it by a later call.
    pub fn keep(&mut self, ticket: Ticket) {
        self.granted.push(ticket);
    }

    /// The next reading: often a little later, often at an edge, at times back.
    pub fn reading(&mut self, prng: &mut Prng, config: &Config, state: &State) -> u64 {
        let later = self.clock.saturating_add(prng.below(12));
        let edges = match (self.calm, state.state) {
            (_, OPEN) => 60,
            (true, _) => 6,
            _ => 40,
        };
        self.clock = if prng.percent(edges) {
            edge(prng, config, state).unwrap_or(later)
        } else if prng.percent(if self.calm { 5 } else { 25 }) {
            self.jump(prng)
        } else {
            later
        };
        self.clock
    }

    fn jump(&self, prng: &mut Prng) -> u64 {
        match prng.below(8) {
            0..=1 => prng.below(3),
            2..=3 => u64::MAX - prng.below(3),
            4 => prng.next(),
            _ => self.clock.saturating_sub(prng.below(12)),
        }
    }

    pub fn call(&self, prng: &mut Prng, state: &State) -> Call {
        match weighted(prng, weights(state.state)) {
            1 => Call::Admit {
                via_trait: prng.percent(40),
            },
            2 => Call::Settle {
                ticket: self.ticket(prng, state),
                success: self.success(prng, state),
            },
            3 => Call::Abort {
                ticket: self.ticket(prng, state),
                via_trait: prng.percent(50),
            },
            4 => Call::ReleaseTraitProbe,
            5 => Call::Record {
                success: self.success(prng, state),
            },
            6 => Call::Reset,
            7 => Call::StillAdmits {
                ticket: self.ticket(prng, state),
            },
            8 => Call::TryAdmit {
                reply: reply(prng),
                capacity: count(prng),
            },
            9 => Call::Permit {
                ticket: self.ticket(prng, state),
                end: self.end(prng, state),
            },
            op => with_inner(prng, op),
        }
    }

    /// In HalfOpen successes are drawn more often, so that breakers close.
    fn success(&self, prng: &mut Prng, state: &State) -> bool {
        let failed = match state.state {
            HALF_OPEN => 45,
            _ => self.failed_percent,
        };
        !prng.percent(failed)
    }

    fn end(&self, prng: &mut Prng, state: &State) -> End {
        match (prng.percent(20), self.success(prng, state)) {
            (true, _) => End::Cancel,
            (_, true) => End::Success,
            _ => prng.pick(&[End::Failure, End::Dropped]),
        }
    }

    fn ticket(&self, prng: &mut Prng, state: &State) -> Ticket {
        let present = state.generation;
        let generation = match prng.below(20) {
            0..=7 if !self.granted.is_empty() => return self.granted_ticket(prng),
            0..=15 => present,
            16 => present.wrapping_add(1),
            17..=18 => present.wrapping_sub(1),
            _ => prng.next(),
        };
        let probe = prng.percent(if state.state == HALF_OPEN { 80 } else { 30 });
        Ticket { generation, probe }
    }

    /// One of the last four, or any.
    fn granted_ticket(&self, prng: &mut Prng) -> Ticket {
        let recent = self.granted.len().saturating_sub(4);
        let from = if prng.percent(80) { recent } else { 0 };
        prng.pick(&self.granted[from..])
    }
}

/// Next to open-until, or to where the cutoff meets a time of the list.
fn edge(prng: &mut Prng, config: &Config, state: &State) -> Option<u64> {
    let edge = if state.state == OPEN {
        state.open_until
    } else if config.kind == WINDOWED && !state.items.is_empty() {
        let front = prng.percent(60).then(|| state.items[0]);
        let time = front.unwrap_or_else(|| prng.pick(&state.items));
        time.saturating_add(config.period_ms)
    } else {
        return None;
    };
    Some(prng.near(edge))
}

/// How often each op is drawn, from op 1 on.
fn weights(state: u8) -> &'static [u64; 15] {
    match state {
        CLOSED => &[9, 26, 4, 3, 14, 3, 5, 8, 22, 5, 5, 5, 4, 3, 4],
        HALF_OPEN => &[8, 18, 8, 6, 11, 3, 6, 7, 16, 5, 7, 7, 5, 3, 6],
        _ => &[16, 5, 4, 4, 5, 3, 8, 13, 5, 8, 10, 10, 6, 3, 4],
    }
}

/// An op code.
fn weighted(prng: &mut Prng, weights: &[u64; 15]) -> u64 {
    let mut left = prng.below(weights.iter().sum());
    let mut op = 1;
    for &weight in weights {
        if left < weight {
            break;
        }
        left -= weight;
        op += 1;
    }
    op
}

/// Ops 10 to 15: what the inner limiter says makes the call.
fn with_inner(prng: &mut Prng, op: u64) -> Call {
    let cost = count(prng);
    match op {
        10 => Call::Peek {
            reply: reply(prng),
            cost,
        },
        11 => Call::AcquireCost {
            reply: reply(prng),
            cost,
        },
        12 => Call::Reserve {
            wait: prng.percent(65).then(|| delay(prng)),
            cost,
        },
        13 => Call::Available {
            reply: reply(prng),
            count: cost,
        },
        14 => Call::Charge {
            left: count(prng),
            cost,
        },
        _ => Call::Refund { cost },
    }
}

fn reply(prng: &mut Prng) -> Reply {
    match prng.below(10) {
        0..=5 => Reply::Acquired,
        6..=7 => Reply::Retry(delay(prng)),
        _ => Reply::Impossible,
    }
}

fn delay(prng: &mut Prng) -> u64 {
    match prng.below(8) {
        0 => 0,
        1 => u64::MAX,
        _ => prng.below(2000),
    }
}

fn count(prng: &mut Prng) -> u32 {
    prng.pick(&[0, 1, 1, 2, 7, 100, u32::MAX])
}
