//! Draws the next line from what has happened so far.

use sample::prng::Prng;
use throttle::plain::{Answer, CLOSED, HALF_OPEN, OPEN, State, Ticket, WINDOWED};

use crate::line::{Act, Line};
use crate::replay::Run;

/// The ticket of a fresh breaker.
pub const FIRST: Ticket = Ticket {
    generation: 0,
    probe: false,
};

pub struct Player {
    clock: u64,
    failed_percent: u64,
    granted: Vec<Ticket>,
}

impl Player {
    pub fn new(prng: &mut Prng) -> Self {
        Self {
            clock: prng.pick(&[0, 10, 1000, 1_000_000, u64::MAX - 2000]),
            failed_percent: prng.pick(&[30, 60, 80, 95]),
            granted: Vec::new(),
        }
    }

    pub fn set_clock(&mut self, reading: u64) {
        self.clock = reading;
    }

    /// Keeps a ticket that was granted.
    pub fn heard(&mut self, line: &Line, answer: &Answer) {
        if line.act == Act::Admit && answer.number == 0 {
            self.granted.push(Ticket {
                generation: answer.values[0],
                probe: answer.values[1] == 1,
            });
        }
    }

    pub fn line(&mut self, prng: &mut Prng, run: &Run) -> Line {
        self.clock = self.reading(prng, run);
        Line {
            reading: self.clock,
            act: self.act(prng, run.state()),
        }
    }

    /// Often a little later, often at an edge, at times back.
    fn reading(&self, prng: &mut Prng, run: &Run) -> u64 {
        let edges = if run.state().state == OPEN { 60 } else { 25 };
        match edge(prng, run) {
            Some(edge) if prng.percent(edges) => prng.near(edge),
            _ => self.elsewhere(prng),
        }
    }

    /// Near the greatest reading the way back is shorter than elsewhere.
    fn elsewhere(&self, prng: &mut Prng) -> u64 {
        match prng.below(100) {
            _ if self.clock > u64::MAX - 3000 && prng.percent(15) => prng.below(3000),
            0 => prng.next(),
            1 => u64::MAX - prng.below(3),
            2 => prng.below(3),
            3..=8 => self.clock.saturating_sub(prng.below(150)),
            9..=15 => self.clock.saturating_add(prng.below(1500)),
            _ => self.clock.saturating_add(prng.below(12)),
        }
    }

    fn act(&self, prng: &mut Prng, state: &State) -> Act {
        let [admit, settle, abort] = match state.state {
            CLOSED => [22, 72, 3],
            HALF_OPEN => [35, 48, 14],
            _ => [70, 20, 7],
        };
        let drawn = prng.below(100);
        if drawn < admit {
            Act::Admit
        } else if drawn < admit + settle {
            self.settle(prng, state)
        } else if drawn < admit + settle + abort {
            Act::Abort(self.ticket(prng, state))
        } else {
            Act::Reset
        }
    }

    fn settle(&self, prng: &mut Prng, state: &State) -> Act {
        let ticket = self.ticket(prng, state);
        let failed = match state.state {
            HALF_OPEN => 35,
            _ => self.failed_percent,
        };
        if prng.percent(failed) {
            Act::Failure(ticket)
        } else {
            Act::Success(ticket)
        }
    }

    /// Granted before, or of the present generation, one beside it, or any.
    fn ticket(&self, prng: &mut Prng, state: &State) -> Ticket {
        let present = state.generation;
        let generation = match prng.below(100) {
            0..20 if !self.granted.is_empty() => return self.granted_ticket(prng),
            0..85 => present,
            85..92 => present.wrapping_sub(1),
            92..96 => present.wrapping_add(1),
            96..98 => prng.below(present.saturating_add(1)),
            _ => prng.next(),
        };
        let probe = prng.percent(if state.state == HALF_OPEN { 80 } else { 20 });
        Ticket { generation, probe }
    }

    /// One of the last four, or any.
    fn granted_ticket(&self, prng: &mut Prng) -> Ticket {
        let recent = self.granted.len().saturating_sub(4);
        let from = if prng.percent(80) { recent } else { 0 };
        prng.pick(&self.granted[from..])
    }
}

/// Open-until, or where the cutoff meets a time of the list.
fn edge(prng: &mut Prng, run: &Run) -> Option<u64> {
    let (config, state) = (run.config(), run.state());
    match state.state {
        OPEN => Some(state.open_until),
        _ if config.kind == WINDOWED && !state.items.is_empty() => {
            let front = prng.percent(60).then(|| state.items[0]);
            let time = front.unwrap_or_else(|| prng.pick(&state.items));
            Some(time.saturating_add(config.period_ms))
        }
        _ => None,
    }
}
