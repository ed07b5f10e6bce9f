//! All sequences of up to five calls over a few calls, from two starts.

use std::time::Duration;

use throttle::Trip;
use throttle::plain::{Call, OPEN, Settings, State, Ticket};

use crate::act::{Op, Step};
use crate::pair::{Difference, Pair};
use crate::slip::Slip;
use crate::tally::Tally;

const DEPTH: usize = 5;
/// The reading of the first call; each further one is 1 later.
const FIRST: u64 = 10;

pub struct Exhaustive {
    slip: Slip,
    pub settings: u64,
    pub tally: Tally,
    /// The steps of the present sequence.
    pub done: Vec<Step>,
}

impl Exhaustive {
    pub fn new(slip: Slip) -> Self {
        Self {
            slip,
            settings: 0,
            tally: Tally::default(),
            done: Vec::new(),
        }
    }

    pub fn run(&mut self) -> Result<(), Difference> {
        for settings in all_settings() {
            self.settings += 1;
            let mut pair = Pair::new(&settings, self.slip);
            for state in starts() {
                self.done.clear();
                let build = Op::Build(archive::setting(&settings));
                self.done.push(Step::new(0, build));
                self.done.push(Step::new(0, Op::Set(state)));
                for at in 0..2 {
                    pair.step(&self.done[at])?;
                }
                self.tally.sequences += 1;
                self.deepen(&mut pair, DEPTH)?;
            }
        }
        Ok(())
    }

    /// Every call from here, and what follows it.
    fn deepen(&mut self, pair: &mut Pair, left: usize) -> Result<(), Difference> {
        if left == 0 {
            return Ok(());
        }
        let before = pair.state();
        let now = FIRST + (DEPTH - left) as u64;
        for call in calls(before.generation) {
            let old = *pair.shared();
            self.done.push(Step::new(now, Op::Call(call)));
            let step = &self.done[self.done.len() - 1];
            let answer = pair.step(step)?;
            self.tally.note(step, &answer, &old, pair.shared());
            self.tally.sequences += 1;
            self.deepen(pair, left - 1)?;
            self.done.pop();
            pair.set(&before);
        }
        Ok(())
    }
}

fn calls(generation: u64) -> [Call; 14] {
    let present = |probe| Ticket { generation, probe };
    let stale = Ticket {
        generation: generation.wrapping_sub(1),
        probe: true,
    };
    let settle = |ticket, success| Call::Settle { ticket, success };
    let ticket = present(true);
    [
        Call::Admit { via_trait: false },
        Call::Admit { via_trait: true },
        settle(ticket, true),
        settle(ticket, false),
        settle(present(false), true),
        settle(present(false), false),
        settle(stale, true),
        settle(stale, false),
        Call::Abort {
            ticket,
            via_trait: false,
        },
        Call::Abort {
            ticket,
            via_trait: true,
        },
        Call::Refund { cost: 1 },
        Call::Record { success: true },
        Call::Record { success: false },
        Call::Reset,
    ]
}

/// A fresh breaker, and an Open one at its open-until.
fn starts() -> [State; 2] {
    let open = State {
        state: OPEN,
        generation: u64::MAX,
        open_until: FIRST,
        ..State::default()
    };
    [State::default(), open]
}

fn all_settings() -> Vec<Settings> {
    let mut all = Vec::new();
    for trip in policies() {
        for (trials, required) in [(1, 1), (2, 1), (2, 2), (3, 1), (3, 2), (3, 3)] {
            let cooldown = Duration::from_millis(1 + u64::from(trials % 2));
            all.push(Settings {
                trip,
                cooldown,
                trials,
                required,
            });
        }
    }
    all
}

fn policies() -> [Trip; 8] {
    let ratio = |window, ratio, min_calls| Trip::Ratio {
        window,
        ratio,
        min_calls,
    };
    let windowed = |failures, ms| Trip::Windowed {
        failures,
        period: Duration::from_millis(ms),
    };
    [
        Trip::Consecutive(1),
        Trip::Consecutive(2),
        ratio(2, 0.5, 2),
        ratio(3, 1.0 / 3.0, 1),
        // The least window with a quotient that is rounded up: 0.2 is above a fifth.
        ratio(5, 0.2, 5),
        windowed(1, 0),
        windowed(2, 1),
        windowed(2, 2),
    ]
}
