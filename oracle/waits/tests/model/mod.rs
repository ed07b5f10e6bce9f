//! Document 01's waiting rules, rendered a second time. It decides nothing: it
//! tests the driver, and document 01 against the Rust.

use throttle::plain::{Answer, CLOSED, Config, HALF_OPEN, OPEN, State, Ticket};
use throttle::turns::{GRANTED, Handed, RETRY, Start, Turn};
use waits::compare::{Difference, Rival};
use waits::event::{Event, Played, Step};

/// A grant that is held.
#[derive(Clone, Copy)]
struct Held {
    due: u64,
    seen: u64,
}

#[derive(Default)]
pub struct Model {
    config: Option<Config>,
    state: State,
    ticket: Option<Ticket>,
    /// `None`: unlimited.
    deadline: Option<u64>,
    held: Option<Held>,
    row: u32,
}

/// What a turn says of the wait alone.
enum Said {
    GoOn(Answer),
    Done,
    Never,
    Deadline(u64),
}

impl Rival for Model {
    fn play(&mut self, played: &Played) -> Result<(), Difference> {
        *self = Self {
            config: Some(played.config),
            state: played.first.clone(),
            ..Self::default()
        };
        for (i, event) in played.events.iter().enumerate() {
            let answer = self.step(event);
            Difference::check(played, i, answer, &self.state)?;
        }
        Ok(())
    }
}

impl Model {
    /// Other calls aren't modelled: what the Rust left is taken over.
    fn step(&mut self, event: &Event) -> Answer {
        match &event.step {
            Step::Start(start) => self.start(start),
            Step::Turn(handed) => self.turn(handed),
            Step::Drop => {
                let held = self.held.is_some();
                self.abort();
                Answer::dropped(held.into())
            }
            Step::Call { .. } => {
                self.state = event.after.clone();
                event.answer
            }
        }
    }

    fn start(&mut self, start: &Start) -> Answer {
        let trials = self.config.expect("set by play").trials;
        let state = &mut self.state;
        match state.state {
            CLOSED => {}
            OPEN if start.now_ms < state.open_until => {
                return Answer::shed(state.open_until - start.now_ms);
            }
            OPEN => {
                state.state = HALF_OPEN;
                state.generation = state.generation.wrapping_add(1);
                (state.inflight, state.trait_probes, state.successes) = (1, 0, 0);
            }
            _ if state.inflight < trials => state.inflight += 1,
            _ => return Answer::shed(0),
        }
        self.ticket = Some(Ticket {
            generation: state.generation,
            probe: state.state == HALF_OPEN,
        });
        self.deadline = start.limited.then(|| start.clock + start.timeout);
        (self.held, self.row) = (None, 0);
        Answer::BEGUN
    }

    fn turn(&mut self, handed: &Handed) -> Answer {
        match self.wait(&handed.turn) {
            Said::GoOn(answer) => answer,
            Said::Done => self.complete(handed.now_ms),
            Said::Never => {
                self.abort();
                Answer::never(1, handed.capacity.into())
            }
            Said::Deadline(given_back) => {
                self.abort();
                Answer::deadline(given_back)
            }
        }
    }

    fn complete(&mut self, now_ms: u64) -> Answer {
        let ticket = self.ticket.expect("a wait is under way");
        let state = &self.state;
        if state.generation == ticket.generation || state.state == CLOSED {
            return Answer::done(ticket);
        }
        let delay = match state.state {
            OPEN => state.open_until.saturating_sub(now_ms),
            _ => 0,
        };
        self.abort();
        Answer::shed_late(delay, 1)
    }

    fn abort(&mut self) {
        let ticket = self.ticket.take().expect("a wait is under way");
        let state = &mut self.state;
        if ticket.probe && ticket.generation == state.generation && state.state == HALF_OPEN {
            state.inflight = state.inflight.saturating_sub(1);
        }
    }
}

/// The wait's own rules.
impl Model {
    fn over(&self, nap: u64, clock: u64) -> bool {
        let remaining = |deadline: u64| deadline.saturating_sub(clock);
        self.deadline.is_some_and(|at| nap > remaining(at))
    }

    fn wait(&mut self, turn: &Turn) -> Said {
        match (self.held, turn.kind) {
            (Some(held), _) => self.check(held, turn),
            (None, GRANTED) => self.granted(turn),
            (None, RETRY) => self.retry(turn),
            _ => Said::Never,
        }
    }

    fn granted(&mut self, turn: &Turn) -> Said {
        let held = Held {
            due: turn.clock + turn.duration,
            seen: turn.postponed_before,
        };
        self.held = Some(held);
        match turn.duration {
            0 => self.check(held, turn),
            nap => Said::GoOn(Answer::sleep(nap)),
        }
    }

    fn check(&mut self, mut held: Held, turn: &Turn) -> Said {
        if turn.postponed_after > held.seen {
            held.due += turn.postponed_after - held.seen;
            held.seen = turn.postponed_after;
        }
        self.held = Some(held);
        let left = held.due.saturating_sub(turn.clock);
        let nap = if turn.pause == 0 { left } else { turn.pause };
        if nap == 0 {
            Said::Done
        } else if self.over(nap, turn.clock) {
            Said::Deadline(1)
        } else {
            Said::GoOn(sleep(nap, turn.pause, turn.epoch_after))
        }
    }

    fn retry(&mut self, turn: &Turn) -> Said {
        if self.over(turn.duration, turn.clock) {
            return Said::Deadline(0);
        }
        self.row = if turn.duration > 0 { 0 } else { self.row + 1 };
        let nap = match self.row {
            0 => turn.duration,
            1..=4 => return Said::GoOn(Answer::YIELD),
            _ if self.over(1, turn.clock) => return Said::Deadline(0),
            _ => self.backoff(turn.clock),
        };
        if turn.epoch_before != turn.epoch_after {
            return Said::GoOn(Answer::LOOK_AGAIN);
        }
        Said::GoOn(sleep(nap, turn.pause, turn.epoch_after))
    }

    /// A millisecond, or what remains if that is less.
    fn backoff(&self, clock: u64) -> u64 {
        let remaining = self.deadline.map(|at| at.saturating_sub(clock));
        remaining.unwrap_or(u64::MAX).min(1_000_000)
    }
}

fn sleep(nap: u64, pause: u64, epoch: u64) -> Answer {
    match pause {
        0 => Answer::sleep(nap),
        _ => Answer::sleep_unless_resumed(nap, epoch),
    }
}
