//! What happens to a breaker and the waits before it, with the Rust's answers.

use throttle::plain::{Answer, Call, Config, Settings, State};
use throttle::turns::{Handed, Start};

/// One thing that happens. At most one wait is under way.
#[derive(Clone, Copy, Debug, PartialEq, Eq)]
pub enum Step {
    Start(Start),
    Turn(Handed),
    Drop,
    Call { now: u64, call: Call },
}

/// A step, what the Rust told and what it left.
#[derive(Clone, Debug)]
pub struct Event {
    pub step: Step,
    pub answer: Answer,
    pub after: State,
}

/// A breaker, the state that it was set to, and what happened then.
#[derive(Clone, Debug)]
pub struct Played {
    pub settings: Settings,
    pub config: Config,
    pub first: State,
    pub events: Vec<Event>,
}

impl Played {
    /// The events, each with the state before it.
    pub fn steps(&self) -> impl Iterator<Item = (&State, &Event)> {
        let left = self.events.iter().map(|event| &event.after);
        let before = std::iter::once(&self.first).chain(left);
        before.zip(&self.events)
    }
}
