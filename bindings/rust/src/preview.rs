//! A look before a permit is finished.
use core::fmt;

use crate::breaker::BreakerState;
use crate::error::{checked, ThrottleError};
use crate::ffi::{self, policy, state, Breaker, Ticket};

/// How a permit is finished.
#[derive(Debug, Clone, Copy, PartialEq, Eq, Hash)]
pub enum Outcome {
    /// The call succeeded: [`Permit::success`](crate::Permit::success).
    Success,
    /// The call failed: [`Permit::failure`](crate::Permit::failure), or a permit that is dropped.
    Failure,
    /// The call was never made: [`Permit::cancel`](crate::Permit::cancel).
    Cancel,
}

/// What finishing a permit would answer, and the breaker after it: see
/// [`Permit::preview`](crate::Permit::preview). Displayed, it says so in words.
#[derive(Debug, Clone, Copy, PartialEq, Eq)]
pub struct Preview {
    /// The answer. After a refusal all the rest is as it stands.
    pub answer: Result<(), ThrottleError>,
    /// The state.
    pub state: BreakerState,
    /// The generation, which numbers the spells of the breaker.
    pub generation: u64,
    /// The reading of the breaker's clock until which it sheds, or did when it was last open.
    pub open_until: u64,
    /// Trials that are out.
    pub trials: u32,
    /// Trials that succeeded in this half-open spell.
    pub successes: u32,
    /// Failures in a row.
    pub run: u32,
    /// The length of the list: the calls that a [`Trip::Ratio`](crate::Trip::Ratio) breaker holds, the
    /// failures of a [`Trip::Windowed`](crate::Trip::Windowed) one. 0 for the other policy.
    pub len: u32,
    change: Change,
}

/// What is said of a preview that is not refused.
#[derive(Debug, Clone, Copy, PartialEq, Eq)]
enum Change {
    /// No field and no place, for this reason.
    Nothing(&'static str),
    Opens,
    Closes,
    /// Half-open as before, with so many successes required.
    StaysHalfOpen(u32),
    /// Closed as before, with this counted.
    StaysClosed(Counted),
}

#[derive(Debug, Clone, Copy, PartialEq, Eq)]
enum Counted {
    FailuresInARow,
    CallsInTheList,
    FailuresInTheList,
}

impl Preview {
    /// Of what the C interface told, for a breaker as it stands.
    pub(crate) fn new(
        told: ffi::Preview,
        before: &Breaker,
        ticket: Ticket,
        outcome: Outcome,
    ) -> Self {
        let after = told.breaker.shared;
        Self {
            answer: checked(told.told).map(|_| ()),
            state: BreakerState::of(after.state),
            generation: after.generation,
            open_until: after.open_until,
            trials: after.counts.inflight,
            successes: after.counts.successes,
            run: after.run,
            len: told.len,
            change: Change::between(before, &told.breaker, ticket, outcome),
        }
    }
}

impl Change {
    fn between(before: &Breaker, after: &Breaker, ticket: Ticket, outcome: Outcome) -> Self {
        let present = before.shared.generation;
        let cancelled = outcome == Outcome::Cancel;
        if ticket.generation != present {
            return Self::Nothing("the permit is of another generation");
        }
        if after.shared.generation != present {
            let opens = after.shared.state == state::OPEN;
            return if opens { Self::Opens } else { Self::Closes };
        }
        match before.shared.state {
            state::CLOSED if cancelled => Self::Nothing("a closed breaker has no trials out"),
            state::CLOSED => Self::StaysClosed(match before.config.kind {
                policy::RATIO => Counted::CallsInTheList,
                policy::WINDOWED => Counted::FailuresInTheList,
                _ => Counted::FailuresInARow,
            }),
            state::HALF_OPEN if cancelled && ticket.probe == 0 => {
                Self::Nothing("the permit is no trial")
            }
            state::HALF_OPEN => Self::StaysHalfOpen(before.config.required),
            _ => Self::Nothing("the breaker is open"),
        }
    }
}

impl fmt::Display for Preview {
    fn fmt(&self, f: &mut fmt::Formatter<'_>) -> fmt::Result {
        if let Err(refused) = self.answer {
            return write!(f, "would be {refused}");
        }
        match self.change {
            Change::Nothing(why) => write!(f, "would change nothing: {why}"),
            Change::Opens => write!(f, "would open until {} ms", self.open_until),
            Change::Closes => f.write_str("would close"),
            Change::StaysHalfOpen(required) => {
                let successes = self.successes;
                let out = Many(self.trials, "trial");
                write!(
                    f,
                    "would stay half-open with {out} out and {successes} of {required} successes"
                )
            }
            Change::StaysClosed(counted) => {
                let (n, what, whence) = match counted {
                    Counted::FailuresInARow => (self.run, "failure", "a row"),
                    Counted::CallsInTheList => (self.len, "call", "the list"),
                    Counted::FailuresInTheList => (self.len, "failure", "the list"),
                };
                write!(f, "would stay closed with {} in {whence}", Many(n, what))
            }
        }
    }
}

/// So many of these.
struct Many(u32, &'static str);

impl fmt::Display for Many {
    fn fmt(&self, f: &mut fmt::Formatter<'_>) -> fmt::Result {
        let Self(n, one) = self;
        write!(f, "{n} {one}{}", if *n == 1 { "" } else { "s" })
    }
}
