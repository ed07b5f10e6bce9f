//! A wait as plain numbers: its start, its turns, and what each of them came to.

use crate::circuit::inside::Subject;
use crate::plain::{Answer, Ticket};

/// No time of a wait is above this many nanoseconds.
pub const LONGEST: u64 = 1 << 62;

/// The reply kinds.
pub const GRANTED: u64 = 1;
pub const RETRY: u64 = 2;
pub const NEVER: u64 = 3;

/// What begins a wait. Without a limit the timeout is not read.
#[derive(Clone, Copy, Debug, Default, PartialEq, Eq)]
pub struct Start {
    pub now_ms: u64,
    pub clock: u64,
    pub limited: bool,
    pub timeout: u64,
}

/// The eight numbers that a turn reads.
#[derive(Clone, Copy, Debug, Default, PartialEq, Eq)]
pub struct Turn {
    pub clock: u64,
    pub epoch_before: u64,
    pub epoch_after: u64,
    pub kind: u64,
    pub duration: u64,
    pub pause: u64,
    pub postponed_before: u64,
    pub postponed_after: u64,
}

impl Turn {
    pub fn numbers(&self) -> [u64; 8] {
        [
            self.clock,
            self.epoch_before,
            self.epoch_after,
            self.kind,
            self.duration,
            self.pause,
            self.postponed_before,
            self.postponed_after,
        ]
    }

    pub const fn from_numbers(numbers: [u64; 8]) -> Self {
        let [
            clock,
            epoch_before,
            epoch_after,
            kind,
            duration,
            pause,
            postponed_before,
            postponed_after,
        ] = numbers;
        Self {
            clock,
            epoch_before,
            epoch_after,
            kind,
            duration,
            pause,
            postponed_before,
            postponed_after,
        }
    }
}

/// A turn with what else it may read: the breaker's reading and the capacity.
#[derive(Clone, Copy, Debug, Default, PartialEq, Eq)]
pub struct Handed {
    pub now_ms: u64,
    pub capacity: u32,
    pub turn: Turn,
    /// A retry of 0 is told as Acquired by a peek, and not as Retry. The engine
    /// makes the same of both.
    pub acquired: bool,
}

/// Whoever plays a wait. The calls come in this order: told of the start, then
/// turn and told by turns; the last told is that of the end.
pub trait Host {
    /// What the start, the last turn or the drop came to. Where the wait goes
    /// on, the breaker may be called meanwhile.
    fn told(&mut self, subject: &Subject, answer: Answer);

    /// The next turn.
    fn turn(&mut self, subject: &Subject) -> Handed;

    /// Asked where the future sleeps or yields: else it is dropped there.
    fn goes_on(&mut self, subject: &Subject) -> bool;
}

/// What a wait comes to.
impl Answer {
    /// Admitted; the first turn is next.
    pub const BEGUN: Self = Self::new(0, [0; 3]);
    pub const YIELD: Self = Self::new(0, [3, 0, 0]);
    pub const LOOK_AGAIN: Self = Self::new(0, [4, 0, 0]);

    pub const fn sleep(nanos: u64) -> Self {
        Self::new(0, [1, nanos, 0])
    }

    pub const fn sleep_unless_resumed(nanos: u64, epoch: u64) -> Self {
        Self::new(0, [2, nanos, epoch])
    }

    pub const fn done(ticket: Ticket) -> Self {
        Self::new(0, [0, ticket.generation, ticket.probe as u64])
    }

    /// Shed at completion.
    pub const fn shed_late(delay_ms: u64, given_back: u64) -> Self {
        Self::new(6, [delay_ms, given_back, 0])
    }

    pub const fn never(cost: u64, capacity: u64) -> Self {
        Self::new(8, [cost, capacity, 0])
    }

    pub const fn deadline(given_back: u64) -> Self {
        Self::new(9, [given_back, 0, 0])
    }

    pub const fn dropped(given_back: u64) -> Self {
        Self::new(0, [given_back, 0, 0])
    }
}
