//! Where a wait stands, to aim at edges and to count them. No answer comes from here.

use throttle::turns::{GRANTED, RETRY, Start, Turn};

#[derive(Clone, Copy, Debug, Default)]
pub struct Track {
    pub deadline: Option<u64>,
    /// The last clock.
    pub clock: u64,
    /// When what is held may be used.
    pub due: Option<u64>,
    seen: u64,
    /// Retries of 0 in a row.
    pub row: u64,
}

impl Track {
    pub fn new(start: &Start) -> Self {
        Self {
            deadline: start.limited.then_some(start.clock + start.timeout),
            clock: start.clock,
            ..Self::default()
        }
    }

    pub fn remaining(&self) -> Option<u64> {
        Some(self.deadline?.saturating_sub(self.clock))
    }

    /// Follows a turn. Says whether its held check moves due.
    pub fn follow(&mut self, turn: &Turn) -> bool {
        self.clock = turn.clock;
        match self.due {
            Some(due) => self.check(due, turn),
            None => self.look(turn),
        }
    }

    fn look(&mut self, turn: &Turn) -> bool {
        self.seen = turn.postponed_before;
        self.row = match (turn.kind, turn.duration) {
            (RETRY, 0) => self.row + 1,
            _ => 0,
        };
        if turn.kind != GRANTED {
            return false;
        }
        let due = turn.clock + turn.duration;
        self.due = Some(due);
        turn.duration == 0 && self.check(due, turn)
    }

    fn check(&mut self, due: u64, turn: &Turn) -> bool {
        let grown = turn.postponed_after.saturating_sub(self.seen);
        self.due = Some(due + grown);
        self.seen += grown;
        grown > 0
    }
}
