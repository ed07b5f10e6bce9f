//! What is timed: a call, and the breaker that it is made on.

use std::time::Duration;

use throttle::Trip;
use throttle::plain::{CLOSED, Call, HALF_OPEN, Settings, State, Ticket};
use throttle::scope::PLACES;

use crate::floor::Needs;

/// Calls of a timed run. None of them may trip.
pub const CALLS: u32 = 64;
const READING: u64 = 1_000_000;
const PRESENT: Ticket = Ticket {
    generation: 0,
    probe: false,
};

#[derive(Clone, Copy, PartialEq, Eq)]
pub enum Policy {
    Consecutive,
    Ratio,
    Windowed,
}

#[derive(Clone, Copy, PartialEq, Eq)]
pub enum Kind {
    Admission,
    Success,
    Failure,
    /// `CALLS` finishing calls, half of them successes, half aborts.
    Batch,
}

#[derive(Clone, Copy)]
pub struct Task {
    pub policy: Policy,
    pub kind: Kind,
    /// Items in the list. A list that a call adds to starts with one more.
    pub items: usize,
}

impl Task {
    pub fn all() -> Vec<Self> {
        let lists = [
            (Policy::Consecutive, vec![0]),
            (Policy::Ratio, vec![0, 100, PLACES]),
            (Policy::Windowed, vec![0, 100, PLACES - 1]),
        ];
        let kinds = [Kind::Admission, Kind::Success, Kind::Failure, Kind::Batch];
        let mut all = Vec::new();
        for kind in kinds {
            for (policy, lists) in &lists {
                all.extend(lists.iter().map(|&items| Self {
                    policy: *policy,
                    kind,
                    items,
                }));
            }
        }
        all
    }

    /// Those that are previewed too: settles on no list and on the longest ones.
    pub fn previewed() -> Vec<Self> {
        let settles = |task: &Self| matches!(task.kind, Kind::Success | Kind::Failure);
        let longest = |task: &Self| match task.policy {
            Policy::Consecutive => true,
            Policy::Ratio => task.items == PLACES,
            Policy::Windowed => task.items == PLACES - 1,
        };
        let mut all = Self::all();
        all.retain(|task| settles(task) && longest(task));
        all
    }

    pub fn name(&self) -> String {
        let policy = match self.policy {
            Policy::Consecutive => "Consecutive",
            Policy::Ratio => "Ratio",
            Policy::Windowed => "Windowed",
        };
        let kind = match self.kind {
            Kind::Admission => "admission",
            Kind::Success => "success",
            Kind::Failure => "failure",
            Kind::Batch => "batch of 64",
        };
        format!("{kind}, {policy}, {}", self.items)
    }

    /// Settings under which no call trips: a good outcome stays in the window,
    /// and a period ends before the times are so many.
    pub fn settings(&self) -> Settings {
        let window = if self.items == 0 { PLACES } else { self.items };
        let trip = match self.policy {
            Policy::Consecutive => Trip::Consecutive(u32::MAX),
            Policy::Ratio => Trip::Ratio {
                window: window as u32,
                ratio: 1.0,
                min_calls: 0,
            },
            Policy::Windowed => Trip::Windowed {
                failures: PLACES as u32,
                period: Duration::from_millis(self.items.max(1) as u64 - 1),
            },
        };
        Settings {
            trip,
            cooldown: Duration::from_secs(30),
            trials: CALLS,
            required: CALLS,
        }
    }

    pub fn state(&self) -> State {
        let added_to = matches!(self.kind, Kind::Success | Kind::Failure);
        let items = match self.policy {
            Policy::Consecutive => Vec::new(),
            Policy::Ratio => vec![0; self.items.max(added_to.into())],
            Policy::Windowed => (0..self.items as u64)
                .map(|i| READING - self.items as u64 + i)
                .collect(),
        };
        let trials = if self.kind == Kind::Batch { CALLS } else { 0 };
        State {
            state: if trials == 0 { CLOSED } else { HALF_OPEN },
            inflight: trials,
            items,
            ..State::default()
        }
    }

    /// The i-th call and its reading. The first is made before the timing, so
    /// that a growing list has grown.
    pub fn call(&self, i: u64) -> (u64, Call) {
        let probe = Ticket {
            probe: true,
            ..PRESENT
        };
        let call = match self.kind {
            Kind::Admission => Call::Admit { via_trait: false },
            Kind::Success => Call::Settle {
                ticket: PRESENT,
                success: true,
            },
            Kind::Failure => Call::Settle {
                ticket: PRESENT,
                success: false,
            },
            Kind::Batch if i.is_multiple_of(2) => Call::Settle {
                ticket: probe,
                success: true,
            },
            Kind::Batch => Call::Abort {
                ticket: probe,
                via_trait: false,
            },
        };
        let moves = self.kind == Kind::Failure;
        (READING + if moves { i } else { 0 }, call)
    }

    /// What the archive's promise makes it read and move.
    pub fn needs(&self) -> Needs {
        let keeps = matches!(self.kind, Kind::Admission | Kind::Batch);
        let fails = self.kind == Kind::Failure;
        let counted = if fails { self.items } else { 0 };
        match self.policy {
            Policy::Consecutive => Needs {
                tested: PLACES,
                ..Needs::default()
            },
            Policy::Ratio => Needs {
                tested: PLACES,
                counted,
                moved: if keeps { 0 } else { self.items },
            },
            // Any number is a sound time: only what lies past the list is tested.
            Policy::Windowed => Needs {
                tested: PLACES - self.items,
                counted,
                moved: counted,
            },
        }
    }
}
