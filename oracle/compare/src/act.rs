//! What a step does, in numbers that can be played again.

use archive::Handing;
use archive::ffi::Setting;
use throttle::plain::{Call, OPS, State, Ticket};

/// One step at a reading.
#[derive(Clone, Debug)]
pub struct Step {
    pub now: u64,
    pub op: Op,
    pub how: Handing,
    pub damage: Option<Damage>,
}

#[derive(Clone, Debug)]
pub enum Op {
    /// Both sides are set to a sound state; no call.
    Set(State),
    Build(Setting),
    Call(Call),
    Board,
    IsSound,
    Finish {
        calls: Vec<Finishing>,
        /// A part with one call less than the others.
        short: Option<usize>,
    },
}

/// A settle with this success, or an abort through the trait side or not.
#[derive(Clone, Copy, Debug)]
pub struct Finishing {
    pub ticket: Ticket,
    pub settles: bool,
    pub mark: bool,
}

impl Finishing {
    pub fn call(self) -> Call {
        let (ticket, mark) = (self.ticket, self.mark);
        match self.settles {
            true => Call::Settle {
                ticket,
                success: mark,
            },
            false => Call::Abort {
                ticket,
                via_trait: mark,
            },
        }
    }
}

/// A number put into the archive's record or list before a call: into field 0
/// to 15 of the record, or into the place that follows from the greater ones.
#[derive(Clone, Copy, Debug, PartialEq, Eq)]
pub struct Damage {
    pub spot: usize,
    pub value: u64,
}

impl Step {
    pub fn new(now: u64, op: Op) -> Self {
        Self {
            now,
            op,
            how: Handing::default(),
            damage: None,
        }
    }

    /// The call of a step that is previewed before it is made.
    pub fn previewed(&self) -> Option<&Call> {
        match &self.op {
            Op::Call(call @ (Call::Settle { .. } | Call::Abort { .. })) => Some(call),
            _ => None,
        }
    }

    /// What is called, as a place in `OPS` or past it in `MORE`, if anything is.
    pub fn index(&self) -> Option<usize> {
        Some(match &self.op {
            Op::Set(_) => return None,
            Op::Call(Call::Permit { end, .. }) => OPS.len() + *end as usize,
            Op::Call(call) => call.numbers().0 as usize - 1,
            Op::Build(_) => OPS.len() + 4,
            Op::Board => OPS.len() + 5,
            Op::IsSound => OPS.len() + 6,
            Op::Finish { .. } => OPS.len() + 7,
        })
    }

    /// And of what is previewed before.
    pub fn preview_index(&self) -> Option<usize> {
        self.previewed().map(|call| match call {
            Call::Settle { .. } => OPS.len() + 8,
            _ => OPS.len() + 9,
        })
    }
}

/// The calls past those of `OPS`.
pub const MORE: [&str; 10] = [
    "permit_success",
    "permit_failure",
    "permit_dropped",
    "permit_cancel",
    "build",
    "board",
    "is_sound",
    "finish_all",
    "preview_settle",
    "preview_abort",
];

/// The name of a place.
pub fn name(index: usize) -> &'static str {
    let more = || MORE[index - OPS.len()];
    OPS.get(index).copied().unwrap_or_else(more)
}
