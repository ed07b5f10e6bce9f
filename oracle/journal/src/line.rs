//! The lines of a journal: read strictly, and printed. A line that is read
//! prints as the bytes it was read from.

use std::fmt;
use std::time::Duration;

use throttle::Trip;
use throttle::plain::{Call, Settings, Ticket};

use crate::fields::Fields;

/// Line 1, with its numbers as they stand there.
#[derive(Clone, Copy, Debug, PartialEq, Eq)]
pub struct Header {
    pub policy: Policy,
    pub cooldown: u64,
    pub trials: u32,
    pub required: u32,
}

#[derive(Clone, Copy, Debug, PartialEq, Eq)]
pub enum Policy {
    Consecutive { n: u32 },
    Ratio { window: u32, bits: u64, min: u32 },
    Windowed { failures: u32, period: u64 },
}

impl Header {
    /// `None` for a malformed line.
    pub fn read(line: &[u8]) -> Option<Self> {
        let mut fields = Fields::of(line);
        let header = Self {
            policy: policy(&mut fields)?,
            cooldown: fields.wide()?,
            trials: fields.narrow()?,
            required: fields.narrow()?,
        };
        fields.end()?;
        debug_assert_eq!(header.to_string().as_bytes(), line);
        Some(header)
    }

    /// What the builder is handed.
    pub fn settings(&self) -> Settings {
        let trip = match self.policy {
            Policy::Consecutive { n } => Trip::Consecutive(n),
            Policy::Ratio { window, bits, min } => Trip::Ratio {
                window,
                ratio: f64::from_bits(bits),
                min_calls: min,
            },
            Policy::Windowed { failures, period } => Trip::Windowed {
                failures,
                period: Duration::from_millis(period),
            },
        };
        Settings {
            trip,
            cooldown: Duration::from_millis(self.cooldown),
            trials: self.trials,
            required: self.required,
        }
    }
}

fn policy(fields: &mut Fields) -> Option<Policy> {
    Some(match fields.byte()? {
        b'C' => Policy::Consecutive {
            n: fields.narrow()?,
        },
        b'R' => Policy::Ratio {
            window: fields.narrow()?,
            bits: fields.bits()?,
            min: fields.narrow()?,
        },
        b'W' => Policy::Windowed {
            failures: fields.narrow()?,
            period: fields.wide()?,
        },
        _ => return None,
    })
}

impl fmt::Display for Header {
    fn fmt(&self, f: &mut fmt::Formatter<'_>) -> fmt::Result {
        match self.policy {
            Policy::Consecutive { n } => write!(f, "C {n}")?,
            Policy::Ratio { window, bits, min } => write!(f, "R {window} {bits:016x} {min}")?,
            Policy::Windowed { failures, period } => write!(f, "W {failures} {period}")?,
        }
        write!(f, " {} {} {}", self.cooldown, self.trials, self.required)
    }
}

/// A further line: a reading and what is done at it.
#[derive(Clone, Copy, Debug, PartialEq, Eq)]
pub struct Line {
    pub reading: u64,
    pub act: Act,
}

#[derive(Clone, Copy, Debug, PartialEq, Eq)]
pub enum Act {
    Admit,
    Success(Ticket),
    Failure(Ticket),
    Abort(Ticket),
    Reset,
}

impl Line {
    /// `None` for a malformed line.
    pub fn read(line: &[u8]) -> Option<Self> {
        let mut fields = Fields::of(line);
        let reading = fields.decimal()?;
        fields.space()?;
        let act = act(&mut fields)?;
        fields.end()?;
        let read = Self { reading, act };
        debug_assert_eq!(read.to_string().as_bytes(), line);
        Some(read)
    }
}

fn act(fields: &mut Fields) -> Option<Act> {
    Some(match fields.byte()? {
        b'A' => Act::Admit,
        b'S' => Act::Success(ticket(fields)?),
        b'F' => Act::Failure(ticket(fields)?),
        b'X' => Act::Abort(ticket(fields)?),
        b'Z' => Act::Reset,
        _ => return None,
    })
}

fn ticket(fields: &mut Fields) -> Option<Ticket> {
    Some(Ticket {
        generation: fields.wide()?,
        probe: fields.flag()?,
    })
}

impl Act {
    /// The call that the Rust is asked to make.
    pub fn call(self) -> Call {
        let settle = |ticket, success| Call::Settle { ticket, success };
        match self {
            Self::Admit => Call::Admit { via_trait: false },
            Self::Success(ticket) => settle(ticket, true),
            Self::Failure(ticket) => settle(ticket, false),
            Self::Abort(ticket) => Call::Abort {
                ticket,
                via_trait: false,
            },
            Self::Reset => Call::Reset,
        }
    }
}

impl fmt::Display for Line {
    fn fmt(&self, f: &mut fmt::Formatter<'_>) -> fmt::Result {
        let (letter, ticket) = match self.act {
            Act::Admit => ('A', None),
            Act::Success(ticket) => ('S', Some(ticket)),
            Act::Failure(ticket) => ('F', Some(ticket)),
            Act::Abort(ticket) => ('X', Some(ticket)),
            Act::Reset => ('Z', None),
        };
        write!(f, "{} {letter}", self.reading)?;
        match ticket {
            Some(Ticket { generation, probe }) => write!(f, " {generation} {}", u8::from(probe)),
            None => Ok(()),
        }
    }
}
