//! Random buffers, each with its calls: the same for the same seed, number and scale.

mod breaker;
mod damage;
mod draft;
mod game;
mod name;

use throttle::plain::{Answer, Config, Settings, State};

use crate::refusal::Refusal;
use crate::world::{Call, World};

pub use damage::KINDS;
pub use game::play;

/// How large buffers and lists get.
#[derive(Clone, Copy, Debug, PartialEq, Eq)]
pub enum Scale {
    /// At most eight blocks.
    Small,
    /// 128 blocks, with one full list.
    Large,
    Any,
}

/// A sound breaker.
pub struct Drawn {
    pub settings: Settings,
    pub config: Config,
    pub state: State,
}

/// A damage that was done: its place in `KINDS`, and whether sums were made right again.
#[derive(Clone, Copy, Debug, PartialEq, Eq)]
pub struct Damage {
    pub kind: usize,
    pub mended: bool,
}

/// A call, what was told, and the damages in its buffer.
pub struct Told {
    pub call: Call,
    pub answer: Answer,
    pub refusal: Option<Refusal>,
    pub damages: Vec<Damage>,
}

pub enum Step {
    /// Puts a breaker there.
    Breaker(Drawn),
    /// Puts a number into the record or the list: `World::put`.
    Spot {
        spot: usize,
        value: u64,
    },
    /// Puts another buffer there.
    Buffer(Vec<u8>),
    /// Puts bytes into the buffer.
    Patch {
        at: usize,
        bytes: Vec<u8>,
    },
    Call(Told),
}

/// Who looks on. An error ends the play.
pub trait Watch {
    fn step(&mut self, step: &Step, before: &World, after: &World) -> Result<(), String>;
}

/// Nobody.
impl Watch for () {
    fn step(&mut self, _: &Step, _: &World, _: &World) -> Result<(), String> {
        Ok(())
    }
}
