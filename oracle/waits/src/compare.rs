//! Plays waits on the Rust and on another engine, and stops where they differ.

use std::fmt;

use throttle::plain::{Answer, State};

use crate::event::Played;
use crate::lines;
use crate::play::play;
use crate::tally::Tally;

/// Another engine.
pub trait Rival {
    /// Plays the same, and says where it first differs.
    fn play(&mut self, played: &Played) -> Result<(), Difference>;
}

/// The event from 0 on, and what was expected and given there.
#[derive(Debug)]
pub struct Difference {
    pub event: usize,
    pub what: String,
}

impl Difference {
    /// Holds the answer and the state of an event against the expected ones.
    pub fn check(
        played: &Played,
        event: usize,
        answer: Answer,
        after: &State,
    ) -> Result<(), Difference> {
        let expected = &played.events[event];
        let same = expected.answer == answer && expected.after == *after;
        same.then_some(()).ok_or_else(|| {
            let what = format!(
                "expected {:?} and {:?}\ngiven    {answer:?} and {after:?}",
                expected.answer, expected.after
            );
            Difference { event, what }
        })
    }
}

/// What came of a comparison.
pub struct Outcome {
    pub tally: Tally,
    /// The first wait that differs, with its number.
    pub differing: Option<(u64, Played, Difference)>,
}

/// Compares at least so many waits.
pub fn compare(seed: u64, waits: u64, rival: &mut impl Rival) -> Outcome {
    let mut tally = Tally::default();
    let mut differing = None;
    for number in 0.. {
        if tally.waits() >= waits || differing.is_some() {
            break;
        }
        let played = play(seed, number);
        tally.note(&played);
        if let Err(difference) = rival.play(&played) {
            differing = Some((number, played, difference));
        }
    }
    Outcome { tally, differing }
}

impl fmt::Display for Outcome {
    fn fmt(&self, f: &mut fmt::Formatter<'_>) -> fmt::Result {
        write!(f, "{}", self.tally)?;
        let Some((number, played, Difference { event, what })) = &self.differing else {
            return writeln!(f, "differing: none");
        };
        let mut text = Vec::new();
        lines::write(&mut text, played).map_err(|_| fmt::Error)?;
        writeln!(f, "differing: number {number}, event {event} of")?;
        writeln!(f, "{}{what}", String::from_utf8_lossy(&text))
    }
}
