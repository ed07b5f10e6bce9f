//! Plays the same calls on another engine, and stops where it differs.

use crate::draw::{Scale, Step, Watch, play};
use crate::tally::Tally;
use crate::world::{Engine, World};

/// Holds an engine against what was told and left.
pub struct Rival<'a>(pub &'a mut dyn Engine);

impl Watch for Rival<'_> {
    fn step(&mut self, step: &Step, before: &World, after: &World) -> Result<(), String> {
        let Step::Call(told) = step else {
            return Ok(());
        };
        let mut given = before.clone();
        let answer = self.0.call(&mut given, &told.call);
        if answer != told.answer {
            let (expected, call) = (told.answer, &told.call);
            return Err(format!("{call:?}\nexpected {expected:?}, given {answer:?}"));
        }
        match after.difference(&given) {
            None => Ok(()),
            Some(what) => Err(format!("{:?}, {answer:?}\n{what}", told.call)),
        }
    }
}

/// What came of a comparison.
pub struct Outcome {
    pub tally: Tally,
    /// The number of the first buffer that differs, and how.
    pub differing: Option<(u64, String)>,
}

/// Compares so many buffers.
pub fn compare(seed: u64, count: u64, rival: &mut dyn Engine) -> Outcome {
    let mut tally = Tally::default();
    let mut rival = Rival(rival);
    for number in 0..count {
        if let Err(what) = play(seed, number, Scale::Any, &mut tally, &mut rival) {
            let differing = Some((number, what));
            return Outcome { tally, differing };
        }
    }
    Outcome {
        tally,
        differing: None,
    }
}
