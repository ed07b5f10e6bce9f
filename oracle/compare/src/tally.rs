//! Counts calls, what they told, and transitions.

use std::fmt;

use archive::ffi::Shared;
use throttle::plain::{Answer, OPS};

use crate::act::{MORE, Op, Step, name};

const CALLS: usize = OPS.len() + MORE.len();
const STATES: [&str; 3] = ["Closed", "HalfOpen", "Open"];
const NUMBERS: usize = 12;

#[derive(Default)]
pub struct Tally {
    pub steps: u64,
    pub sequences: u64,
    told: [[u64; NUMBERS]; CALLS],
    transitions: [[u64; 3]; 3],
    wraps: u64,
    /// Steps that leave a full list.
    full_lists: u64,
    /// Number 5, in finishing sequences too.
    pub full: u64,
}

impl Tally {
    pub fn note(&mut self, step: &Step, answer: &Answer, before: &Shared, after: &Shared) {
        let Some(index) = step.index() else { return };
        self.steps += 1;
        self.told[index][answer.number as usize] += 1;
        if let Some(preview) = step.preview_index() {
            self.told[preview][answer.number as usize] += 1;
        }
        self.full_lists += u64::from(after.len == 4096);
        if matches!(step.op, Op::Build(_)) || before.generation == after.generation {
            return;
        }
        self.transitions[before.state as usize][after.state as usize] += 1;
        self.wraps += u64::from(after.generation < before.generation);
    }
}

impl fmt::Display for Tally {
    fn fmt(&self, f: &mut fmt::Formatter<'_>) -> fmt::Result {
        writeln!(f, "sequences: {}\nsteps: {}", self.sequences, self.steps)?;
        for (index, told) in self.told.iter().enumerate() {
            let all: u64 = told.iter().sum();
            if all == 0 {
                continue;
            }
            write!(f, "{}: {all}, told", name(index))?;
            for (number, count) in told.iter().enumerate().filter(|(_, count)| **count > 0) {
                write!(f, " {number}: {count}")?;
            }
            writeln!(f)?;
        }
        for (from, row) in self.transitions.iter().enumerate() {
            for (to, count) in row.iter().enumerate().filter(|(_, count)| **count > 0) {
                writeln!(f, "{} to {}: {count}", STATES[from], STATES[to])?;
            }
        }
        writeln!(f, "generation wraps: {}", self.wraps)?;
        writeln!(f, "number 5, with those in finish_all: {}", self.full)?;
        writeln!(f, "steps with a full list: {}", self.full_lists)
    }
}
