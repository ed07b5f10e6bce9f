//! Counts what journals and their answers hold.

use std::fmt;

use throttle::plain::{CLOSED, HALF_OPEN, OPEN};

use crate::container::Case;

/// How the lines of an answer begin; `E` is the sum of the last three.
const BEGINNINGS: [&str; 7] = ["G", "B", "N", "E", "E 5", "E 2", "E 12"];

/// The moves from state to state.
const MOVES: [(&str, u8, u8); 4] = [
    ("Closed to Open", CLOSED, OPEN),
    ("Open to HalfOpen", OPEN, HALF_OPEN),
    ("HalfOpen to Closed", HALF_OPEN, CLOSED),
    ("HalfOpen to Open", HALF_OPEN, OPEN),
];

#[derive(Default)]
pub struct Tally {
    journals: u64,
    bytes: usize,
    answer_bytes: usize,
    lines: [u64; BEGINNINGS.len()],
    moves: [u64; MOVES.len()],
}

impl Tally {
    pub fn note(&mut self, case: &Case) {
        self.journals += 1;
        self.bytes += case.journal.len();
        self.answer_bytes += case.answer.len();
        let answer = str::from_utf8(&case.answer).expect("answers are ASCII");
        let mut state = CLOSED;
        for line in answer.lines() {
            self.note_line(line);
            if let Some(after) = state_in(line) {
                self.note_move(state, after);
                state = after;
            }
        }
    }

    fn note_line(&mut self, line: &str) {
        for (count, beginning) in self.lines.iter_mut().zip(BEGINNINGS) {
            let rest = line.strip_prefix(beginning);
            let begins = rest.is_some_and(|rest| rest.is_empty() || rest.starts_with(' '));
            *count += u64::from(begins);
        }
    }

    fn note_move(&mut self, before: u8, after: u8) {
        for (count, (_, from, to)) in self.moves.iter_mut().zip(MOVES) {
            *count += u64::from((before, after) == (from, to));
        }
    }

    /// The counts that are 0.
    pub fn missing(&self) -> Vec<&'static str> {
        let none = |(&count, name)| (count == 0).then_some(name);
        let lines = self.lines.iter().zip(BEGINNINGS);
        let moves = self.moves.iter().zip(MOVES.map(|(name, ..)| name));
        lines.chain(moves).filter_map(none).collect()
    }
}

/// The state, fifth from the end; none in `E 2` and `E 12`.
fn state_in(line: &str) -> Option<u8> {
    let words: Vec<&str> = line.split(' ').collect();
    words.iter().nth_back(4)?.parse().ok()
}

impl fmt::Display for Tally {
    fn fmt(&self, f: &mut fmt::Formatter<'_>) -> fmt::Result {
        writeln!(f, "{} journals, {} bytes", self.journals, self.bytes)?;
        writeln!(f, "{} bytes of answers", self.answer_bytes)?;
        for (count, beginning) in self.lines.iter().zip(BEGINNINGS) {
            writeln!(f, "{beginning}: {count}")?;
        }
        let malformed = self.lines[BEGINNINGS.len() - 1];
        writeln!(f, "malformed journals: {malformed}")?;
        for (count, (name, ..)) in self.moves.iter().zip(MOVES) {
            writeln!(f, "{name}: {count}")?;
        }
        Ok(())
    }
}
