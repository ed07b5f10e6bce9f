//! The lines of the sample: decimal numbers parted by one space.

use std::io::{self, Write};

use throttle::plain::{Answer, Call, Config, Settings, State};

/// One call: what it was made on and at, what it answered and what it left.
pub struct Step<'a> {
    pub config: &'a Config,
    pub now: u64,
    pub call: &'a Call,
    pub answer: Answer,
    pub before: &'a State,
    pub after: &'a State,
}

pub fn fresh(out: &mut impl Write, settings: &Settings, config: &Config) -> io::Result<()> {
    line(out, 0, &[&settings.numbers(), &config.numbers()])
}

pub fn start(out: &mut impl Write, state: &State) -> io::Result<()> {
    line(out, 1, &[&state.numbers(), &state.items])
}

/// A call with its answer, what it left, and how the list changed.
pub fn step(out: &mut impl Write, step: &Step) -> io::Result<()> {
    step_as(out, 2, step)
}

/// The same with another first number.
pub fn step_as(out: &mut impl Write, kind: u64, step: &Step) -> io::Result<()> {
    let (op, args) = step.call.numbers();
    let (before, after) = (&step.before.items, &step.after.items);
    let popped = popped(before, after);
    let pushed = &after[before.len() - popped..];
    let parts: [&[u64]; 7] = [
        &[op, step.now],
        &args,
        &[step.answer.number],
        &step.answer.values,
        &step.after.numbers(),
        &[popped as u64, pushed.len() as u64],
        pushed,
    ];
    line(out, kind, &parts)
}

/// How few items must go from the front so that the list after begins with the
/// rest of the list before.
pub fn popped(before: &[u64], after: &[u64]) -> usize {
    (0..before.len())
        .find(|&gone| after.starts_with(&before[gone..]))
        .unwrap_or(before.len())
}

pub fn line(out: &mut impl Write, kind: u64, parts: &[&[u64]]) -> io::Result<()> {
    write!(out, "{kind}")?;
    for number in parts.iter().copied().flatten() {
        write!(out, " {number}")?;
    }
    writeln!(out)
}
