//! Counts what a sample holds.

use std::fmt;

use throttle::plain::{CLOSED, Call, HALF_OPEN, OPEN, OPS, State, WINDOWED};

use crate::lines::{Step, popped};

/// The letters of the state codes.
const LETTERS: [char; 3] = ['C', 'H', 'O'];

/// Every (state before, state after) that calls can bring about.
const MOVES: [(u8, u8); 8] = [
    (CLOSED, CLOSED),
    (CLOSED, OPEN),
    (OPEN, OPEN),
    (OPEN, HALF_OPEN),
    (OPEN, CLOSED),
    (HALF_OPEN, HALF_OPEN),
    (HALF_OPEN, CLOSED),
    (HALF_OPEN, OPEN),
];

/// The answer numbers of the calls.
const NUMBERS: [u64; 5] = [0, 5, 6, 7, 8];

#[derive(Clone, Copy, Default)]
struct Row {
    calls: u64,
    moves: [u64; MOVES.len()],
    numbers: [u64; NUMBERS.len()],
}

impl Row {
    fn sum<'a>(rows: impl Iterator<Item = &'a Row>) -> Self {
        let mut sum = Self::default();
        rows.for_each(|row| sum.add(row));
        sum
    }

    fn add(&mut self, other: &Row) {
        self.calls += other.calls;
        let moves = self.moves.iter_mut().zip(other.moves);
        let numbers = self.numbers.iter_mut().zip(other.numbers);
        moves.chain(numbers).for_each(|(sum, count)| *sum += count);
    }
}

/// The counts of a sample.
#[derive(Default)]
pub struct Coverage {
    ops: [Row; OPS.len()],
    policies: [Row; WINDOWED as usize],
    pub(crate) sequences: u64,
    pub(crate) starts: u64,
    pub(crate) long_starts: u64,
    pub(crate) full: u64,
    pub(crate) full_hides_trip: u64,
    wraps: u64,
    stale: u64,
    at_open_until: u64,
    at_cutoff: u64,
    at_cap: u64,
    evictions: u64,
    emptied: u64,
}

impl Coverage {
    pub(crate) fn calls(&self) -> u64 {
        Row::sum(self.ops.iter()).calls
    }

    pub(crate) fn note(&mut self, step: &Step) {
        let row = row(step);
        self.ops[step.call.numbers().0 as usize - 1].add(&row);
        self.policies[step.config.kind as usize - 1].add(&row);
        self.note_edges(step);
        self.note_list(&step.before.items, &step.after.items);
    }

    fn note_edges(&mut self, step: &Step) {
        let (before, after) = (step.before, step.after);
        let capped = before.run == u32::MAX || before.trait_probes == u32::MAX;
        self.wraps += u64::from(before.generation == u64::MAX && after.generation == 0);
        self.stale += u64::from(is_stale(step.call, before));
        self.at_open_until += u64::from(at_open_until(step));
        self.at_cutoff += u64::from(at_cutoff(step));
        self.at_cap += u64::from(capped);
    }

    fn note_list(&mut self, before: &[u64], after: &[u64]) {
        let emptied = after.is_empty() && !before.is_empty();
        let evicted = !emptied && popped(before, after) > 0;
        self.emptied += u64::from(emptied);
        self.evictions += u64::from(evicted);
    }

    /// What a sample must hold and this one does not. Resets are no transitions here.
    pub fn missing(&self) -> Vec<String> {
        let named = || OPS.iter().zip(&self.ops);
        let others = named().filter(|(name, _)| **name != "reset");
        let moves = Row::sum(others.map(|(_, row)| row)).moves;
        let changes = MOVES.iter().zip(moves).filter(|(m, _)| is_change(m));
        let changes = changes.map(|(m, count)| (arrow(m), count, 200));
        let calls = named().map(|(name, row)| (name.to_string(), row.calls, 200));
        let wraps = ("wraps".into(), self.wraps, 20);
        let full = ("number 5".into(), self.full, 10);
        (calls.chain(changes).chain([wraps, full]))
            .filter(|(_, count, least)| count < least)
            .map(|(what, count, least)| format!("{what}: {count} of {least}"))
            .collect()
    }
}

fn row(step: &Step) -> Row {
    let change = (step.before.state, step.after.state);
    let number = step.answer.number;
    assert!(MOVES.contains(&change), "no call moves {change:?}");
    assert!(NUMBERS.contains(&number), "no call answers {number}");
    Row {
        calls: 1,
        moves: MOVES.map(|m| u64::from(m == change)),
        numbers: NUMBERS.map(|n| u64::from(n == number)),
    }
}

fn is_stale(call: &Call, before: &State) -> bool {
    match call {
        Call::Settle { ticket, .. }
        | Call::Abort { ticket, .. }
        | Call::StillAdmits { ticket }
        | Call::Permit { ticket, .. } => ticket.generation != before.generation,
        _ => false,
    }
}

/// Open, and the reading is open-until or a neighbour of it.
fn at_open_until(step: &Step) -> bool {
    let before = step.before;
    before.state == OPEN && step.now.abs_diff(before.open_until) <= 1
}

/// Closed, and the cutoff is the oldest time or a neighbour of it.
fn at_cutoff(step: &Step) -> bool {
    let (config, before) = (step.config, step.before);
    let cutoff = step.now.saturating_sub(config.period_ms);
    let front = before.items.first();
    config.kind == WINDOWED
        && before.state == CLOSED
        && front.is_some_and(|&time| cutoff.abs_diff(time) <= 1)
}

/// The transitions that every sample must have often.
fn is_change(&(from, to): &(u8, u8)) -> bool {
    from != to && (from, to) != (OPEN, CLOSED)
}

fn arrow(&(from, to): &(u8, u8)) -> String {
    format!("{}>{}", LETTERS[from as usize], LETTERS[to as usize])
}

impl fmt::Display for Coverage {
    fn fmt(&self, f: &mut fmt::Formatter<'_>) -> fmt::Result {
        let moves = MOVES.iter().map(arrow);
        let numbers = NUMBERS.iter().map(|number| format!("= {number}"));
        print_row(f, "", "calls", moves.chain(numbers))?;
        let policies = ["Consecutive", "Ratio", "Windowed"];
        let all = Row::sum(self.ops.iter());
        let ops = OPS.iter().zip(&self.ops);
        let rows = ops.chain([(&"all", &all)]);
        for (name, row) in rows.chain(policies.iter().zip(&self.policies)) {
            let counts = row.moves.iter().chain(&row.numbers);
            print_row(f, name, row.calls, counts)?;
        }
        self.print_rest(f)
    }
}

fn print_row<T: fmt::Display>(
    f: &mut fmt::Formatter<'_>,
    name: &str,
    calls: impl fmt::Display,
    mut counts: impl Iterator<Item = T>,
) -> fmt::Result {
    write!(f, "{name:20}{calls:>6}")?;
    counts.try_for_each(|count| write!(f, "{count:>6}"))?;
    writeln!(f)
}

impl Coverage {
    fn print_rest(&self, f: &mut fmt::Formatter<'_>) -> fmt::Result {
        let rest = [
            ("sequences", self.sequences),
            ("set starts", self.starts),
            ("of these with 4,094 to 4,096 items", self.long_starts),
            ("generation wraps", self.wraps),
            ("calls with a ticket of another generation", self.stale),
            ("readings at open-until or next to it", self.at_open_until),
            ("cutoffs at the oldest time or next to it", self.at_cutoff),
            ("calls with run or trait probes at the cap", self.at_cap),
            ("lists that lost items at the front", self.evictions),
            ("lists emptied", self.emptied),
            ("number 5: document 01, not the Rust", self.full),
            ("of these the Rust opens", self.full_hides_trip),
        ];
        let mut rest = rest.iter();
        rest.try_for_each(|(what, count)| writeln!(f, "{what}: {count}"))
    }
}
