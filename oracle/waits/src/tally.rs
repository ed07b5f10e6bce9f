//! Counts what waits held: what each kind of turn was told, and the edges met.

use std::fmt;

use throttle::plain::{Answer, CLOSED, HALF_OPEN, State};
use throttle::turns::{GRANTED, LONGEST, RETRY, Start, Turn};

use crate::event::{Event, Played, Step};
use crate::track::Track;

/// What a start, a turn or a drop can be told.
const TOLD: [&str; 13] = [
    "begun", "6 start", "sleep", "unless", "yield", "again", "done", "6 late", "8", "9 0", "9 1",
    "drop 0", "drop 1",
];

const KINDS: [&str; 13] = [
    "start Closed",
    "start HalfOpen",
    "start Open",
    "look: granted 0",
    "look: granted",
    "look: retry 0",
    "look: retry",
    "look: never",
    "held",
    "held, paused",
    "held, moved",
    "held, moved, paused",
    "drop",
];

const DROP: usize = KINDS.len() - 1;

const EDGES: [&str; 13] = [
    "waits without a limit",
    "clocks that go back",
    "times of 2^62",
    "eighth retries of 0 in a row",
    "sleeps that end at the deadline",
    "deadlines missed by one",
    "done at due",
    "done past the deadline",
    "done with a probe",
    "done in another generation",
    "trials freed by an end or a drop",
    "transitions by other calls while it waited",
    "tenth turns",
];

/// How often a sample must hold each of all these.
const LEAST: u64 = 10;

#[derive(Default)]
pub struct Tally {
    cells: [[u64; TOLD.len()]; KINDS.len()],
    edges: [u64; EDGES.len()],
    pub breakers: u64,
    pub calls: u64,
    /// The wait under way, or the last one.
    track: Track,
    length: u64,
    waiting: bool,
}

impl Tally {
    pub fn waits(&self) -> u64 {
        self.cells[..3].iter().flatten().sum()
    }

    pub fn turns(&self) -> u64 {
        self.cells[3..DROP].iter().flatten().sum()
    }

    pub fn note(&mut self, played: &Played) {
        self.breakers += 1;
        self.waiting = false;
        for (before, event) in played.steps() {
            self.step(before, event);
        }
    }

    fn step(&mut self, before: &State, event: &Event) {
        let after = &event.after;
        let moved = before.generation != after.generation;
        let kind = match &event.step {
            Step::Call { .. } => {
                self.calls += 1;
                self.edges[11] += u64::from(self.waiting && moved);
                return;
            }
            Step::Start(start) => self.start(start, before),
            Step::Turn(handed) => self.turn(&handed.turn, event),
            Step::Drop => DROP,
        };
        let told = told(&event.step, &event.answer);
        self.waiting = matches!(told, 0 | 2..=5);
        self.cells[kind][told] += 1;
        self.edges[10] += u64::from(after.inflight < before.inflight);
    }

    fn start(&mut self, start: &Start, before: &State) -> usize {
        self.track = Track::new(start);
        self.length = 0;
        self.edges[0] += u64::from(!start.limited);
        match before.state {
            CLOSED => 0,
            HALF_OPEN => 1,
            _ => 2,
        }
    }

    fn turn(&mut self, turn: &Turn, event: &Event) -> usize {
        let held = self.track.due.is_some();
        let back = turn.clock < self.track.clock;
        let moved = self.track.follow(turn);
        self.note_turn(turn, back);
        self.note_answer(turn, event);
        match (turn.kind, turn.duration) {
            _ if held => 8 + usize::from(turn.pause > 0) + 2 * usize::from(moved),
            (GRANTED, 0) => 3,
            (GRANTED, _) => 4,
            (RETRY, 0) => 5,
            (RETRY, _) => 6,
            _ => 7,
        }
    }

    fn note_turn(&mut self, turn: &Turn, back: bool) {
        let times = [turn.clock, turn.duration, turn.pause, turn.postponed_after];
        self.edges[1] += u64::from(back);
        self.edges[2] += u64::from(times.contains(&LONGEST));
        self.edges[3] += u64::from(self.track.row == 8);
        self.length += 1;
        self.edges[12] += u64::from(self.length == 10);
    }

    fn note_answer(&mut self, turn: &Turn, event: &Event) {
        let Track { deadline, due, .. } = self.track;
        let (clock, values) = (turn.clock, event.answer.values);
        let ends = |nap: u64| deadline == Some(clock.saturating_add(nap));
        match (event.answer.number, values[0]) {
            (0, 1 | 2) => self.edges[4] += u64::from(ends(values[1])),
            (9, _) => self.edges[5] += u64::from(self.missed_by_one(turn)),
            (0, 0) => {
                self.edges[6] += u64::from(due == Some(clock));
                self.edges[7] += u64::from(deadline.is_some_and(|at| at < clock));
                self.edges[8] += u64::from(values[2] == 1);
                self.edges[9] += u64::from(values[1] != event.after.generation);
            }
            _ => {}
        }
    }

    /// Whether the nap would have ended one past the deadline.
    fn missed_by_one(&self, turn: &Turn) -> bool {
        let end = match self.track.due {
            None => turn.clock + turn.duration,
            Some(due) if turn.pause == 0 => due,
            Some(_) => turn.clock + turn.pause,
        };
        self.track.deadline.is_some_and(|at| end == at + 1)
    }

    /// What a sample must hold and this one does not.
    pub fn missing(&self) -> Vec<String> {
        let kinds = KINDS.iter().zip(self.cells.map(|row| row.iter().sum()));
        let sum = |told| self.cells.iter().map(|row| row[told]).sum();
        let told = TOLD.iter().enumerate().map(|(i, name)| (name, sum(i)));
        let edges = EDGES.iter().zip(self.edges);
        (kinds.chain(told).chain(edges))
            .filter(|&(_, count): &(_, u64)| count < LEAST)
            .map(|(what, count)| format!("{what}: {count} of {LEAST}"))
            .collect()
    }
}

/// Its place in `TOLD`.
fn told(step: &Step, answer: &Answer) -> usize {
    let Answer { number, values } = *answer;
    match (step, number, values[0]) {
        (Step::Start(_), 0, 0) => 0,
        (Step::Start(_), 6, _) => 1,
        (Step::Turn(_), 0, show @ 1..=4) => 1 + show as usize,
        (Step::Turn(_), 0, 0) => 6,
        (Step::Turn(_), 6, _) if values[1] == 1 => 7,
        (Step::Turn(_), 8, 1) => 8,
        (Step::Turn(_), 9, back @ 0..=1) => 9 + back as usize,
        (Step::Drop, 0, back @ 0..=1) => 11 + back as usize,
        _ => panic!("{step:?} is not told {answer:?}"),
    }
}

impl fmt::Display for Tally {
    fn fmt(&self, f: &mut fmt::Formatter<'_>) -> fmt::Result {
        write!(f, "{:20}", "")?;
        TOLD.iter().try_for_each(|name| write!(f, "{name:>9}"))?;
        writeln!(f)?;
        for (name, row) in KINDS.iter().zip(&self.cells) {
            write!(f, "{name:20}")?;
            row.iter().try_for_each(|count| write!(f, "{count:>9}"))?;
            writeln!(f)?;
        }
        let sums = [
            ("breakers", self.breakers),
            ("waits", self.waits()),
            ("turns", self.turns()),
            ("other calls", self.calls),
        ];
        let edges = EDGES.into_iter().zip(self.edges);
        let mut rest = sums.into_iter().chain(edges);
        rest.try_for_each(|(what, count)| writeln!(f, "{what}: {count}"))
    }
}
