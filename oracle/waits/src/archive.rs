//! The archive: every wait turn by turn on one side, and in runs on another.

use archive::ffi::{Pending, Waited};
use archive::{Side, plain_waited};
use sample::prng::Prng;
use throttle::plain::{Answer, State};
use throttle::turns::Handed;

use crate::compare::{Difference, Rival};
use crate::event::{Event, Played, Step};

/// Turns past those that a run may read: no number of theirs is allowed.
const BAIT: [u64; 8] = [u64::MAX; 8];

pub struct Archive {
    prng: Prng,
    single: Side,
    runs: Side,
    /// What the single turns left of the wait, after each event.
    left: Vec<Pending>,
    /// Runs, and the turns that they took.
    pub counts: (u64, u64),
}

impl Default for Archive {
    fn default() -> Self {
        Self {
            prng: Prng::new(0),
            single: Side::default(),
            runs: Side::default(),
            left: Vec::new(),
            counts: (0, 0),
        }
    }
}

impl Rival for Archive {
    fn play(&mut self, played: &Played) -> Result<(), Difference> {
        self.left.clear();
        let yes = 1 + self.prng.below(255) as u8;
        for side in [&mut self.single, &mut self.runs] {
            side.yes = yes;
            let answer = side.set(&played.settings, &played.first);
            Seen::of(answer).check(side, played, 0, Answer::DONE, &played.first)?;
        }
        for (i, event) in played.events.iter().enumerate() {
            let seen = step(&mut self.single, &event.step);
            seen.check(&self.single, played, i, event.answer, &event.after)?;
            self.left.push(self.single.pending);
        }
        self.play_in_runs(played)
    }
}

/// What a side answered, and in a run the turns taken.
#[derive(Clone, Copy, Debug, PartialEq, Eq)]
struct Seen {
    answer: Answer,
    taken: Option<u64>,
}

impl Seen {
    fn of(answer: Answer) -> Self {
        let taken = None;
        Self { answer, taken }
    }

    fn run(waited: Waited) -> Self {
        Self {
            answer: plain_waited(waited),
            taken: Some(waited.taken),
        }
    }

    fn check(
        self,
        side: &Side,
        played: &Played,
        event: usize,
        answer: Answer,
        after: &State,
    ) -> Result<(), Difference> {
        if self.answer == answer && side.holds(&played.config, after) {
            return Ok(());
        }
        let what = format!(
            "expected {answer:?} and {after:?}\ngiven    {self:?} and {}",
            side.print()
        );
        Err(Difference { event, what })
    }
}

fn step(side: &mut Side, step: &Step) -> Seen {
    Seen::of(match step {
        Step::Call { now, call } => side.call(*now, call),
        Step::Start(start) => plain_waited(side.start(start)),
        Step::Turn(handed) => plain_waited(side.turn(handed)),
        Step::Drop => plain_waited(side.drop_wait()),
    })
}

/// Turns that follow one another, to be taken by one run.
struct Run<'a> {
    /// The event of the first turn.
    from: usize,
    turns: &'a [Handed],
    /// Whether the last of them ends the wait.
    ends: bool,
}

impl Archive {
    fn play_in_runs(&mut self, played: &Played) -> Result<(), Difference> {
        let mut at = 0;
        while at < played.events.len() {
            let turns = turns_from(played, at);
            if turns.is_empty() {
                let event = &played.events[at];
                let seen = step(&mut self.runs, &event.step);
                seen.check(&self.runs, played, at, event.answer, &event.after)?;
                at += 1;
            } else {
                at += self.run_some(played, at, &turns)?;
            }
        }
        Ok(())
    }

    /// Runs all of the turns or a part. Says how many.
    fn run_some(
        &mut self,
        played: &Played,
        from: usize,
        turns: &[Handed],
    ) -> Result<usize, Difference> {
        let all = self.prng.percent(60);
        let part = self.prng.below(turns.len() as u64 + 1) as usize;
        let taken = if all { turns.len() } else { part };
        let turns = &turns[..taken];
        let ends = taken > 0 && ends(played, from + taken - 1);
        self.run(played, &Run { from, turns, ends })?;
        Ok(taken)
    }

    fn run(&mut self, played: &Played, run: &Run) -> Result<(), Difference> {
        let taken = run.turns.len();
        let (numbers, limit) = self.buffer(run);
        let last = run.turns.last().copied().unwrap_or_default();
        let waited = (self.runs).run(&numbers, limit, last.now_ms, last.capacity);
        self.counts = (self.counts.0 + 1, self.counts.1 + waited.taken);
        let event = (run.from + taken).saturating_sub(1);
        let (answer, after) = match run.ends {
            true => (played.events[event].answer, &played.events[event].after),
            false => (Answer::new(10, [0; 3]), state_before(played, run.from)),
        };
        let seen = Seen::run(waited);
        seen.check(&self.runs, played, event, answer, after)?;
        let same = seen.taken == Some(taken as u64) && self.runs.pending == self.left[event];
        same.then_some(()).ok_or_else(|| {
            let what = format!(
                "a run of {taken} turns, limit {limit}: {seen:?} and {:?}\nturn by turn: {:?}",
                self.runs.pending, self.left[event]
            );
            Difference { event, what }
        })
    }

    /// The numbers of the turns and the limit. Either the limit or the buffer
    /// stops the run, if the wait goes on; turns that aren't to be read may follow.
    fn buffer(&mut self, run: &Run) -> (Vec<u64>, u64) {
        let taken = run.turns.len() as u64;
        let turns = run.turns.iter().flat_map(|handed| handed.turn.numbers());
        let mut numbers: Vec<u64> = turns.collect();
        let at_limit = self.prng.percent(50);
        if at_limit || run.ends {
            (0..self.prng.below(3)).for_each(|_| numbers.extend(BAIT));
        }
        let limit = match at_limit {
            true => taken,
            false => self.prng.pick(&[taken, taken + 1, u64::MAX]),
        };
        (numbers, limit)
    }
}

fn turns_from(played: &Played, at: usize) -> Vec<Handed> {
    let turn = |event: &Event| match event.step {
        Step::Turn(handed) => Some(handed),
        _ => None,
    };
    played.events[at..].iter().map_while(turn).collect()
}

/// Whether the turn of an event ended its wait.
fn ends(played: &Played, event: usize) -> bool {
    let Answer { number, values } = played.events[event].answer;
    number != 0 || values[0] == 0
}

fn state_before(played: &Played, event: usize) -> &State {
    match event {
        0 => &played.first,
        _ => &played.events[event - 1].after,
    }
}
