//! The lines of a sample of waits, after those of the sample of calls.

use std::io::{self, Write};

use sample::lines::{self, line, step_as};
use throttle::plain::State;

use crate::event::{Event, Played, Step};

/// A breaker, its state unless it is fresh, and all that happened.
pub fn write(out: &mut impl Write, played: &Played) -> io::Result<()> {
    lines::fresh(out, &played.settings, &played.config)?;
    if played.first != State::default() {
        lines::start(out, &played.first)?;
    }
    let mut steps = played.steps();
    steps.try_for_each(|(before, event)| write_event(out, played, before, event))
}

fn write_event(
    out: &mut impl Write,
    played: &Played,
    before: &State,
    event: &Event,
) -> io::Result<()> {
    let numbers = match &event.step {
        Step::Call { now, call } => {
            let step = lines::Step {
                config: &played.config,
                now: *now,
                call,
                answer: event.answer,
                before,
                after: &event.after,
            };
            return step_as(out, 6, &step);
        }
        Step::Start(start) => {
            let limited = start.limited.into();
            vec![3, start.now_ms, start.clock, limited, start.timeout]
        }
        Step::Turn(handed) => {
            let read = [4, handed.now_ms, handed.capacity.into()];
            [&read[..], &handed.turn.numbers()].concat()
        }
        Step::Drop => vec![5],
    };
    assert_eq!(before.items, event.after.items, "a wait leaves the list");
    let answer = event.answer;
    let told: [&[u64]; 3] = [&[answer.number], &answer.values, &event.after.numbers()];
    line(out, numbers[0], &[&[&numbers[1..]], &told[..]].concat())
}
