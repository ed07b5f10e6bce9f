//! A fixed sample of calls with the answers of the unchanged Rust.

mod coverage;
pub mod draw;
pub mod lines;
pub mod prng;

use std::io::{self, Write};

use throttle::Subject;
use throttle::plain::{Answer, Config, OPEN};
use throttle::scope::{PLACES, meets_full, sound};

pub use coverage::Coverage;
use draw::{Player, Start};
use lines::Step;
use prng::Prng;

/// Sequences are added until there are as many calls.
const CALLS: u64 = 10_000;

/// Writes the sample of a seed.
pub fn write(seed: u64, out: &mut impl Write) -> io::Result<Coverage> {
    let mut writer = Writer {
        prng: Prng::new(seed),
        coverage: Coverage::default(),
        out,
    };
    while writer.coverage.calls() < CALLS {
        writer.sequence()?;
    }
    Ok(writer.coverage)
}

struct Writer<'a, W> {
    prng: Prng,
    coverage: Coverage,
    out: &'a mut W,
}

impl<W: Write> Writer<'_, W> {
    fn sequence(&mut self) -> io::Result<()> {
        let prng = &mut self.prng;
        let (settings, long) = match self.coverage.sequences % 30 {
            5 => (draw::long_ratio(prng), true),
            2 | 10 | 18 | 26 => (draw::long_windowed(prng), true),
            _ => (draw::settings(prng), false),
        };
        let subject = Subject::new(&settings);
        let config = subject.config();
        lines::fresh(self.out, &settings, &config)?;
        self.coverage.sequences += 1;
        let clock = self.start(&subject, &config, long)?;
        let mut player = Player::new(&mut self.prng, clock, long);
        for _ in 0..5 + self.prng.below(56) {
            if !self.step(&subject, &config, &mut player)? {
                break;
            }
        }
        Ok(())
    }

    /// Sets a drawn state, or leaves the fresh one. Gives the first reading.
    fn start(&mut self, subject: &Subject, config: &Config, long: bool) -> io::Result<u64> {
        let prng = &mut self.prng;
        let fresh = if config.limit <= 3 { 35 } else { 10 };
        let Start { state, clock } = match long {
            true => draw::long_start(prng, config),
            false if prng.percent(fresh) => return Ok(prng.below(100)),
            false => draw::start(prng, config),
        };
        assert!(sound(config, &state), "an unsound start: {state:?}");
        subject.set_state(&state);
        lines::start(self.out, &state)?;
        self.coverage.starts += 1;
        self.coverage.long_starts += u64::from(long);
        Ok(clock)
    }

    /// One call. Says whether the sequence may go on.
    fn step(
        &mut self,
        subject: &Subject,
        config: &Config,
        player: &mut Player,
    ) -> io::Result<bool> {
        let before = subject.state();
        let now = player.reading(&mut self.prng, config, &before);
        let call = player.call(&mut self.prng, &before);
        let full = meets_full(config, &before, now, &call);
        let answer = subject.call(now, &call);
        let after = subject.state();
        player.heard(&call, &answer);
        let step = Step {
            config,
            now,
            call: &call,
            answer,
            before: &before,
            after: &after,
        };
        let step = if full { self.refused(step) } else { step };
        self.put(&step)?;
        Ok(!full)
    }

    /// Number 5 and nothing changed, where the Rust has appended.
    fn refused<'a>(&mut self, step: Step<'a>) -> Step<'a> {
        assert_eq!(step.after.items.len(), PLACES + 1, "the Rust appends");
        self.coverage.full += 1;
        self.coverage.full_hides_trip += u64::from(step.after.state == OPEN);
        Step {
            answer: Answer::FULL,
            after: step.before,
            ..step
        }
    }

    fn put(&mut self, step: &Step) -> io::Result<()> {
        assert!(sound(step.config, step.after), "unsound: {:?}", step.after);
        self.coverage.note(step);
        lines::step(self.out, step)
    }
}
