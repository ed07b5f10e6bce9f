//! Random sequences, until one differs or there are enough steps.

use archive::setting;
use sample::draw::{self, Player, Start};
use sample::prng::Prng;
use throttle::Trip;
use throttle::plain::{Answer, Call, Settings, WINDOWED};
use throttle::scope::sound;

use crate::act::{Op, Step};
use crate::draw::{any_setting, rising_start, spoil, step};
use crate::expect::refusal;
use crate::pair::{Difference, Pair};
use crate::slip::Slip;
use crate::tally::Tally;

pub struct Random {
    prng: Prng,
    pair: Pair,
    pub tally: Tally,
    /// The steps of the present sequence.
    pub done: Vec<Step>,
}

/// What both sides hold before a sequence.
pub fn first(slip: Slip) -> Pair {
    let settings = Settings {
        trip: Trip::Consecutive(5),
        cooldown: std::time::Duration::from_secs(30),
        trials: 1,
        required: 1,
    };
    Pair::new(&settings, slip)
}

impl Random {
    pub fn new(seed: u64, slip: Slip) -> Self {
        Self {
            prng: Prng::new(seed),
            pair: first(slip),
            tally: Tally::default(),
            done: Vec::new(),
        }
    }

    /// At least so many steps.
    pub fn run(&mut self, steps: u64) -> Result<(), Difference> {
        let mut outcome = Ok(());
        while outcome.is_ok() && self.tally.steps < steps {
            self.done.clear();
            self.tally.sequences += 1;
            outcome = self.sequence();
        }
        self.tally.full = self.pair.full;
        outcome
    }

    fn sequence(&mut self) -> Result<(), Difference> {
        let long = self.build()?;
        let clock = self.start(long)?;
        let prng = &mut self.prng;
        let mut player = Player::new(prng, clock, long);
        let more = if prng.percent(5) { 500 } else { 56 };
        for _ in 0..5 + prng.below(more) {
            let state = self.pair.state();
            let step = step(&mut self.prng, &mut player, &self.pair.config, &state);
            let call = match step.op {
                Op::Call(call) => call,
                _ => Call::Reset,
            };
            let answer = self.play(step)?;
            player.heard(&call, &answer);
        }
        Ok(())
    }

    /// Builds, the last of which isn't refused. Says whether lists are to be long.
    fn build(&mut self) -> Result<bool, Difference> {
        while self.prng.percent(30) {
            let step = Step::new(0, Op::Build(any_setting(&mut self.prng)));
            let state = self.pair.state();
            let step = spoil(&mut self.prng, &state, step);
            self.play(step)?;
        }
        let prng = &mut self.prng;
        let (settings, long) = match prng.below(96) {
            0 => (draw::long_ratio(prng), true),
            1..=3 => (draw::long_windowed(prng), true),
            _ => (draw::settings(prng), false),
        };
        let mut step = Step::new(0, Op::Build(setting(&settings)));
        let any = Step::new(0, Op::Build(any_setting(prng)));
        if !long && prng.percent(20) && refusal(&any, true).is_none() {
            step = any;
        }
        self.play(step)?;
        Ok(long)
    }

    /// Sets a drawn state, or leaves the fresh one. Gives the first reading.
    fn start(&mut self, long: bool) -> Result<u64, Difference> {
        let (prng, config) = (&mut self.prng, &self.pair.config);
        let fresh = if config.limit <= 3 { 35 } else { 10 };
        let Start { state, clock } = match long {
            true if config.kind == WINDOWED && prng.percent(30) => rising_start(prng, config),
            true => draw::long_start(prng, config),
            false if prng.percent(fresh) => return Ok(prng.below(100)),
            false => draw::start(prng, config),
        };
        assert!(sound(config, &state), "an unsound start: {state:?}");
        self.play(Step::new(0, Op::Set(state)))?;
        Ok(clock)
    }

    fn play(&mut self, step: Step) -> Result<Answer, Difference> {
        let before = *self.pair.shared();
        self.done.push(step);
        let step = &self.done[self.done.len() - 1];
        let answer = self.pair.step(step)?;
        self.tally.note(step, &answer, &before, self.pair.shared());
        Ok(answer)
    }
}
