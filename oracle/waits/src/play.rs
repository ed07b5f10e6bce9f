//! Plays random waits on the Rust: the same for the same seed and number.

use std::cell::RefCell;
use std::rc::Rc;

use sample::draw::{self, Player};
use sample::prng::Prng;
use throttle::Subject;
use throttle::plain::{Answer, Call, Config, State, Ticket};
use throttle::scope::{meets_full, sound};
use throttle::turns::{Handed, Host, Start};

use crate::draw::Hand;
use crate::event::{Event, Played, Step};

/// A breaker with one to three waits, one after the other.
pub fn play(seed: u64, number: u64) -> Played {
    let mut prng = Prng::new(Prng::new(seed).next() ^ number);
    let settings = draw::settings(&mut prng);
    let subject = Rc::new(Subject::new(&settings));
    let config = subject.config();
    let (first, clock) = first(&mut prng, &config);
    subject.set_state(&first);
    let waits = prng.pick(&[1, 1, 2, 3]);
    let game = Rc::new(RefCell::new(Game::new(prng, config, clock)));
    for _ in 0..waits {
        let start = game.borrow_mut().start(&subject);
        subject.wait(&start, &game);
    }
    let game = Rc::into_inner(game).expect("no wait keeps it");
    Played {
        settings,
        config,
        first,
        events: game.into_inner().events,
    }
}

/// A state, drawn or that of a fresh breaker, and a reading.
fn first(prng: &mut Prng, config: &Config) -> (State, u64) {
    if prng.percent(20) {
        return (State::default(), prng.below(100));
    }
    let draw::Start { state, clock } = draw::start(prng, config);
    assert!(sound(config, &state), "an unsound start: {state:?}");
    (state, clock)
}

struct Game {
    prng: Prng,
    config: Config,
    player: Player,
    hand: Hand,
    /// The step that is under way.
    step: Step,
    /// How often, in percent, the breaker is called between steps.
    busy: u64,
    events: Vec<Event>,
}

impl Game {
    fn new(mut prng: Prng, config: Config, clock: u64) -> Self {
        Self {
            player: Player::new(&mut prng, clock, false),
            hand: Hand::new(&mut prng),
            step: Step::Drop,
            busy: prng.pick(&[0, 10, 30, 60]),
            events: Vec::new(),
            config,
            prng,
        }
    }

    fn start(&mut self, subject: &Subject) -> Start {
        let now_ms = self.reading(subject);
        self.hand = Hand::new(&mut self.prng);
        let start = self.hand.start(&mut self.prng, now_ms);
        self.step = Step::Start(start);
        start
    }

    fn reading(&mut self, subject: &Subject) -> u64 {
        let state = subject.state();
        self.player.reading(&mut self.prng, &self.config, &state)
    }

    /// A call of ops 1 to 6, which change the breaker.
    fn call(&mut self, subject: &Subject) {
        let before = subject.state();
        let now = self.player.reading(&mut self.prng, &self.config, &before);
        let call = self.changing_call(&before);
        assert!(
            !meets_full(&self.config, &before, now, &call),
            "a full list"
        );
        let answer = subject.call(now, &call);
        self.player.heard(&call, &answer);
        self.push(subject, Step::Call { now, call }, answer);
    }

    fn changing_call(&mut self, state: &State) -> Call {
        loop {
            let call = self.player.call(&mut self.prng, state);
            if call.numbers().0 <= 6 {
                return call;
            }
        }
    }

    fn push(&mut self, subject: &Subject, step: Step, answer: Answer) {
        let after = subject.state();
        assert!(sound(&self.config, &after), "unsound: {after:?}");
        self.events.push(Event {
            step,
            answer,
            after,
        });
    }

    /// Keeps the ticket of a wait that is done.
    fn keep(&mut self, answer: &Answer) {
        if let (Step::Turn(_), 0, [0, generation, probe]) =
            (self.step, answer.number, answer.values)
        {
            let probe = probe == 1;
            self.player.keep(Ticket { generation, probe });
        }
    }
}

impl Host for Game {
    fn told(&mut self, subject: &Subject, answer: Answer) {
        self.push(subject, self.step, answer);
        self.hand.heard(&answer);
        self.keep(&answer);
        if self.prng.percent(self.busy) {
            (0..=self.prng.below(4)).for_each(|_| self.call(subject));
        }
    }

    fn turn(&mut self, subject: &Subject) -> Handed {
        let handed = Handed {
            now_ms: self.reading(subject),
            capacity: self.prng.pick(&[0, 1, 7, u32::MAX]),
            turn: self.hand.turn(&mut self.prng),
            acquired: self.prng.percent(50),
        };
        self.step = Step::Turn(handed);
        handed
    }

    fn goes_on(&mut self, _: &Subject) -> bool {
        let goes_on = self.hand.goes_on(&mut self.prng);
        if !goes_on {
            self.step = Step::Drop;
        }
        goes_on
    }
}
