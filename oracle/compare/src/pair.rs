//! The Rust and the archive side by side: a step on both, and all compared.

use archive::ffi::{self, Breaker, Counts, Preview, Shared};
use archive::{Named, Side, config, flag, shared, state};
use throttle::Subject;
use throttle::plain::{Answer, Call, Config, Settings, State};
use throttle::scope::PLACES;

use crate::act::{Damage, Finishing, Op, Step};
use crate::damage::{seen, swap};
use crate::expect;
use crate::slip::Slip;

/// What a finishing sequence finds in the answers and one place past them. It
/// leaves that place, and all of them if refused.
const BEFORE: u64 = 0x5a5a;

pub struct Pair {
    rust: Subject,
    pub config: Config,
    pub ours: Side,
    slip: Slip,
    /// How often number 5 was met, in finishing sequences too.
    pub full: u64,
}

/// What was expected and given.
pub struct Difference(pub String);

/// What a call told, the numbers in the answers of a finishing sequence, and what a preview said before.
#[derive(Debug, PartialEq, Eq)]
struct Told {
    answer: Answer,
    answers: Vec<u64>,
    preview: Option<Preview>,
}

impl Told {
    fn of(answer: Answer) -> Self {
        let answers = Vec::new();
        Self::all(answer, answers)
    }

    fn all(answer: Answer, answers: Vec<u64>) -> Self {
        Self {
            answer,
            answers,
            preview: None,
        }
    }
}

impl Pair {
    /// Both with the same fresh breaker.
    pub fn new(settings: &Settings, slip: Slip) -> Self {
        let mut ours = Side::default();
        ours.set(settings, &State::default());
        let rust = Subject::new(settings);
        let config = rust.config();
        Self {
            rust,
            config,
            ours,
            slip,
            full: 0,
        }
    }

    /// What both hold, after a comparison.
    pub fn state(&self) -> State {
        state(&self.ours.breaker.shared, &self.ours.list[..])
    }

    pub fn shared(&self) -> &Shared {
        &self.ours.breaker.shared
    }

    pub fn set(&mut self, state: &State) {
        let used = self.shared().len as usize;
        self.rust.set_state(state);
        self.ours.breaker.shared = shared(state);
        self.ours.list[..used].fill(0);
        self.ours.list[..state.items.len()].copy_from_slice(&state.items);
    }

    /// A step on both sides. Answers what both told.
    pub fn step(&mut self, step: &Step) -> Result<Answer, Difference> {
        if let Op::Set(state) = &step.op {
            self.set(state);
            return self.compared(Told::of(Answer::DONE), Told::of(Answer::DONE));
        }
        match step.damage {
            Some(damage) => self.damaged(step, damage),
            None => self.undamaged(step),
        }
    }

    fn undamaged(&mut self, step: &Step) -> Result<Answer, Difference> {
        let refusal = expect::refusal(step, true);
        let preview = self.preview(step);
        if preview.is_some() && !self.same() {
            return self.differs("a preview changed something".to_owned());
        }
        let mut given = self.given(step);
        let mut expected = self.expected(step, refusal, true);
        given.preview = preview;
        expected.preview = preview.map(|_| previewed(&expected.answer, self.held()));
        self.compared(expected, given)
    }

    /// The same on a damaged record or list, which a refused call must leave so.
    fn damaged(&mut self, step: &Step, damage: Damage) -> Result<Answer, Difference> {
        let undo = swap(&mut self.ours, damage);
        let damage = seen(&self.ours, damage.spot);
        let sound = expect::sound(&self.ours);
        if self.ours.is_sound(PLACES) != sound {
            return self.differs(format!("{damage:?}: sound is {sound}"));
        }
        if sound && !matches!(step.op, Op::IsSound | Op::Build(_)) {
            swap(&mut self.ours, undo);
            return self.undamaged(step);
        }
        let refusal = expect::refusal(step, sound);
        let (handed, preview) = (self.ours.breaker, self.preview(step));
        let mut given = self.given(step);
        let built = matches!(step.op, Op::Build(_)) && refusal.is_none();
        if !built && swap(&mut self.ours, undo) != damage {
            return self.differs(format!("{damage:?} was not left"));
        }
        let mut expected = self.expected(step, refusal, sound);
        given.preview = preview;
        expected.preview = preview.map(|_| previewed(&expected.answer, handed));
        self.compared(expected, given)
    }

    fn compared(&self, expected: Told, given: Told) -> Result<Answer, Difference> {
        if expected == given && self.same() {
            return Ok(given.answer);
        }
        self.differs(format!("expected {expected:?}\ngiven    {given:?}"))
    }

    fn differs<T>(&self, what: String) -> Result<T, Difference> {
        let (rust, ours) = (self.rust.state(), self.ours.print());
        let config = self.config;
        Err(Difference(format!(
            "{what}\nthe Rust    {config:?} {rust:?}\nthe archive {ours}"
        )))
    }

    /// The Rust's record.
    fn held(&self) -> Breaker {
        Breaker {
            config: config(&self.config),
            shared: of_numbers(self.rust.numbers()),
        }
    }

    /// Every field and every place.
    fn same(&self) -> bool {
        let breaker = self.held();
        let len = breaker.shared.len as usize;
        self.ours.breaker == breaker
            && len <= PLACES
            && self.rust.lists(&self.ours.list[..len])
            && self.ours.clean_past(len)
    }
}

/// The step on the archive, and on the Rust unless it is refused.
impl Pair {
    /// What the archive says of the call that is to come.
    fn preview(&mut self, step: &Step) -> Option<Preview> {
        let call = step.previewed()?;
        Some(self.slip.preview(&mut self.ours, step.now, call, &step.how))
    }

    fn given(&mut self, step: &Step) -> Told {
        let slip = self.slip;
        let ours = &mut self.ours;
        let places = step.how.places;
        Told::of(match &step.op {
            Op::Set(_) => unreachable!("no call"),
            Op::Build(setting) => ours.build(*setting, places),
            Op::Call(call) => slip.hand(ours, step.now, call, &step.how),
            Op::Board => ours.board(places),
            Op::IsSound => Answer::count(ours.is_sound(places).into()),
            Op::Finish { calls, short } => return finish(ours, step, calls, *short),
        })
    }

    fn expected(&mut self, step: &Step, refusal: Option<u64>, sound: bool) -> Told {
        if let Some(number) = refusal {
            let answers = match &step.op {
                Op::Finish { calls, short } => vec![BEFORE; calls.len() - least(*short, 4) + 1],
                _ => Vec::new(),
            };
            return Told::all(Answer::new(number, [0; 3]), answers);
        }
        Told::of(match &step.op {
            Op::Set(_) => unreachable!("no call"),
            Op::Build(setting) => {
                self.rust = Subject::new(&expect::settings(setting));
                self.config = self.rust.config();
                Answer::DONE
            }
            Op::Call(call) => self.on_rust(step.now, call),
            Op::Board => Answer::count(expect::board(&self.rust, &self.config)),
            Op::IsSound => Answer::count(u64::from(sound && step.how.places == PLACES)),
            Op::Finish { calls, .. } => {
                let one = |call: &Finishing| self.on_rust(step.now, &call.call()).number;
                let mut answers: Vec<u64> = calls.iter().map(one).collect();
                answers.push(BEFORE);
                return Told::all(Answer::DONE, answers);
            }
        })
    }

    /// Number 5 and nothing done, or what the Rust answers.
    fn on_rust(&mut self, now: u64, call: &Call) -> Answer {
        if expect::full(&self.rust, &self.config, now, call) {
            self.full += 1;
            return Answer::FULL;
        }
        self.rust.call(now, call)
    }
}

/// How many calls a part lacks.
fn least(short: Option<usize>, part: usize) -> usize {
    usize::from(short == Some(part))
}

fn finish(ours: &mut Side, step: &Step, calls: &[Finishing], short: Option<usize>) -> Told {
    let len = |part| calls.len() - least(short, part);
    let generations: Vec<u64> = calls.iter().map(|call| call.ticket.generation).collect();
    let part = |of: fn(&Finishing) -> bool| -> Vec<u8> {
        let flags = calls.iter().map(|call| flag(of(call), step.how.yes));
        flags.collect()
    };
    let probes = part(|call| call.ticket.probe);
    let settles = part(|call| call.settles);
    let marks = part(|call| call.mark);
    let named = Named {
        generations: &generations[..len(0)],
        probes: &probes[..len(1)],
        settles: &settles[..len(2)],
        marks: &marks[..len(3)],
    };
    let mut answers = vec![BEFORE; len(4) + 1];
    let handed = &mut answers[..len(4)];
    let answer = ours.finish_all(step.now, &named, handed, step.how.places);
    Told::all(answer, answers)
}

/// What a preview must say of a call with this answer, which left this record.
fn previewed(answer: &Answer, breaker: Breaker) -> Preview {
    let [v1, v2, v3] = answer.values;
    Preview {
        told: ffi::Told {
            number: answer.number as u32,
            v1,
            v2,
            v3,
        },
        breaker,
        len: breaker.shared.len,
    }
}

fn of_numbers(numbers: [u64; 8]) -> Shared {
    Shared {
        state: numbers[0] as u8,
        generation: numbers[1],
        run: numbers[2] as u32,
        counts: Counts {
            inflight: numbers[3] as u32,
            trait_probes: numbers[4] as u32,
            successes: numbers[5] as u32,
        },
        open_until: numbers[6],
        len: numbers[7] as u32,
    }
}
