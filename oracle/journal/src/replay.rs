//! Answers a journal: the Rust changes the state, document 01 gives the form.

use throttle::Subject;
use throttle::plain::{Answer, Config, RATIO, State, WINDOWED};
use throttle::scope::{PLACES, meets_full};

use crate::line::{Act, Header, Line};

/// The bytes that a journal may have.
pub const LIMIT: usize = 65_536;

/// What ends a run before its input ends.
enum Stop {
    /// Number 2.
    TooLarge,
    /// Number 12, with the line.
    Malformed(usize),
}

/// The answer to a journal.
pub fn replay(input: &[u8]) -> Vec<u8> {
    let mut out = String::new();
    match answer_lines(input, &mut out) {
        Ok(()) => {}
        Err(Stop::TooLarge) => out += "E 2\n",
        Err(Stop::Malformed(number)) => out += &format!("E 12 {number}\n"),
    }
    out.into_bytes()
}

fn answer_lines(input: &[u8], out: &mut String) -> Result<(), Stop> {
    let mut run = None;
    for (line, number) in lines(input).zip(1..) {
        let malformed = || Stop::Malformed(number);
        let line = line.ok_or_else(malformed)?;
        match &mut run {
            None => {
                let header = Header::read(line).ok_or_else(malformed)?;
                run = Some(Run::new(&header).ok_or(Stop::TooLarge)?);
            }
            Some(run) => *out += &run.answer(&Line::read(line).ok_or_else(malformed)?),
        }
    }
    Ok(())
}

/// The lines without their feeds; `None` is a line without a feed up to the
/// limit, and the header that empty input lacks.
fn lines(input: &[u8]) -> impl Iterator<Item = Option<&[u8]>> {
    let within = &input[..input.len().min(LIMIT)];
    let one_more = input.len() > LIMIT || input.is_empty();
    within
        .split_inclusive(|&byte| byte == b'\n')
        .map(|line| line.strip_suffix(b"\n"))
        .chain(one_more.then_some(None))
}

/// A breaker of the Rust, and what it was left as.
pub struct Run {
    subject: Subject,
    config: Config,
    state: State,
}

impl Run {
    /// A fresh breaker; `None` where number 2 refuses the header.
    pub fn new(header: &Header) -> Option<Self> {
        let subject = Subject::new(&header.settings());
        let (config, state) = (subject.config(), subject.state());
        let listed = config.kind == RATIO || config.kind == WINDOWED;
        let too_large = listed && config.limit as usize > PLACES;
        (!too_large).then_some(Self {
            subject,
            config,
            state,
        })
    }

    pub fn config(&self) -> &Config {
        &self.config
    }

    pub fn state(&self) -> &State {
        &self.state
    }

    /// One call. Number 5 changes nothing: the Rust isn't asked then.
    pub fn step(&mut self, line: &Line) -> Answer {
        let call = line.act.call();
        if meets_full(&self.config, &self.state, line.reading, &call) {
            return Answer::FULL;
        }
        let answer = self.subject.call(line.reading, &call);
        self.state = self.subject.state();
        answer
    }

    /// One call, with the line that answers it.
    fn answer(&mut self, line: &Line) -> String {
        let answer = self.step(line);
        let [state, generation, _, inflight, _, successes, until, _] = self.state.numbers();
        let told = told(line.act, answer);
        format!("{told} {state} {generation} {inflight} {successes} {until}\n")
    }
}

fn told(act: Act, Answer { number, values }: Answer) -> String {
    let [first, second, _] = values;
    match (number, act) {
        (0, Act::Admit) => format!("G {first} {second}"),
        (0, _) => "N".into(),
        (6, _) => format!("B {first}"),
        _ => format!("E {number}"),
    }
}
