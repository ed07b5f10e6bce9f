//! The sample's text alone is enough to run every wait again.

use std::cell::RefCell;
use std::collections::VecDeque;
use std::rc::Rc;

use throttle::Subject;
use throttle::plain::{Answer, Call, Settings, State};
use throttle::turns::{Handed, Host, Start, Turn};

fn sample(seed: u64) -> (String, Vec<String>) {
    let mut text = Vec::new();
    let tally = waits::write(seed, &mut text).expect("a Vec takes any text");
    let text = String::from_utf8(text).expect("ASCII");
    (text, tally.missing())
}

/// The numbers of a line; the line must be what they print.
fn numbers(line: &str) -> Line {
    let numbers: Vec<u64> = line.split(' ').map(|n| n.parse().expect(n)).collect();
    let printed: Vec<String> = numbers.iter().map(u64::to_string).collect();
    assert_eq!(printed.join(" "), line);
    Line(numbers.into())
}

/// What is left of a line.
struct Line(VecDeque<u64>);

impl Line {
    fn kind(&self) -> u64 {
        self.0[0]
    }

    fn take<const N: usize>(&mut self) -> [u64; N] {
        std::array::from_fn(|_| self.0.pop_front().expect("a longer line"))
    }

    fn answer(&mut self) -> Answer {
        let [number, v1, v2, v3] = self.take();
        Answer::new(number, [v1, v2, v3])
    }

    /// The last eight numbers: the state after a line that leaves the list.
    fn ends_with(&mut self, state: &State) {
        assert_eq!(self.take(), state.numbers());
        assert!(self.0.is_empty());
    }
}

/// Plays the lines from the front.
struct Text {
    lines: VecDeque<Line>,
    /// The line under way, from its answer on.
    line: Line,
    acquired: bool,
    before: State,
}

impl Text {
    fn next_is(&self, kind: u64) -> bool {
        self.lines.front().is_some_and(|line| line.kind() == kind)
    }

    fn next(&mut self) -> Line {
        let mut line = self.lines.pop_front().expect("more lines");
        line.take::<1>();
        line
    }

    fn fresh(&mut self) -> Rc<Subject> {
        let mut line = self.next();
        let subject = Subject::new(&Settings::from_numbers(line.take()).expect("settings"));
        assert_eq!(line.take(), subject.config().numbers());
        if self.next_is(1) {
            let mut line = self.next();
            let fields = line.take();
            let state = State::from_numbers(fields, line.0.into()).expect("a state");
            subject.set_state(&state);
        }
        Rc::new(subject)
    }

    fn start(&mut self) -> Start {
        self.line = self.next();
        let [now_ms, clock, limited, timeout] = self.line.take();
        Start {
            now_ms,
            clock,
            limited: limited == 1,
            timeout,
        }
    }

    fn call(&mut self, subject: &Subject) {
        let mut items = subject.state().items;
        let mut line = self.next();
        let [op, now] = line.take();
        let call = Call::from_numbers(op, line.take()).expect("a call");
        assert_eq!(subject.call(now, &call), line.answer());
        let fields = line.take();
        let [popped, pushed] = line.take();
        assert_eq!(line.0.len() as u64, pushed);
        items.drain(..popped as usize);
        items.extend(line.0);
        assert_eq!(State::from_numbers(fields, items), Some(subject.state()));
    }
}

impl Host for Text {
    fn told(&mut self, subject: &Subject, answer: Answer) {
        assert_eq!(self.line.answer(), answer);
        self.line.ends_with(&subject.state());
        assert_eq!(self.before.items, subject.state().items);
        while self.next_is(6) {
            self.call(subject);
        }
        self.before = subject.state();
    }

    fn turn(&mut self, _: &Subject) -> Handed {
        self.line = self.next();
        let [now_ms, capacity] = self.line.take();
        Handed {
            now_ms,
            capacity: capacity.try_into().expect("32 bits"),
            turn: Turn::from_numbers(self.line.take()),
            acquired: self.acquired,
        }
    }

    fn goes_on(&mut self, _: &Subject) -> bool {
        if self.next_is(5) {
            self.line = self.next();
            return false;
        }
        true
    }
}

fn replay(text: &str, acquired: bool) {
    let host = Rc::new(RefCell::new(Text {
        lines: text.lines().map(numbers).collect(),
        line: Line(VecDeque::new()),
        acquired,
        before: State::default(),
    }));
    while !host.borrow().lines.is_empty() {
        let subject = host.borrow_mut().fresh();
        host.borrow_mut().before = subject.state();
        while host.borrow().next_is(3) {
            let start = host.borrow_mut().start();
            subject.wait(&start, &host);
        }
    }
}

#[test]
fn every_line_replays_however_a_retry_of_0_is_told() {
    let (text, _) = sample(1);
    assert!(text.ends_with('\n') && text.len() < 1_500_000);
    replay(&text, false);
    replay(&text, true);
}

#[test]
fn a_seed_gives_one_sample_with_enough_of_everything() {
    let (text, missing) = sample(1);
    assert_eq!(missing, Vec::<String>::new());
    assert!(text == sample(1).0);
    assert!(text != sample(2).0);
}
