//! The sample's text alone is enough to run every call again.

use throttle::Subject;
use throttle::plain::{Answer, Call, Config, Settings, State};
use throttle::scope::meets_full;

fn sample(seed: u64) -> (String, Vec<String>) {
    let mut text = Vec::new();
    let coverage = sample::write(seed, &mut text).expect("a Vec takes any text");
    let text = String::from_utf8(text).expect("ASCII");
    (text, coverage.missing())
}

/// The numbers of a line; the line must be what they print.
fn numbers(line: &str) -> Vec<u64> {
    let numbers: Vec<u64> = line.split(' ').map(|n| n.parse().expect(n)).collect();
    let printed: Vec<String> = numbers.iter().map(u64::to_string).collect();
    assert_eq!(printed.join(" "), line);
    numbers
}

/// Takes the next numbers of a line.
fn take<const N: usize>(line: &mut impl Iterator<Item = u64>) -> [u64; N] {
    std::array::from_fn(|_| line.next().expect("a longer line"))
}

fn fresh(mut line: impl Iterator<Item = u64>) -> Subject {
    let settings = Settings::from_numbers(take(&mut line)).expect("settings");
    let subject = Subject::new(&settings);
    assert_eq!(subject.config().numbers(), take(&mut line));
    assert_eq!(line.next(), None);
    subject
}

fn start(subject: &Subject, mut line: impl Iterator<Item = u64>) {
    let fields = take(&mut line);
    let state = State::from_numbers(fields, line.collect()).expect("a state");
    subject.set_state(&state);
}

/// What a line says of a call: its reading, itself, its answer, what it leaves.
fn step(mut line: impl Iterator<Item = u64>, before: &State) -> (u64, Call, Answer, State) {
    let [op, now] = take(&mut line);
    let call = Call::from_numbers(op, take(&mut line)).expect("a call");
    let [number] = take(&mut line);
    let answer = Answer::new(number, take(&mut line));
    let fields = take(&mut line);
    let [popped, pushed] = take(&mut line);
    let mut items = before.items[popped as usize..].to_vec();
    let rest: Vec<u64> = line.collect();
    assert_eq!(rest.len() as u64, pushed);
    items.extend(rest);
    let after = State::from_numbers(fields, items).expect("a state");
    (now, call, answer, after)
}

/// A line with number 5 is document 01's; every other is the Rust's.
fn check(config: &Config, subject: &Subject, line: impl Iterator<Item = u64>) {
    let before = subject.state();
    let (now, call, answer, after) = step(line, &before);
    let full = meets_full(config, &before, now, &call);
    assert_eq!(full, answer == Answer::FULL);
    if full {
        assert_eq!(after, before);
    } else {
        assert_eq!(subject.call(now, &call), answer);
        assert_eq!(subject.state(), after);
    }
}

#[test]
fn every_line_replays() {
    let (text, _) = sample(1);
    assert!(text.ends_with('\n') && text.len() < 2_000_000);
    let mut subject = Subject::with_defaults();
    for line in text.lines() {
        let mut line = numbers(line).into_iter();
        match line.next() {
            Some(0) => subject = fresh(line),
            Some(1) => start(&subject, line),
            Some(2) => check(&subject.config(), &subject, line),
            other => panic!("no line begins with {other:?}"),
        }
    }
}

#[test]
fn number_5_ends_its_sequence() {
    let (text, _) = sample(1);
    let lines: Vec<Vec<u64>> = text.lines().map(numbers).collect();
    let full = |line: &[u64]| line[0] == 2 && line[7] == 5;
    let next_begins = |pair: &[Vec<u64>]| !full(&pair[0]) || pair[1][0] == 0;
    assert!(lines.windows(2).all(next_begins));
}

#[test]
fn a_seed_gives_one_sample_with_enough_of_everything() {
    let (text, missing) = sample(1);
    assert_eq!(missing, Vec::<String>::new());
    assert!(text == sample(1).0);
    assert!(text != sample(2).0);
}

#[test]
fn the_list_change_is_the_least() {
    use sample::lines::popped;
    assert_eq!(popped(&[1, 2, 3], &[2, 3, 4]), 1);
    assert_eq!(popped(&[0, 0, 0], &[0, 0, 0]), 0);
    assert_eq!(popped(&[5, 6], &[]), 2);
    assert_eq!(popped(&[], &[7]), 0);
}
