//! The sample's text alone is enough to make every call again.

use std::collections::VecDeque;

use saves::record::{FIELDS, Record};
use saves::setting::Setting;
use saves::slip::SLIPS;
use saves::world::{Call, Engine, Op, World};
use saves::{Model, RIGHT};
use throttle::Subject;
use throttle::plain::{Answer, Settings, State};

fn sample(seed: u64) -> (String, Vec<String>) {
    let mut text = Vec::new();
    let tally = saves::lines::write(seed, &mut text).expect("a Vec takes any text");
    let text = String::from_utf8(text).expect("ASCII");
    (text, tally.missing())
}

/// The numbers of a line; the line must be what they print.
struct Line(VecDeque<u64>);

impl Line {
    fn new(line: &str) -> Self {
        let numbers: Vec<u64> = line.split(' ').map(|n| n.parse().expect(n)).collect();
        let printed: Vec<String> = numbers.iter().map(u64::to_string).collect();
        assert_eq!(printed.join(" "), line);
        Self(numbers.into())
    }

    fn next(&mut self) -> u64 {
        self.0.pop_front().expect("a longer line")
    }

    fn size(&mut self) -> usize {
        self.next() as usize
    }

    fn take<const N: usize>(&mut self) -> [u64; N] {
        std::array::from_fn(|_| self.next())
    }

    /// So many bytes in words, each with how often it comes.
    fn bytes(&mut self, len: usize) -> Vec<u8> {
        let mut bytes = Vec::new();
        while bytes.len() < len {
            let [count, word] = self.take();
            for _ in 0..count {
                bytes.extend(word.to_le_bytes());
            }
        }
        assert!(bytes.len() < len + 8 && self.0.is_empty());
        bytes.truncate(len);
        bytes
    }

    fn answer(&mut self) -> Answer {
        let [number, v1, v2, v3] = self.take();
        Answer::new(number, [v1, v2, v3])
    }

    fn breaker(&mut self, world: &mut World) {
        let mut record = Record::default();
        for field in FIELDS {
            (field.put)(&mut record, self.next());
        }
        let items: Vec<u64> = self.0.drain(..).collect();
        assert_eq!(items.len(), record.len as usize);
        world.set(record, &items);
    }

    fn call(&mut self, op: impl FnOnce(Vec<u8>) -> Op) -> Call {
        let (places, size, used) = (self.size(), self.size(), self.size());
        let len = self.size();
        let name = (0..len).map(|_| self.next() as u8).collect();
        Call {
            op: op(name),
            places,
            size,
            used,
        }
    }
}

/// What the lines say, and the record of the last line 0.
#[derive(Default)]
struct Replay {
    world: World,
    config: Option<throttle::plain::Config>,
    calls: u64,
}

impl Replay {
    /// Says whether the engine answers and leaves what the line says.
    fn line(&mut self, engine: &mut impl Engine, mut line: Line) -> bool {
        match line.next() {
            0 => {
                let settings = Settings::from_numbers(line.take()).expect("settings");
                let config = Subject::new(&settings).config();
                assert_eq!(line.take(), config.numbers());
                self.config = Some(config);
            }
            1 => {
                let (numbers, items) = (line.take(), line.0.into());
                let state = State::from_numbers(numbers, items).expect("a state");
                let record = Record::new(&self.config.expect("line 0 before"), &state);
                self.world.set(record, &state.items);
            }
            7 => {
                let len = line.size();
                self.world.buffer = line.bytes(len);
            }
            8 => self.world.put(line.size(), line.next()),
            9 => {
                let (at, len) = (line.size(), line.size());
                self.world.buffer[at..at + len].copy_from_slice(&line.bytes(len));
            }
            kind => return self.call(engine, kind, line),
        }
        true
    }

    fn call(&mut self, engine: &mut impl Engine, kind: u64, mut line: Line) -> bool {
        self.calls += 1;
        let call = match kind {
            10 => line.call(Op::Save),
            11 => line.call(Op::Restore),
            12 => Call {
                places: line.size(),
                op: Op::Reconfigure(Setting::from_numbers(line.take()).expect("a setting")),
                size: 0,
                used: 0,
            },
            13 => Call {
                op: Op::Check(line.size()),
                size: line.size(),
                places: 0,
                used: 0,
            },
            _ => panic!("a line of kind {kind}"),
        };
        let answer = line.answer();
        let mut given = self.world.clone();
        let told = engine.call(&mut given, &call);
        match (kind, answer.number) {
            (10, 0) => {
                let end = answer.values[0] as usize;
                let run = line.bytes(end - call.used);
                self.world.buffer[call.used..end].copy_from_slice(&run);
            }
            (11 | 12, 0) => line.breaker(&mut self.world),
            _ => assert!(line.0.is_empty()),
        }
        told == answer && given == self.world
    }
}

/// Whether the engine answers every line.
fn agrees(text: &str, engine: &mut impl Engine) -> bool {
    let mut replay = Replay::default();
    let agrees = text
        .lines()
        .all(|line| replay.line(engine, Line::new(line)));
    agrees && replay.calls > 1000
}

#[test]
fn every_line_replays_and_every_slip_is_found() {
    let (text, _) = sample(1);
    assert!(text.ends_with('\n') && text.len() < 1_000_000);
    assert!(agrees(&text, &mut { RIGHT }));
    for (slip, what) in SLIPS {
        assert!(!agrees(&text, &mut Model { slip: Some(slip) }), "{what}");
    }
}

#[test]
fn a_seed_gives_one_sample_with_enough_of_everything() {
    let (text, missing) = sample(1);
    assert_eq!(missing, Vec::<String>::new());
    assert!(text == sample(1).0);
    assert!(text != sample(2).0);
}
