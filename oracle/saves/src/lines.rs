//! Buffers and calls as lines of decimal numbers, and the sample.

use std::io::{self, Write};

use sample::lines::{fresh, line, start};
use throttle::plain::Answer;

use crate::draw::{Scale, Step, Told, Watch, play};
use crate::record::{FIELDS, Record};
use crate::tally::Tally;
use crate::world::{Op, World};

const BUFFER: u64 = 7;
const SPOT: u64 = 8;
const PATCH: u64 = 9;
const SAVE: u64 = 10;
const RESTORE: u64 = 11;
const RECONFIGURE: u64 = 12;
const CHECK: u64 = 13;

/// The buffers of a sample: small ones, and large ones behind them.
const SMALL: u64 = 240;
const LARGE: u64 = 1;

/// Writes the sample of a seed.
pub fn write(seed: u64, out: &mut impl Write) -> io::Result<Tally> {
    let mut tally = Tally::default();
    let mut lines = Lines(out);
    for number in 0..SMALL + LARGE {
        let scale = match number < SMALL {
            true => Scale::Small,
            false => Scale::Large,
        };
        let played = play(seed, number, scale, &mut tally, &mut lines);
        played.map_err(io::Error::other)?;
    }
    Ok(tally)
}

/// Writes the lines of one of the buffers that are compared.
pub fn write_one(seed: u64, number: u64, out: &mut impl Write) -> io::Result<()> {
    let mut tally = Tally::default();
    let played = play(seed, number, Scale::Any, &mut tally, &mut Lines(out));
    played.map_err(io::Error::other)
}

/// Writes steps.
struct Lines<'a, W>(&'a mut W);

impl<W: Write> Watch for Lines<'_, W> {
    fn step(&mut self, step: &Step, _: &World, after: &World) -> Result<(), String> {
        self.put(step, after).map_err(|error| error.to_string())
    }
}

impl<W: Write> Lines<'_, W> {
    fn put(&mut self, step: &Step, after: &World) -> io::Result<()> {
        let out = &mut *self.0;
        match step {
            Step::Breaker(drawn) => {
                fresh(out, &drawn.settings, &drawn.config)?;
                start(out, &drawn.state)
            }
            Step::Spot { spot, value } => line(out, SPOT, &[&[*spot as u64, *value]]),
            Step::Buffer(bytes) => line(out, BUFFER, &[&[bytes.len() as u64], &pairs(bytes)]),
            Step::Patch { at, bytes } => {
                let range = [*at as u64, bytes.len() as u64];
                line(out, PATCH, &[&range, &pairs(bytes)])
            }
            Step::Call(told) => call(out, told, after),
        }
    }
}

fn wide(bytes: &[u8]) -> Vec<u64> {
    bytes.iter().map(|&byte| byte.into()).collect()
}

/// Words of eight bytes, the first byte lowest, each with how often it comes in a row. The last
/// may have fewer bytes.
pub fn pairs(bytes: &[u8]) -> Vec<u64> {
    let mut pairs: Vec<u64> = Vec::new();
    for chunk in bytes.chunks(8) {
        let mut word = [0; 8];
        word[..chunk.len()].copy_from_slice(chunk);
        let word = u64::from_le_bytes(word);
        match &mut pairs[..] {
            [.., count, last] if *last == word => *count += 1,
            _ => pairs.extend([1, word]),
        }
    }
    pairs
}

/// The record in document 01's order.
fn fields(record: &Record) -> Vec<u64> {
    FIELDS.iter().map(|field| (field.get)(record)).collect()
}

fn answer(answer: &Answer) -> [u64; 4] {
    let [v1, v2, v3] = answer.values;
    [answer.number, v1, v2, v3]
}

fn call(out: &mut impl Write, told: &Told, after: &World) -> io::Result<()> {
    let call = &told.call;
    let (places, size, used) = (call.places as u64, call.size as u64, call.used as u64);
    let done = told.refusal.is_none();
    let answer = answer(&told.answer);
    let handed = |name: &[u8]| [vec![places, size, used, name.len() as u64], wide(name)].concat();
    match &call.op {
        Op::Save(name) => {
            let end = told.answer.values[0] as usize;
            let run = if done {
                pairs(&after.buffer[call.used..end])
            } else {
                Vec::new()
            };
            line(out, SAVE, &[&handed(name), &answer, &run])
        }
        Op::Restore(name) => {
            let left = if done { breaker(after) } else { Vec::new() };
            line(out, RESTORE, &[&handed(name), &answer, &left])
        }
        Op::Reconfigure(setting) => {
            let left = if done { breaker(after) } else { Vec::new() };
            line(
                out,
                RECONFIGURE,
                &[&[places], &setting.numbers(), &answer, &left],
            )
        }
        Op::Check(at) => line(out, CHECK, &[&[*at as u64, size], &answer]),
    }
}

/// Record and list.
fn breaker(world: &World) -> Vec<u64> {
    let items = &world.list[..world.record.len as usize];
    [&fields(&world.record), items].concat()
}
