//! All that a call may read or change, a call as it is handed in, and who plays it.

use throttle::plain::Answer;
use throttle::scope::PLACES;

use crate::Model;
use crate::record::{FIELDS, Record};
use crate::refusal::Refusal;
use crate::setting::Setting;

/// Places past the storage, which no call may touch.
const SPARE: usize = 8;
pub const ROOM: usize = PLACES + SPARE;
const UNTOUCHED: u64 = 0x5a5a_5a5a_5a5a_5a5a;

#[derive(Clone, PartialEq, Eq)]
pub struct World {
    pub record: Record,
    /// The storage, and more places behind it.
    pub list: Vec<u64>,
    /// The buffer, and mostly more bytes behind it.
    pub buffer: Vec<u8>,
}

impl Default for World {
    fn default() -> Self {
        let mut list = vec![0; ROOM];
        list[PLACES..].fill(UNTOUCHED);
        Self {
            record: Record::default(),
            list,
            buffer: Vec::new(),
        }
    }
}

impl World {
    /// Puts a breaker here.
    pub fn set(&mut self, record: Record, items: &[u64]) {
        self.record = record;
        self.list[..PLACES].fill(0);
        self.list[..items.len()].copy_from_slice(items);
    }

    /// Puts a number into a field, or into a place counted from behind the fields.
    pub fn put(&mut self, spot: usize, value: u64) {
        match FIELDS.get(spot) {
            Some(field) => (field.put)(&mut self.record, value),
            None => self.list[spot - FIELDS.len()] = value,
        }
    }

    /// The first thing that differs, for people.
    pub fn difference(&self, other: &Self) -> Option<String> {
        for field in FIELDS {
            let (ours, theirs) = ((field.get)(&self.record), (field.get)(&other.record));
            if ours != theirs {
                return Some(format!("{}: expected {ours}, given {theirs}", field.name));
            }
        }
        let place = first_difference(&self.list, &other.list, "place");
        place.or_else(|| first_difference(&self.buffer, &other.buffer, "byte"))
    }
}

fn first_difference<T: PartialEq + Copy + Into<u64>>(
    ours: &[T],
    theirs: &[T],
    what: &str,
) -> Option<String> {
    let at = (0..ours.len()).find(|&at| ours[at] != theirs[at])?;
    let (ours, theirs): (u64, u64) = (ours[at].into(), theirs[at].into());
    Some(format!("{what} {at}: expected {ours}, given {theirs}"))
}

#[derive(Clone, Debug, PartialEq, Eq)]
pub enum Op {
    Save(Vec<u8>),
    Restore(Vec<u8>),
    Reconfigure(Setting),
    /// The check of `size` bytes from here on.
    Check(usize),
}

pub const OPS: [&str; 4] = ["save", "restore", "reconfigure", "check_block"];

impl Op {
    /// Its place in `OPS`.
    pub fn index(&self) -> usize {
        match self {
            Self::Save(_) => 0,
            Self::Restore(_) => 1,
            Self::Reconfigure(_) => 2,
            Self::Check(_) => 3,
        }
    }
}

/// A call with the counts that are handed in. What it doesn't take is 0.
#[derive(Clone, Debug, PartialEq, Eq)]
pub struct Call {
    pub op: Op,
    /// At most those of a world.
    pub places: usize,
    /// At most the bytes of a world.
    pub size: usize,
    /// Any number.
    pub used: usize,
}

/// Who plays calls.
pub trait Engine {
    fn call(&mut self, world: &mut World, call: &Call) -> Answer;
}

impl Engine for Model {
    fn call(&mut self, world: &mut World, call: &Call) -> Answer {
        self.tell(world, call).0
    }
}

impl Model {
    /// What is told, and why it is refused.
    pub fn tell(&self, world: &mut World, call: &Call) -> (Answer, Option<Refusal>) {
        match self.play(world, call) {
            Ok(answer) => (answer, None),
            Err(refusal) => (Answer::new(refusal.number(), [0; 3]), Some(refusal)),
        }
    }

    fn play(&self, world: &mut World, call: &Call) -> Result<Answer, Refusal> {
        let record = &mut world.record;
        let list = &mut world.list[..call.places];
        let used = call.used;
        match &call.op {
            Op::Save(name) => {
                let saves = &mut world.buffer[..call.size];
                let used = self.save(record, list, saves, used, name)?;
                Ok(Answer::count(used as u64))
            }
            Op::Restore(name) => {
                self.restore(record, list, &world.buffer[..call.size], used, name)?;
                Ok(Answer::DONE)
            }
            Op::Reconfigure(setting) => {
                self.reconfigure(record, list, setting)?;
                Ok(Answer::DONE)
            }
            Op::Check(at) => {
                let body = self.check_block(&world.buffer[*at..at + call.size])?;
                Ok(Answer::new(0, [body.start as u64, body.len() as u64, 0]))
            }
        }
    }
}
