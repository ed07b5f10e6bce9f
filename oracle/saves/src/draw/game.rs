//! Plays a random buffer: fills it with saves, then damages it and calls.

use sample::prng::Prng;
use throttle::scope::PLACES;

use super::draft::Draft;
use super::{Damage, Scale, Step, Told, Watch, breaker, damage, name};
use crate::RIGHT;
use crate::block::{BLOCK, Header};
use crate::body::Name;
use crate::reader::MOST;
use crate::record::{FIELDS, Record};
use crate::tally::Tally;
use crate::world::{Call, Op, ROOM, World};

/// The most bytes of a world: two blocks over the limit.
const ROOMIEST: usize = MOST + 2 * BLOCK;

/// Plays the buffer of a seed with this number.
pub fn play(
    seed: u64,
    number: u64,
    scale: Scale,
    tally: &mut Tally,
    watch: &mut dyn Watch,
) -> Result<(), String> {
    let mut game = Game {
        prng: Prng::new(Prng::new(seed).next() ^ number),
        scale,
        world: World::default(),
        size: 0,
        used: 0,
        names: Vec::new(),
        damages: Vec::new(),
        tally,
        watch,
    };
    game.play()
}

struct Game<'a> {
    prng: Prng,
    scale: Scale,
    world: World,
    /// What is handed in with the buffer.
    size: usize,
    used: usize,
    /// Of the saves that were made.
    names: Vec<Name>,
    damages: Vec<Damage>,
    tally: &'a mut Tally,
    watch: &'a mut dyn Watch,
}

impl Game<'_> {
    fn play(&mut self) -> Result<(), String> {
        self.buffer()?;
        if self.scale == Scale::Large {
            return self.full();
        }
        self.breaker()?;
        for _ in 0..self.prng.pick(&[0, 1, 1, 2, 2, 3, 4, 6]) {
            self.fill()?;
        }
        if self.prng.percent(15) {
            self.drop_last();
        }
        self.tally.buffer(self.size, self.used, &self.names);
        for _ in 0..1 + self.prng.below(4) {
            self.round()?;
        }
        Ok(())
    }

    /// A full list saved and returned to, before a few calls and around damages.
    fn full(&mut self) -> Result<(), String> {
        let name = name::ascii(&mut self.prng).to_vec();
        let names = [name.clone(), b"a second".to_vec(), b"a third ".to_vec()];
        for (name, times) in names.into_iter().zip([4096, 4096, 1000]) {
            let drawn = breaker::with_times(&mut self.prng, times);
            self.step(Step::Breaker(drawn))?;
            self.told(self.call(Op::Save(name)))?;
        }
        for _ in 0..3 {
            self.fill()?;
        }
        self.tally.buffer(self.size, self.used, &self.names);
        self.told(self.call(Op::Restore(name.clone())))?;
        self.told(Call {
            size: ROOMIEST,
            ..self.call(Op::Restore(name.clone()))
        })?;
        for _ in 0..3 {
            self.some_call()?;
        }
        self.damaged_full(name)
    }

    /// One byte is another one; then a middle block has another count, or another index.
    fn damaged_full(&mut self, name: Vec<u8>) -> Result<(), String> {
        let clean = self.draft();
        let mut byte = clean.clone();
        byte.bytes[self.prng.below(self.used as u64) as usize] ^= 1;
        let mut with = |alter: fn(&mut Header)| {
            let (mut draft, middle) = (clean.clone(), 1 + self.prng.below(64) as usize);
            let mut header = draft.header(middle);
            alter(&mut header);
            header.put(draft.block(middle));
            draft.mend(&clean);
            draft
        };
        let count = with(|header| header.count += 1);
        let index = with(|header| header.index += 1);
        for draft in [byte, count, index, clean] {
            self.put(draft)?;
            self.told(self.call(Op::Restore(name.clone())))?;
        }
        Ok(())
    }

    fn step(&mut self, step: Step) -> Result<(), String> {
        let before = self.world.clone();
        match &step {
            Step::Breaker(drawn) => {
                let record = Record::new(&drawn.config, &drawn.state);
                self.world.set(record, &drawn.state.items);
            }
            Step::Spot { spot, value } => self.world.put(*spot, *value),
            Step::Buffer(bytes) => self.world.buffer = bytes.clone(),
            Step::Patch { at, bytes } => {
                self.world.buffer[*at..at + bytes.len()].copy_from_slice(bytes);
            }
            Step::Call(_) => unreachable!("a call goes through `told`"),
        }
        self.watch.step(&step, &before, &self.world)
    }

    fn breaker(&mut self) -> Result<(), String> {
        let long = match self.size / BLOCK {
            _ if self.scale != Scale::Any => 0,
            0..10 => 4,
            10..60 => 15,
            _ => 45,
        };
        let drawn = breaker::breaker(&mut self.prng, long);
        self.step(Step::Breaker(drawn))
    }

    /// A buffer of whole blocks with any bytes in it and behind it.
    fn buffer(&mut self) -> Result<(), String> {
        let prng = &mut self.prng;
        let blocks = match (self.scale, prng.below(20)) {
            (Scale::Large, _) => 128,
            (_, 0) => 0,
            (Scale::Small, _) | (_, 1..=9) => 1 + prng.below(8) as usize,
            (_, 10..=15) => 1 + prng.below(40) as usize,
            (_, 16..=17) => 60 + prng.below(69) as usize,
            _ => 128,
        };
        self.size = BLOCK * blocks;
        let room = match self.scale == Scale::Large || prng.percent(15) {
            true => ROOMIEST,
            false => self.size + prng.pick(&[0, 1, 7, 512, 600]),
        };
        let mut bytes = vec![prng.pick(&[0, 0, 255, 1]); room];
        if self.scale == Scale::Any && prng.percent(40) {
            bytes.fill_with(|| prng.next() as u8);
        }
        self.step(Step::Buffer(bytes))
    }

    /// Saves a drawn breaker under a new name.
    fn fill(&mut self) -> Result<(), String> {
        self.breaker()?;
        let name = name::ascii(&mut self.prng);
        let call = self.call(Op::Save(name.to_vec()));
        self.told(call)
    }

    /// Takes the last save out of use, and leaves its bytes.
    fn drop_last(&mut self) {
        let draft = self.draft();
        if let Some(&head) = draft.heads().last() {
            self.used = BLOCK * head;
            self.names.pop();
        }
    }

    fn draft(&self) -> Draft {
        Draft {
            bytes: self.world.buffer.clone(),
            size: self.size,
            used: self.used,
        }
    }

    /// A few calls, mostly on a damaged buffer, which is then put right again.
    fn round(&mut self) -> Result<(), String> {
        let clean = (self.draft(), self.names.clone());
        let mut draft = clean.0.clone();
        let counts: &[u64] = match self.used {
            0 => &[0, 0, 0, 1],
            _ => &[0, 0, 0, 0, 1, 1, 1, 1, 2, 2, 3],
        };
        for _ in 0..self.prng.pick(counts) {
            let damage = damage::damage(&mut self.prng, &mut draft);
            self.tally.damages[damage.kind] += 1;
            self.damages.push(damage);
        }
        self.put(draft)?;
        for _ in 0..self.prng.pick(&[1, 1, 2, 3]) {
            self.some_call()?;
        }
        if !self.damages.is_empty() {
            self.put(clean.0)?;
            self.names = clean.1;
            self.damages.clear();
        }
        Ok(())
    }

    /// Makes the buffer that of a draft.
    fn put(&mut self, draft: Draft) -> Result<(), String> {
        for (at, bytes) in patches(&self.world.buffer, &draft.bytes) {
            self.step(Step::Patch { at, bytes })?;
        }
        self.size = draft.size;
        self.used = draft.used;
        Ok(())
    }

    fn some_call(&mut self) -> Result<(), String> {
        if self.prng.percent(45) {
            self.breaker()?;
        }
        let spoiled = self.prng.percent(4);
        if spoiled {
            self.spot()?;
        }
        let call = self.drawn_call();
        self.told(call)?;
        if spoiled {
            self.breaker()?;
        }
        Ok(())
    }

    /// Any number in a field or a place of the present breaker.
    fn spot(&mut self) -> Result<(), String> {
        let prng = &mut self.prng;
        let len = self.world.record.len as usize;
        let place = prng.pick(&[0, len, len + 1, 4095]).min(4095);
        let fields = FIELDS.len();
        let spot = match prng.percent(65) {
            true => prng.below(fields as u64) as usize,
            false => fields + place,
        };
        let value = match prng.below(4) {
            0..=1 => prng.below(6),
            2 => prng.pick(&[4095, 4096, 4097, 1 << 63, u64::MAX]),
            _ => prng.next(),
        };
        self.step(Step::Spot { spot, value })
    }

    fn call(&self, op: Op) -> Call {
        Call {
            op,
            places: PLACES,
            size: self.size,
            used: self.used,
        }
    }

    fn drawn_call(&mut self) -> Call {
        let (prng, names) = (&mut self.prng, &self.names);
        let op = match prng.below(20) {
            0..=9 => Op::Restore(name::asked(prng, names, false)),
            10..=13 => Op::Save(name::asked(prng, names, true)),
            14..=17 => return self.check(),
            _ => Op::Reconfigure(breaker::setting(prng)),
        };
        let mut call = self.call(op);
        if self.prng.percent(4) {
            call.places = self.prng.pick(&[0, 1, 4095, 4097, ROOM]);
        }
        if matches!(call.op, Op::Reconfigure(_)) {
            (call.size, call.used) = (0, 0);
        }
        call
    }

    /// The check of a used block, at times of other bytes.
    fn check(&mut self) -> Call {
        let (prng, room) = (&mut self.prng, self.world.buffer.len());
        let blocks = self.used.min(room) / BLOCK;
        let at = match prng.percent(85) && blocks > 0 {
            true => BLOCK * prng.below(blocks as u64) as usize,
            false => prng.below(room as u64 + 1) as usize,
        };
        let size = match prng.percent(90) {
            true => BLOCK,
            false => prng.pick(&[0, 1, 508, 511, 513, 1024]),
        };
        Call {
            op: Op::Check(at),
            places: 0,
            size: size.min(room - at),
            used: 0,
        }
    }

    fn told(&mut self, call: Call) -> Result<(), String> {
        let before = self.world.clone();
        let (answer, refusal) = RIGHT.tell(&mut self.world, &call);
        if let (Op::Save(name), None) = (&call.op, refusal) {
            self.used = answer.values[0] as usize;
            self.names.push(name[..].try_into().expect("eight bytes"));
        }
        let told = Told {
            call,
            answer,
            refusal,
            damages: self.damages.clone(),
        };
        self.tally.note(&told, &before, &self.world);
        self.watch.step(&Step::Call(told), &before, &self.world)
    }
}

/// The bytes that differ, those less than eight apart together.
fn patches(old: &[u8], new: &[u8]) -> Vec<(usize, Vec<u8>)> {
    let mut ranges: Vec<(usize, usize)> = Vec::new();
    for at in (0..old.len()).filter(|&at| old[at] != new[at]) {
        match ranges.last_mut() {
            Some((_, end)) if at < *end + 8 => *end = at + 1,
            _ => ranges.push((at, at + 1)),
        }
    }
    let bytes = |(at, end): (usize, usize)| (at, new[at..end].to_vec());
    ranges.into_iter().map(bytes).collect()
}
