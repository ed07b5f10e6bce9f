//! Breakers and buffers made by hand.
#![allow(dead_code)]

use saves::RIGHT;
use saves::block::BLOCK;
use saves::record::Record;
use saves::refusal::Refusal;

pub const NAME: &[u8] = b"desk one";
pub const OTHER: &[u8] = b"desk two";

/// Consecutive 2, cooldown 1,000 ms, trials 1, required 1; fresh.
pub fn fresh() -> Record {
    Record {
        kind: 1,
        limit: 2,
        cooldown_ms: 1000,
        trials: 1,
        required: 1,
        ..Record::default()
    }
}

/// Windowed, with so many times.
pub fn windowed(len: u32) -> Record {
    Record {
        kind: 3,
        limit: 4096,
        period_ms: 100,
        len,
        ..fresh()
    }
}

/// Ratio 0.5 over a window of 4,096, with so many outcomes.
pub fn ratio(len: u32) -> Record {
    Record {
        kind: 2,
        limit: 4096,
        ratio_bits: 0.5_f64.to_bits(),
        len,
        ..fresh()
    }
}

/// HalfOpen, with trials out.
pub fn half_open() -> Record {
    Record {
        trials: 5,
        required: 4,
        state: 1,
        generation: 3,
        run: 7,
        inflight: 2,
        trait_probes: 1,
        successes: 3,
        open_until: 500,
        ..fresh()
    }
}

/// A storage with these items.
pub fn list(items: impl IntoIterator<Item = u64>) -> Vec<u64> {
    let mut list: Vec<u64> = items.into_iter().collect();
    list.resize(4096, 0);
    list
}

/// A buffer in use up to some length.
#[derive(Clone, PartialEq, Debug)]
pub struct Buffer {
    pub bytes: Vec<u8>,
    pub used: usize,
}

impl Buffer {
    pub fn new(blocks: usize) -> Self {
        Self {
            bytes: vec![0; BLOCK * blocks],
            used: 0,
        }
    }

    /// With a save of a Consecutive breaker, which takes one block, for each name.
    pub fn with(blocks: usize, names: &[&[u8]]) -> Self {
        let mut buffer = Self::new(blocks);
        for name in names {
            buffer.save(&fresh(), &list([]), name).expect("a save");
        }
        buffer
    }

    pub fn save(&mut self, record: &Record, list: &[u64], name: &[u8]) -> Result<(), Refusal> {
        self.used = RIGHT.save(record, list, &mut self.bytes, self.used, name)?;
        Ok(())
    }

    pub fn block(&mut self, number: usize) -> &mut [u8] {
        &mut self.bytes[BLOCK * number..][..BLOCK]
    }

    /// Puts bytes into a block and makes its sum right.
    pub fn put(&mut self, number: usize, at: usize, bytes: &[u8]) {
        let block = self.block(number);
        block[at..at + bytes.len()].copy_from_slice(bytes);
        RIGHT.seal(block);
    }

    /// What a return to a name is told on a fresh breaker: 0 or a number.
    pub fn told(&self, name: &[u8]) -> u64 {
        let (mut record, mut places) = (fresh(), list([]));
        let told = RIGHT.restore(&mut record, &mut places, &self.bytes, self.used, name);
        number(told)
    }

    /// What a save of a fresh breaker is told, on a copy.
    pub fn told_save(&self, name: &[u8]) -> u64 {
        number(self.clone().save(&fresh(), &list([]), name))
    }

    /// Both are told the same, whatever name is asked.
    #[track_caller]
    pub fn refused(&self, with: u64) {
        for name in [NAME, OTHER, b"no such ", b"\xff2345678", b""] {
            assert_eq!(self.told(name), with, "return to {name:?}");
            assert_eq!(self.told_save(name), with, "save as {name:?}");
        }
    }
}

pub fn number<T>(told: Result<T, Refusal>) -> u64 {
    told.map_or_else(Refusal::number, |_| 0)
}
