//! One block: its header, sum and zero bytes; a body cut into blocks.

use std::ops::Range;

use crate::Model;
use crate::refusal::Refusal;
use crate::slip::Slip;

pub const BLOCK: usize = 512;
pub const BODY: Range<usize> = 8..504;
/// The most body bytes of a block.
pub const FULL: usize = 496;
pub const ZEROS: Range<usize> = 504..508;
pub const SUM: Range<usize> = 508..512;

/// The versions defined so far.
pub const VERSIONS: [u16; 1] = [1];
/// That of new saves.
pub const NEWEST: u16 = VERSIONS[VERSIONS.len() - 1];

/// The first eight bytes, two for each number.
#[derive(Clone, Copy, Debug, PartialEq, Eq)]
pub struct Header {
    pub version: u16,
    pub index: u16,
    pub count: u16,
    pub used: u16,
}

impl Header {
    pub fn of(block: &[u8]) -> Self {
        let number = |at| u16::from_le_bytes([block[at], block[at + 1]]);
        Self {
            version: number(0),
            index: number(2),
            count: number(4),
            used: number(6),
        }
    }

    pub fn put(&self, block: &mut [u8]) {
        let numbers = [self.version, self.index, self.count, self.used];
        for (bytes, number) in block.chunks_mut(2).zip(numbers) {
            bytes.copy_from_slice(&number.to_le_bytes());
        }
    }

    pub fn is_last(&self) -> bool {
        u32::from(self.index) + 1 == self.count.into()
    }
}

impl Model {
    /// The sum of byte × (position + 1) over positions 0 to 503.
    pub fn sum(&self, block: &[u8]) -> u32 {
        let end = match self.slip {
            Some(Slip::ShortSum) => 503,
            Some(Slip::LongSum) => 508,
            _ => 504,
        };
        let weighed = (1..).zip(&block[..end]);
        weighed
            .map(|(weight, &byte)| weight * u32::from(byte))
            .sum()
    }

    /// Makes the sum right.
    pub fn seal(&self, block: &mut [u8]) {
        let sum = self.sum(block);
        block[SUM].copy_from_slice(&sum.to_le_bytes());
    }

    pub fn sum_is_right(&self, block: &[u8]) -> bool {
        block[SUM] == self.sum(block).to_le_bytes()
    }

    /// The run of blocks whose bodies are these parts.
    pub fn run(&self, version: u16, parts: &[&[u8]]) -> Vec<u8> {
        let mut run = vec![0; BLOCK * parts.len()];
        for (index, (block, part)) in run.chunks_mut(BLOCK).zip(parts).enumerate() {
            let header = Header {
                version,
                index: index as u16,
                count: parts.len() as u16,
                used: part.len() as u16,
            };
            header.put(block);
            block[BODY][..part.len()].copy_from_slice(part);
            self.seal(block);
        }
        run
    }

    /// A joined body as a run of blocks: none empty, none but the last part full.
    pub fn split(&self, version: u16, body: &[u8]) -> Vec<u8> {
        let parts: Vec<&[u8]> = body.chunks(FULL).collect();
        self.run(version, &parts)
    }

    /// What a header can say wrong by itself.
    pub fn header_holds(&self, header: &Header) -> bool {
        let Header {
            index, count, used, ..
        } = *header;
        let empty_passes = self.slipped(Slip::EmptyLast) && header.is_last();
        index < count
            && usize::from(used) <= FULL
            && (used > 0 || empty_passes)
            && (usize::from(used) == FULL || header.is_last() || self.slipped(Slip::PartFull))
    }

    /// Whether unused body bytes and 504 to 507 are 0. The used length is at most 496.
    pub fn zeros_hold(&self, block: &[u8], used: usize) -> bool {
        let zero = |bytes: &[u8]| bytes.iter().all(|&byte| byte == 0);
        (self.slipped(Slip::UnusedUnread) || zero(&block[BODY][used..]))
            && (self.slipped(Slip::ZerosUnread) || zero(&block[ZEROS]))
    }

    /// The check of one block alone: where its used body lies in it.
    pub fn check_block(&self, block: &[u8]) -> Result<Range<usize>, Refusal> {
        if block.len() != BLOCK {
            return Err(Refusal::Sizes);
        }
        if !self.sum_is_right(block) {
            return Err(Refusal::Sum);
        }
        let header = Header::of(block);
        if !VERSIONS.contains(&header.version) {
            return Err(Refusal::Version);
        }
        let at_count = header.index == header.count && self.slipped(Slip::CheckedIndex);
        if !self.header_holds(&header) && !at_count {
            return Err(Refusal::Header);
        }
        let used = usize::from(header.used).min(FULL);
        if !self.zeros_hold(block, used) {
            return Err(Refusal::Zero);
        }
        Ok(BODY.start..BODY.start + used)
    }
}
