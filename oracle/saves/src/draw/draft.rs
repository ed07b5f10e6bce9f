//! A buffer to be damaged, with the counts that it is handed in with.

use crate::RIGHT;
use crate::block::{BLOCK, BODY, FULL, Header, NEWEST};
use crate::body::NAME;
use crate::record::fields;

#[derive(Clone)]
pub struct Draft {
    pub bytes: Vec<u8>,
    pub size: usize,
    pub used: usize,
}

/// Where a record begins in the first block of its run.
const RECORD: usize = BODY.start + NAME;

impl Draft {
    /// The whole blocks in use.
    pub fn blocks(&self) -> usize {
        self.used.min(self.bytes.len()) / BLOCK
    }

    pub fn block(&mut self, number: usize) -> &mut [u8] {
        &mut self.bytes[BLOCK * number..][..BLOCK]
    }

    pub fn header(&self, number: usize) -> Header {
        Header::of(&self.bytes[BLOCK * number..])
    }

    /// The blocks of index 0, each of which begins a run.
    pub fn heads(&self) -> Vec<usize> {
        let blocks = 0..self.blocks();
        blocks.filter(|&n| self.header(n).index == 0).collect()
    }

    /// The blocks up to the next run.
    pub fn run_len(&self, head: usize) -> usize {
        let next = self.heads().into_iter().find(|&other| other > head);
        next.unwrap_or(self.blocks()) - head
    }

    /// The used parts of a run, joined.
    pub fn joined(&self, head: usize) -> Vec<u8> {
        let blocks = head..head + self.run_len(head);
        let part = |n: usize| {
            let used = usize::from(self.header(n).used).min(FULL);
            &self.bytes[BLOCK * n..][BODY][..used]
        };
        blocks.flat_map(part).copied().collect()
    }

    /// Puts other blocks in the place of some, and moves those behind. Says whether they fit.
    pub fn replace(&mut self, at: usize, blocks: usize, with: &[u8]) -> bool {
        let end = BLOCK * self.blocks();
        let rest = self.bytes[BLOCK * (at + blocks)..end].to_vec();
        let used = BLOCK * at + with.len() + rest.len();
        if used > self.size.min(self.bytes.len()) {
            return false;
        }
        let whole = [with, &rest].concat();
        self.bytes[BLOCK * at..used].copy_from_slice(&whole);
        self.used = used;
        true
    }

    /// Where a field of the record lies in the buffer.
    pub fn field(head: usize, field: usize) -> usize {
        let before = fields(NEWEST).take(field).map(|field| field.width);
        BLOCK * head + RECORD + before.sum::<usize>()
    }

    /// Where a byte of the joined body lies in the buffer, if all blocks before it are full.
    pub fn in_body(head: usize, at: usize) -> usize {
        BLOCK * (head + at / FULL) + BODY.start + at % FULL
    }

    /// Makes the sums right of those blocks that aren't as before.
    pub fn mend(&mut self, before: &Self) {
        for number in 0..self.blocks() {
            let at = BLOCK * number;
            let old = before.bytes.get(at..at + BLOCK);
            if old != Some(&self.bytes[at..at + BLOCK]) {
                RIGHT.seal(self.block(number));
            }
        }
    }
}
