//! A joined body: the name, the record in document 01's order, the list.

use throttle::plain::RATIO;

use crate::Model;
use crate::record::{Record, fields};
use crate::refusal::Refusal;
use crate::slip::Slip;

/// Bytes of a name.
pub const NAME: usize = 8;
pub type Name = [u8; NAME];

/// What a run of blocks holds.
#[derive(Clone, Debug, PartialEq, Eq)]
pub struct Save {
    pub name: Name,
    pub record: Record,
    pub items: Vec<u64>,
}

/// The bytes of a record.
pub fn record_width(version: u16) -> usize {
    fields(version).map(|field| field.width).sum()
}

/// Where the list begins in a joined body.
pub fn listed_from(version: u16) -> usize {
    NAME + record_width(version)
}

/// The bytes of an item: an outcome has 1, a time 8.
pub fn item_width(kind: u8) -> usize {
    if kind == RATIO { 1 } else { 8 }
}

/// The joined body of a sound breaker.
pub fn join(version: u16, save: &Save) -> Vec<u8> {
    let mut body = save.name.to_vec();
    for field in fields(version) {
        push(&mut body, (field.get)(&save.record), field.width);
    }
    for &item in &save.items {
        push(&mut body, item, item_width(save.record.kind));
    }
    body
}

fn push(body: &mut Vec<u8>, number: u64, width: usize) {
    body.extend_from_slice(&number.to_le_bytes()[..width]);
}

/// At most eight bytes as a number.
fn number(bytes: &[u8]) -> u64 {
    let above = |number, &byte| number << 8 | u64::from(byte);
    bytes.iter().rev().fold(0, above)
}

fn record(version: u16, mut bytes: &[u8]) -> Record {
    let mut record = Record::default();
    for field in fields(version) {
        let (first, rest) = bytes.split_at(field.width);
        (field.put)(&mut record, number(first));
        bytes = rest;
    }
    record
}

impl Model {
    pub fn is_ascii(&self, name: &[u8]) -> bool {
        let below = if self.slipped(Slip::Ascii) { 129 } else { 128 };
        name.iter().all(|&byte| byte < below)
    }

    /// Reads a joined body.
    pub fn part(&self, version: u16, body: &[u8]) -> Result<Save, Refusal> {
        let listed = listed_from(version);
        if body.len() < listed {
            return Err(Refusal::Body);
        }
        let name: Name = body[..NAME].try_into().expect("eight bytes");
        let record = record(version, &body[NAME..listed]);
        let (list, width) = (&body[listed..], item_width(record.kind));
        if !self.is_ascii(&name) || list.len() as u64 != u64::from(record.len) * width as u64 {
            return Err(Refusal::Body);
        }
        let items: Vec<u64> = list.chunks(width).map(number).collect();
        if record.kind == RATIO && items.iter().any(|&item| item > 1) {
            return Err(Refusal::Body);
        }
        let save = Save {
            name,
            record,
            items,
        };
        if !self.judged(&save.record).sound_with(&save.items) {
            return Err(Refusal::Saved);
        }
        Ok(save)
    }

    /// The saved record is judged as it was saved.
    fn judged(&self, record: &Record) -> Record {
        match self.slipped(Slip::JudgedAsLeft) {
            true => Record {
                inflight: 0,
                trait_probes: 0,
                ..*record
            },
            false => *record,
        }
    }
}
