//! The saves in the used part of a buffer, or why it is refused: three passes over all used blocks.

use crate::Model;
use crate::block::{BLOCK, BODY, Header, VERSIONS};
use crate::body::{Name, Save};
use crate::refusal::Refusal;
use crate::slip::Slip;

/// The most bytes of a buffer.
pub const MOST: usize = 65_536;

impl Model {
    /// 13 for sizes and sums, then 14, then 13 for the rest.
    pub fn read(&self, saves: &[u8], used: usize) -> Result<Vec<Save>, Refusal> {
        let blocks = self.used_blocks(saves, used)?;
        if self.slipped(Slip::VersionsFirst) {
            versions(&blocks)?;
        }
        if !blocks.iter().all(|block| self.sum_is_right(block)) {
            return Err(Refusal::Sum);
        }
        if self.slipped(Slip::BodiesFirst) {
            self.saves(&blocks)?;
        }
        versions(&blocks)?;
        self.saves(&blocks)
    }

    fn used_blocks<'a>(&self, saves: &'a [u8], used: usize) -> Result<Vec<&'a [u8]>, Refusal> {
        let whole = |bytes: usize| bytes.is_multiple_of(BLOCK);
        let over = saves.len() > MOST && !self.slipped(Slip::OverSize);
        if over || used > saves.len() || !whole(saves.len()) || !whole(used) {
            return Err(Refusal::Sizes);
        }
        let end = match self.slipped(Slip::PastUsed) {
            true => saves.len(),
            false => used,
        };
        Ok(saves[..end].chunks(BLOCK).collect())
    }

    /// Run after run.
    fn saves(&self, blocks: &[&[u8]]) -> Result<Vec<Save>, Refusal> {
        let mut saves: Vec<Save> = Vec::new();
        let mut rest = blocks;
        while let Some(first) = rest.first() {
            let first = Header::of(first);
            let run = rest.get(..first.count.into()).ok_or(Refusal::Header)?;
            let save = self.part(first.version, &self.joined(first, run)?)?;
            if self.finds(&saves, &save.name).is_some() && !self.slipped(Slip::NameTwice) {
                return Err(Refusal::Twice);
            }
            saves.push(save);
            rest = &rest[run.len()..];
        }
        Ok(saves)
    }

    /// The joined body of a run that begins with this header.
    fn joined(&self, first: Header, run: &[&[u8]]) -> Result<Vec<u8>, Refusal> {
        if run.is_empty() {
            return Err(Refusal::Header);
        }
        let mut body = Vec::new();
        for (index, block) in run.iter().enumerate() {
            let header = Header::of(block);
            if !self.header_holds(&header) || !self.follows(first, index, header) {
                return Err(Refusal::Header);
            }
            let used = header.used.into();
            if !self.zeros_hold(block, used) {
                return Err(Refusal::Zero);
            }
            body.extend_from_slice(&block[BODY][..used]);
        }
        Ok(body)
    }

    /// Whether a header is that of this index in the run.
    fn follows(&self, first: Header, index: usize, header: Header) -> bool {
        header.version == first.version
            && (header.count == first.count || self.slipped(Slip::OtherCount))
            && (usize::from(header.index) == index || self.slipped(Slip::OtherIndex))
    }

    /// The save of this name.
    pub fn finds<'a>(&self, saves: &'a [Save], name: &Name) -> Option<&'a Save> {
        let bytes = if self.slipped(Slip::SevenBytes) { 7 } else { 8 };
        saves
            .iter()
            .find(|save| save.name[..bytes] == name[..bytes])
    }
}

fn versions(blocks: &[&[u8]]) -> Result<(), Refusal> {
    let known = |block: &&[u8]| VERSIONS.contains(&Header::of(block).version);
    match blocks.iter().all(known) {
        true => Ok(()),
        false => Err(Refusal::Version),
    }
}
