//! Saves of a breaker in blocks of 512 bytes, from document 02 (W-201) and document 01's record
//! alone: what the calls tell and leave.

#[cfg(archive)]
pub mod archive;
pub mod block;
pub mod body;
mod calls;
pub mod compare;
pub mod draw;
pub mod lines;
mod reader;
pub mod record;
pub mod refusal;
pub mod setting;
pub mod slip;
pub mod tally;
pub mod world;

pub use reader::MOST;

use slip::Slip;

/// The calls by the documents, with at most one slip.
#[derive(Clone, Copy, Debug)]
pub struct Model {
    pub slip: Option<Slip>,
}

/// By the documents.
pub const RIGHT: Model = Model { slip: None };

impl Model {
    fn slipped(&self, slip: Slip) -> bool {
        self.slip == Some(slip)
    }
}
