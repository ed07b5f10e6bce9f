//! The archive journal of document 01, answered by the unchanged Rust.

pub mod cases;
pub mod compare;
pub mod container;
pub mod draw;
mod fields;
pub mod line;
mod pad;
mod replay;
pub mod tally;

pub use replay::{LIMIT, Run, replay};
