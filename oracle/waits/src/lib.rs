//! Random waits before a breaker, played on the unchanged Rust.

#[cfg(archive)]
pub mod archive;
pub mod compare;
mod draw;
pub mod event;
pub mod lines;
pub mod play;
pub mod tally;
mod track;

use std::io::{self, Write};

use tally::Tally;

/// Breakers are added until there are as many waits.
const WAITS: u64 = 1_500;

/// Writes the sample of a seed.
pub fn write(seed: u64, out: &mut impl Write) -> io::Result<Tally> {
    let mut tally = Tally::default();
    for number in 0.. {
        if tally.waits() >= WAITS {
            break;
        }
        let played = play::play(seed, number);
        tally.note(&played);
        lines::write(out, &played)?;
    }
    Ok(tally)
}
