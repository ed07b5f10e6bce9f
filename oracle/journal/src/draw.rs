//! Random journals: the same for the same seed and number.

mod damage;
mod header;
mod player;

use sample::prng::Prng;

use crate::LIMIT;
use crate::container::Case;
use crate::line::{Act, Header, Line};
use crate::pad::pad;
use crate::replay::Run;
use player::Player;

/// The case of a seed with this number.
pub fn case(seed: u64, number: u64) -> Case {
    Case::new(format!("random_{seed}_{number}"), journal(seed, number))
}

/// Mostly a short one; of 1,000 about 12 are long and 3 meet number 5.
fn journal(seed: u64, number: u64) -> Vec<u8> {
    let mut prng = Prng::new(Prng::new(seed).next() ^ number);
    let mut draft = match prng.below(1000) {
        0..3 => full(&mut prng),
        3..15 => long(&mut prng),
        _ => short(&mut prng),
    };
    if prng.percent(45) {
        for _ in 0..prng.pick(&[1, 1, 1, 2, 3]) {
            damage::damage(&mut prng, &mut draft);
        }
    }
    draft
}

fn short(prng: &mut Prng) -> Vec<u8> {
    let header = header::header(prng);
    let mut draft = Draft::new(prng, &header);
    for _ in 0..prng.pick(&[0, 1, 3, 10, 20, 30, 40, 60]) {
        draft.play(prng);
    }
    draft.text.into_bytes()
}

/// Up to 65,600 bytes, half of the journals around the limit; half end in a feed.
fn long(prng: &mut Prng) -> Vec<u8> {
    let bytes = match prng.below(4) {
        0 => LIMIT as u64 + prng.below(3) - 1,
        1 => LIMIT as u64 - 64 + prng.below(128),
        _ => 1000 + prng.below(LIMIT as u64 - 936),
    };
    let bytes = bytes as usize;
    let header = header::header(prng);
    let mut draft = Draft::new(prng, &header);
    // No line has more than 46 bytes, so 4 or more are left to pad.
    while draft.text.len() + 50 < bytes {
        draft.play(prng);
    }
    if prng.percent(50) {
        pad(&mut draft.text, bytes);
    }
    while draft.text.len() < bytes {
        draft.play(prng);
    }
    draft.text.truncate(bytes);
    draft.text.into_bytes()
}

/// A late failure stays at the front, and the times behind it fill the places.
fn full(prng: &mut Prng) -> Vec<u8> {
    let (header, step) = header::for_full(prng);
    let mut draft = Draft::new(prng, &header);
    draft.fail(99_990 + prng.below(10));
    for place in 1..4093 + prng.below(8) {
        draft.fail(place * step);
    }
    draft.player.set_clock(prng.pick(&[0, 99_990, 4090 * step]));
    for _ in 0..prng.below(60) {
        draft.play(prng);
    }
    draft.text.into_bytes()
}

/// A journal as it grows, with the breaker that has heard it so far.
struct Draft {
    text: String,
    run: Run,
    player: Player,
}

impl Draft {
    /// Another header is played where number 2 refuses this one.
    fn new(prng: &mut Prng, header: &Header) -> Self {
        let run = Run::new(header).or_else(|| Run::new(&header::PLAIN));
        Self {
            text: format!("{header}\n"),
            run: run.expect("number 2 knows no limit of n"),
            player: Player::new(prng),
        }
    }

    fn play(&mut self, prng: &mut Prng) {
        let line = self.player.line(prng, &self.run);
        self.put(&line);
    }

    /// A failure of the first generation.
    fn fail(&mut self, reading: u64) {
        let act = Act::Failure(player::FIRST);
        self.put(&Line { reading, act });
    }

    fn put(&mut self, line: &Line) {
        self.text += &format!("{line}\n");
        let answer = self.run.step(line);
        self.player.heard(line, &answer);
    }
}
