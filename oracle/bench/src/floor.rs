//! What reading and moving places takes on this machine, with nothing else done.

use std::hint::black_box;

use throttle::scope::PLACES;

use crate::timer::least;

const RUNS: u32 = 2000;
const TIMES: u32 = 64;

/// The bytes that a call can't do without, counted in places.
#[derive(Clone, Copy, Default)]
pub struct Needs {
    /// Read, for the soundness test.
    pub tested: usize,
    /// Read once more, to count them.
    pub counted: usize,
    /// Moved down by one.
    pub moved: usize,
}

/// Nanoseconds for that many places, each need measured on its own.
pub fn floor(needs: Needs) -> f64 {
    read(needs.tested) + read(needs.counted) + moved(needs.moved)
}

pub fn read(places: usize) -> f64 {
    over_places(places, |list| {
        black_box(all_bits(black_box(list)));
    })
}

pub fn moved(places: usize) -> f64 {
    over_places(places, |list| {
        let list = black_box(list);
        list.copy_within(1.., 0);
    })
}

fn over_places(places: usize, work: impl Fn(&mut [u64])) -> f64 {
    if places == 0 {
        return 0.0;
    }
    let mut list = vec![1_u64; PLACES];
    let timed = |(): &mut ()| {
        for _ in 0..TIMES {
            work(&mut list[..places]);
        }
    };
    least(RUNS, || (), timed) / f64::from(TIMES)
}

/// The or of all places, 128 bytes a turn: where the loop lies doesn't matter then.
#[inline(never)]
fn all_bits(list: &[u64]) -> u64 {
    let (turns, rest) = list.as_chunks::<16>();
    let mut bits = [0; 16];
    for turn in turns {
        for (bits, place) in bits.iter_mut().zip(turn) {
            *bits |= place;
        }
    }
    bits.iter().chain(rest).fold(0, |bits, place| bits | place)
}
