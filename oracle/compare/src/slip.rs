//! Slips on the archive's side, to see that the comparison finds them.

use archive::ffi::{Breaker, Preview, Shared};
use archive::{Handing, Side};
use throttle::plain::{Answer, CLOSED, Call, End, HALF_OPEN, OPEN, RATIO, WINDOWED};
use throttle::scope::PLACES;

pub const SLIPS: [&str; 13] = [
    "open-until compared with >",
    "a success evicts a time equal to the cutoff",
    "exact fractions compared",
    "generation 2^64 - 1 moves to 1",
    "a manual success without a trait probe takes from inflight",
    "a full list that loses one time leaves its last place",
    "number 5 one time early",
    "the run of failures wraps",
    "trait probes wrap",
    "still_admits refuses its own generation in Open",
    "a flag goes by its lowest bit",
    "a preview's length leaves out what would be evicted",
    "a preview makes the record what it would be",
];

/// A place in `SLIPS` from 1 on; 0 is none.
#[derive(Clone, Copy)]
pub struct Slip(pub u64);

impl Slip {
    /// The call on the archive, with the slip.
    pub fn hand(self, ours: &mut Side, now: u64, call: &Call, how: &Handing) -> Answer {
        if self.0 == 0 {
            return ours.hand(now, call, how);
        }
        let before = ours.breaker;
        let last = ours.list[PLACES - 1];
        let now = self.reading(ours, now, call);
        let lowest = Handing {
            yes: how.yes & 1,
            ..*how
        };
        let how = if self.0 == 11 { &lowest } else { how };
        let answer = ours.hand(now, call, how);
        match self.0 {
            6 if before.shared.len == 4096 && ours.breaker.shared.len == 4095 => {
                ours.list[PLACES - 1] = last;
                answer
            }
            _ => self.told(before, ours, now, call, answer),
        }
    }

    /// A preview on the archive, with the slip.
    pub fn preview(self, ours: &mut Side, now: u64, call: &Call, how: &Handing) -> Preview {
        let mut preview = ours.preview(now, call, how);
        let Breaker { config, shared } = &ours.breaker;
        let moved = preview.breaker.shared != *shared;
        match self.0 {
            12 if moved && config.kind == WINDOWED && shared.state == CLOSED => {
                preview.len = shared.len + u32::from(failed(call));
            }
            13 => ours.breaker = preview.breaker,
            _ => {}
        }
        preview
    }

    fn reading(self, ours: &Side, now: u64, call: &Call) -> u64 {
        let Breaker { config, shared } = &ours.breaker;
        let due = shared.state == OPEN && now == shared.open_until && admits(call);
        let cutoff = now.checked_sub(config.period_ms);
        let listed = config.kind == WINDOWED && shared.state == CLOSED && shared.len > 0;
        let front = listed && cutoff == Some(ours.list[0]) && succeeds(call);
        match self.0 {
            1 if due => now.saturating_sub(1),
            2 if front => now.saturating_add(1),
            _ => now,
        }
    }

    fn told(self, old: Breaker, ours: &mut Side, now: u64, call: &Call, told: Answer) -> Answer {
        let exact = self.0 == 3 && tripped(&old, &ours.breaker) && below_ratio(ours);
        let (was, is) = (&old.shared, &mut ours.breaker.shared);
        let more_out = is.counts.inflight > was.counts.inflight;
        match self.0 {
            3 if exact => undo_trip(was, is),
            4 if was.generation == u64::MAX && is.generation == 0 => is.generation = 1,
            5 if manual_success(call) && was.counts.trait_probes == 0 && is.state == HALF_OPEN => {
                is.counts.inflight = is.counts.inflight.saturating_sub(1);
            }
            7 if old.config.kind == WINDOWED && was.len == 4095 && is.len == 4096 => {
                ours.list[PLACES - 1] = 0;
                ours.breaker.shared = *was;
                return Answer::FULL;
            }
            8 if was.run == u32::MAX && is.run == u32::MAX && failed(call) => is.run = 0,
            9 if was.counts.trait_probes == u32::MAX && more_out => is.counts.trait_probes = 0,
            10 if was.state == OPEN && still(call) && told.number == 0 => {
                return Answer::shed(was.open_until.saturating_sub(now));
            }
            _ => {}
        }
        told
    }
}

fn admits(call: &Call) -> bool {
    matches!(call.numbers().0, 1 | 8 | 11 | 12)
}

fn still(call: &Call) -> bool {
    matches!(call, Call::StillAdmits { .. })
}

fn manual_success(call: &Call) -> bool {
    matches!(call, Call::Record { success: true })
}

fn succeeds(call: &Call) -> bool {
    let end = End::Success;
    matches!(call, Call::Settle { success: true, .. })
        || matches!(call, Call::Permit { end: e, .. } if *e == end)
        || manual_success(call)
}

fn failed(call: &Call) -> bool {
    matches!(
        call,
        Call::Record { success: false } | Call::Settle { success: false, .. }
    )
}

fn tripped(old: &Breaker, new: &Breaker) -> bool {
    let closed = old.shared.state == CLOSED;
    closed && new.shared.state == OPEN && old.config.kind == RATIO
}

/// Whether the exact quotient of the list is below the ratio.
fn below_ratio(ours: &Side) -> bool {
    let len = ours.breaker.shared.len;
    let failed: u64 = ours.list[..len as usize].iter().sum();
    let ratio = f64::from_bits(ours.breaker.config.ratio_bits);
    ratio.mul_add(f64::from(len), -(failed as f64)) > 0.0
}

fn undo_trip(was: &Shared, is: &mut Shared) {
    is.state = CLOSED;
    is.generation = was.generation;
    is.open_until = was.open_until;
}
