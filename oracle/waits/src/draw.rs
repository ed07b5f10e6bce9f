//! Draws the numbers of a wait: its start, and turn after turn.

use sample::prng::Prng;
use throttle::plain::Answer;
use throttle::turns::{GRANTED, LONGEST, NEVER, RETRY, Start, Turn};

use crate::track::Track;

const MS: u64 = 1_000_000;

/// What a wait tends to. Shares are in percent.
struct Temper {
    /// Times are mostly below this.
    scale: u64,
    grants: u64,
    zeros: u64,
    pauses: u64,
    resumes: u64,
    drops: u64,
    nevers: u64,
    /// How often a time is aimed at what remains.
    edges: u64,
}

/// Draws one wait.
pub struct Hand {
    temper: Temper,
    track: Track,
    /// The last sleep.
    nap: u64,
    postponed: u64,
    /// Turns until it is dropped.
    left: u64,
}

impl Hand {
    pub fn new(prng: &mut Prng) -> Self {
        let temper = Temper {
            scale: prng.pick(&[3, 10, 10, 1000, 3 * MS, 1000 * MS, LONGEST]),
            grants: prng.pick(&[2, 10, 30, 70]),
            zeros: prng.pick(&[10, 30, 98]),
            pauses: prng.pick(&[0, 10, 30, 60]),
            resumes: prng.pick(&[0, 5, 30, 60]),
            drops: prng.pick(&[0, 0, 2, 10]),
            nevers: prng.pick(&[0, 1, 5]),
            edges: prng.pick(&[3, 15, 40]),
        };
        Self {
            temper,
            track: Track::default(),
            nap: 0,
            postponed: 0,
            left: 1 + prng.below(19),
        }
    }

    pub fn start(&mut self, prng: &mut Prng, now_ms: u64) -> Start {
        let clock = match prng.below(6) {
            0 => 0,
            1 => LONGEST - self.amount(prng),
            2 => prng.next() >> 2,
            _ => self.amount(prng),
        };
        let limited = prng.percent(75);
        let timeout = match prng.below(10) {
            0 => 0,
            1 => LONGEST,
            2..=4 => self.amount(prng),
            _ => self.amount(prng).saturating_mul(1 + prng.below(8)),
        };
        let start = Start {
            now_ms,
            clock,
            limited,
            timeout: timeout.min(LONGEST),
        };
        self.track = Track::new(&start);
        start
    }

    /// Keeps what was slept, so that the next clock may be when it ends.
    pub fn heard(&mut self, answer: &Answer) {
        if let Answer {
            number: 0,
            values: [1 | 2, nap, _],
        } = answer
        {
            self.nap = *nap;
        }
    }

    /// Whether a wait that sleeps is waited for.
    pub fn goes_on(&self, prng: &mut Prng) -> bool {
        self.left > 0 && !prng.percent(self.temper.drops)
    }

    pub fn turn(&mut self, prng: &mut Prng) -> Turn {
        self.left = self.left.saturating_sub(1);
        self.track.clock = self.clock(prng);
        let (kind, duration) = self.reply(prng);
        let pause = self.pause(prng);
        let (epoch_before, epoch_after) = self.epochs(prng);
        let (postponed_before, postponed_after) = self.postponements(prng);
        let turn = Turn {
            clock: self.track.clock,
            epoch_before,
            epoch_after,
            kind,
            duration,
            pause,
            postponed_before,
            postponed_after,
        };
        self.track.follow(&turn);
        turn
    }

    /// A time of the wait's scale; it may be 0.
    fn amount(&self, prng: &mut Prng) -> u64 {
        match prng.below(40) {
            0 => LONGEST,
            1 => prng.next() >> 2,
            2..=5 => prng.near(MS),
            _ => prng.below(self.temper.scale),
        }
    }

    /// Often when a sleep ends, or at the deadline, or when due; at times back.
    fn clock(&self, prng: &mut Prng) -> u64 {
        let Track {
            clock,
            deadline,
            due,
            ..
        } = self.track;
        let later = clock.saturating_add(prng.below(self.temper.scale));
        let next = match prng.below(16) {
            0..=4 => clock.saturating_add(self.nap),
            5..=6 => deadline.map_or(later, |at| prng.near(at)),
            7..=9 => due.map_or(later, |at| prng.near(at)),
            10..=11 => clock,
            12 => clock.saturating_sub(self.amount(prng)),
            13 => far(prng).unwrap_or(later),
            _ => later,
        };
        next.min(LONGEST)
    }

    /// A look's reply; a held check does not read it.
    fn reply(&self, prng: &mut Prng) -> (u64, u64) {
        if self.track.due.is_some() {
            return (prng.pick(&[GRANTED, RETRY, NEVER]), self.span(prng));
        }
        let (kind, zeros) = if prng.percent(self.temper.nevers) {
            (NEVER, 50)
        } else if prng.percent(self.temper.grants) {
            (GRANTED, 40)
        } else {
            (RETRY, self.temper.zeros)
        };
        let zero = prng.percent(zeros);
        (kind, if zero { 0 } else { self.span(prng) })
    }

    fn pause(&self, prng: &mut Prng) -> u64 {
        match prng.percent(self.temper.pauses) {
            true => self.span(prng),
            false => 0,
        }
    }

    /// A time, often as long as what remains or next to it.
    fn span(&self, prng: &mut Prng) -> u64 {
        let remaining = self.track.remaining();
        let span = match remaining {
            Some(remaining) if prng.percent(self.temper.edges) => prng.near(remaining),
            Some(remaining) if remaining > 0 && prng.percent(60) => prng.below(remaining),
            _ => self.amount(prng),
        };
        span.min(LONGEST)
    }

    /// The last turn doesn't look again, so that it can be dropped after it.
    fn epochs(&self, prng: &mut Prng) -> (u64, u64) {
        let before = match prng.below(8) {
            0 => u64::MAX,
            1 => prng.next(),
            _ => prng.below(4),
        };
        let resumed = self.left > 0 && prng.percent(self.temper.resumes);
        let after = match prng.below(4) {
            _ if !resumed => before,
            0 => before.wrapping_sub(1),
            1 => !before,
            _ => before.wrapping_add(1),
        };
        (before, after)
    }

    /// Mostly growing, at times falling.
    fn postponements(&mut self, prng: &mut Prng) -> (u64, u64) {
        let before = self.moved(prng);
        self.postponed = before;
        let after = self.moved(prng);
        self.postponed = after;
        (before, after)
    }

    fn moved(&self, prng: &mut Prng) -> u64 {
        let moved = match prng.below(10) {
            0..=4 => self.postponed,
            5 => self.postponed.saturating_sub(self.amount(prng)),
            _ => self.postponed + self.amount(prng),
        };
        moved.min(LONGEST)
    }
}

/// At times either end, or anywhere.
fn far(prng: &mut Prng) -> Option<u64> {
    match prng.below(10) {
        0 => Some(0),
        1 => Some(LONGEST),
        2 => Some(prng.next() >> 2),
        _ => None,
    }
}
