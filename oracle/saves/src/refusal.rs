//! Why a call is refused. Several reasons share a number.

#[derive(Clone, Copy, Debug, PartialEq, Eq)]
pub enum Refusal {
    Places,
    Unsound,
    Kind,
    Nanos,
    Limit,
    Sizes,
    Sum,
    Version,
    Header,
    Zero,
    Body,
    Saved,
    Twice,
    Name,
    Taken,
    Absent,
    Room,
}

/// Each with its number, in the order of the tests.
pub const REASONS: [(Refusal, u64, &str); 17] = [
    (Refusal::Places, 3, "places"),
    (Refusal::Unsound, 4, "not sound"),
    (Refusal::Kind, 4, "unknown policy"),
    (Refusal::Sizes, 13, "sizes"),
    (Refusal::Sum, 13, "sum"),
    (Refusal::Version, 14, "version"),
    (Refusal::Header, 13, "header"),
    (Refusal::Zero, 13, "zero byte"),
    (Refusal::Body, 13, "body"),
    (Refusal::Saved, 13, "saved record"),
    (Refusal::Twice, 13, "name twice"),
    (Refusal::Name, 15, "name asked"),
    (Refusal::Taken, 15, "already there"),
    (Refusal::Absent, 15, "absent"),
    (Refusal::Room, 15, "doesn't fit"),
    (Refusal::Nanos, 1, "nanoseconds"),
    (Refusal::Limit, 2, "limit"),
];

impl Refusal {
    /// Its place in `REASONS`.
    pub fn place(self) -> usize {
        let place = REASONS.iter().position(|&(reason, ..)| reason == self);
        place.expect("every reason is listed")
    }

    pub fn number(self) -> u64 {
        REASONS[self.place()].1
    }
}
