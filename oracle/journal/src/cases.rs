//! The fixed journals.

mod breaker;
mod field;
mod full;
mod ratio;
mod setting;
mod shape;
mod size;

pub use size::past_the_limit;

use crate::container::Case;

/// A name and a journal.
type Named = (String, Vec<u8>);

/// All of them, always in this order.
pub fn all() -> Vec<Case> {
    let named = breaker::journals()
        .chain(ratio::journals())
        .chain(setting::journals())
        .chain(full::journals())
        .chain(field::journals())
        .chain(shape::journals())
        .chain(size::journals());
    named
        .map(|(name, journal)| Case::new(name, journal))
        .collect()
}

fn named(name: impl Into<String>, journal: impl Into<Vec<u8>>) -> Named {
    (name.into(), journal.into())
}
