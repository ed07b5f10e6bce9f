//! Random waits on the Rust, held against document 01's rules.

mod model;

use std::env;

use waits::compare::compare;

/// At least so many waits; WAITS_COUNT in the environment asks for another number.
const COUNT: u64 = 20_000;

#[test]
fn the_rust_agrees_with_document_01() {
    let count = env::var("WAITS_COUNT").map_or(COUNT, |text| text.parse().expect("a number"));
    let outcome = compare(1, count, &mut model::Model::default());
    print!("{outcome}");
    assert!(outcome.differing.is_none(), "{outcome}");
    assert_eq!(outcome.tally.missing(), Vec::<String>::new());
}
