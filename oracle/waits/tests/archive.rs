//! Random waits on the Rust and on the archive, if one is linked.

#![cfg(archive)]

use waits::archive::Archive;
use waits::compare::compare;

#[test]
fn the_archive_agrees_with_the_rust() {
    let outcome = compare(2, 20_000, &mut Archive::default());
    assert!(outcome.differing.is_none(), "{outcome}");
}
