//! Random buffers on the archive, if one is linked.

#![cfg(archive)]

use saves::archive::Archive;
use saves::compare::compare;

#[test]
fn the_archive_agrees() {
    let outcome = compare(2, 5000, &mut Archive);
    assert_eq!(outcome.differing, None);
}
