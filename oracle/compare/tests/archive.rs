//! The program on the archive, if one is linked.

#![cfg(archive)]

use std::process::Command;

fn succeeds(args: &[&str]) {
    let program = env!("CARGO_BIN_EXE_compare");
    let output = Command::new(program).args(args).output().expect("it runs");
    let text = String::from_utf8_lossy(&output.stdout);
    assert!(output.status.success(), "{text}");
}

#[test]
fn the_archive_agrees_with_the_rust() {
    succeeds(&["random", "2", "50000"]);
}

#[test]
fn every_slip_is_found() {
    succeeds(&["slips", "10", "200000"]);
}
