//! The journals with answers that the repository holds as files.

use journal::{LIMIT, cases, replay};

fn answer(journal: &[u8]) -> String {
    String::from_utf8(replay(journal)).expect("ASCII")
}

#[test]
fn the_day() {
    let journal = include_bytes!("../../../examples/day.journal");
    let expected = include_str!("../../../examples/day.answer");
    assert_eq!(answer(journal), expected);
}

#[test]
fn the_gate_s_run_of_replay() {
    let journal = include_bytes!("../../../crates/replay/stdin");
    let expected = include_str!("../../../crates/replay/stdout");
    assert!(journal == cases::past_the_limit().as_bytes());
    assert!(answer(journal) == expected);
    let (within, past) = journal.split_at(LIMIT);
    assert!(within.ends_with(b"\n") && past == b"1 A\n");
    let lines = within.iter().filter(|&&byte| byte == b'\n').count();
    assert!(expected.ends_with(&format!("E 12 {}\n", lines + 1)));
}
