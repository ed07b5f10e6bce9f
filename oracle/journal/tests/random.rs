//! Random journals, and running a program on them.

use std::path::Path;

use journal::compare::{Outcome, compare};
use journal::container::Case;
use journal::tally::Tally;
use journal::{LIMIT, cases, draw};

fn random(seed: u64, count: u64) -> impl Iterator<Item = Case> {
    (0..count).map(move |number| draw::case(seed, number))
}

#[test]
fn a_seed_gives_the_same_journals_and_some_of_everything() {
    let mut tally = Tally::default();
    for (case, again) in random(3, 400).zip(random(3, 400)) {
        assert!(case.journal == again.journal, "{}", case.name);
        tally.note(&case);
    }
    assert_eq!(tally.missing(), Vec::<&str>::new());
    let others = random(1, 50).zip(random(2, 50));
    assert!(others.filter(|(a, b)| a.journal != b.journal).count() > 45);
}

/// Differing journals, and such as were read past the limit.
fn wrong(cases: impl Iterator<Item = Case>, command: &[&str]) -> (u64, u64) {
    let folder = Path::new(env!("CARGO_TARGET_TMPDIR")).join("differing");
    let outcome = compare(cases, command, &folder).expect("a program that runs");
    let Outcome {
        differing, read_on, ..
    } = outcome;
    (differing, read_on)
}

fn sizes() -> impl Iterator<Item = Case> {
    let named = |case: &Case| case.name.starts_with("size_");
    cases::all().into_iter().filter(named)
}

#[test]
fn the_replay_of_this_program_does_not_differ() {
    let own = [env!("CARGO_BIN_EXE_journal"), "replay"];
    assert_eq!(wrong(random(3, 100).chain(sizes()), &own), (0, 0));
}

#[test]
fn a_wrong_program_differs() {
    assert_eq!(wrong(random(3, 20), &["cat"]), (20, 0));
    let past = sizes().filter(|case| case.journal.len() > LIMIT).count() as u64;
    assert_eq!(wrong(sizes(), &["cat"]), (sizes().count() as u64, past));
    assert_eq!(wrong(random(3, 20), &["true"]).1, 0);
}
