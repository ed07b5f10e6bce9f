//! Settings at their limits and such as are normalised.

use super::{Named, named};

pub fn journals() -> impl Iterator<Item = Named> {
    let short = HEADERS
        .iter()
        .map(|&(name, header)| named(format!("setting_{name}"), format!("{header}\n{CALLS}")));
    short.chain([
        named("window_4096_whole", whole_window()),
        named("window_4096_moves", moving_window()),
        named("failures_4096_trips", many_failures()),
    ])
}

const CALLS: &str = "1 A\n2 F 0 0\n3 F 0 0\n4 F 0 0\n5 A\n1003 A\n1004 A\n1005 A\n1006 A\n1007 S 2 1\n1008 S 2 1\n1009 S 2 1\n1010 A\n";

const HEADERS: [(&str, &str); 26] = [
    ("n_0", "C 0 1000 1 1"),
    ("n_1", "C 1 1000 1 1"),
    ("window_0", "R 0 3fe0000000000000 1 1000 1 1"),
    ("window_0_min_9", "R 0 7ff8000000000000 9 1000 1 1"),
    ("window_1", "R 1 3fe0000000000000 1 1000 1 1"),
    ("window_4096", "R 4096 3fe0000000000000 1 1000 1 1"),
    ("window_4097", "R 4097 3fe0000000000000 1 1000 1 1"),
    ("window_65536", "R 65536 3fe0000000000000 1 1000 1 1"),
    (
        "window_greatest",
        "R 4294967295 3fe0000000000000 1 1000 1 1",
    ),
    ("min_0", "R 3 3fe0000000000000 0 1000 1 1"),
    ("min_above_window", "R 2 3fe0000000000000 3 1000 1 1"),
    ("min_greatest", "R 3 3fe0000000000000 4294967295 1000 1 1"),
    ("failures_0", "W 0 100 1000 1 1"),
    ("failures_1", "W 1 100 1000 1 1"),
    ("failures_4096", "W 4096 100 1000 1 1"),
    ("failures_4097", "W 4097 100 1000 1 1"),
    ("failures_greatest", "W 4294967295 100 1000 1 1"),
    ("period_0", "W 2 0 1000 1 1"),
    ("period_greatest", "W 2 18446744073709551615 1000 1 1"),
    ("cooldown_0", "C 1 0 1 1"),
    ("cooldown_greatest", "C 1 18446744073709551615 1 1"),
    ("trials_0", "C 1 1000 0 1"),
    ("trials_0_required_0", "C 1 1000 0 0"),
    ("required_0", "C 1 1000 3 0"),
    ("required_above_trials", "C 1 1000 3 9"),
    ("trials_greatest", "C 1 1000 4294967295 3"),
];

/// 2,048 good and 2,048 failed: half of a whole window, at the last call.
fn whole_window() -> String {
    let good = "1 S 0 0\n".repeat(2048);
    let failed = "2 F 0 0\n".repeat(2048);
    format!("R 4096 3fe0000000000000 4096 1000 1 1\n{good}{failed}3 A\n")
}

/// The window of 4,096 moves on by 1,000 before the failures are a tenth.
fn moving_window() -> String {
    let good = "1 S 0 0\n".repeat(4686);
    let failed = "2 F 0 0\n".repeat(410);
    format!("R 4096 3fb999999999999a 4096 1000 1 1\n{good}{failed}3 A\n")
}

/// 4,096 failures within the period: the last one trips, as there is a place for it.
fn many_failures() -> String {
    let failed = "7 F 0 0\n".repeat(4096);
    format!("W 4096 0 1000 1 1\n{failed}8 A\n")
}
