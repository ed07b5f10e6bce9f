//! Number 5: all places hold times that the eviction leaves.

use super::{Named, named};

pub fn journals() -> impl Iterator<Item = Named> {
    let smallest = failures("W 3 10 1000 1 1", 99_999, (1..=4096).map(|i| 20 * i));
    let goes_on = smallest.clone() + GOES_ON;
    let hides = failures("W 4096 0 1 1 1", 9999, (1..=4095).chain([0]));
    let hides_on = hides.clone() + "0 A\n1 S 0 0\n0 F 0 0\n10000 S 0 0\n0 F 0 0\n0 Z\n0 F 1 0\n";
    [
        named("full", smallest),
        named("full_goes_on", goes_on),
        named("full_hides_a_trip", hides),
        named("full_hides_a_trip_goes_on", hides_on),
    ]
    .into_iter()
}

/// Refused again, stale, admitted, aborted, a success; then the eviction takes
/// the front and all behind it, and failures are counted as before.
const GOES_ON: &str = "0 F 0 0\n18 F 0 1\n81920 F 1 0\n81920 F 18446744073709551615 1\n81920 A\n81920 X 0 1\n81920 S 0 0\n81920 F 0 0\n100009 F 0 0\n100010 F 0 0\n100011 F 0 0\n100012 F 0 0\n100013 A\n";

/// Failures at `first`, which stays at the front, and at the others.
fn failures(header: &str, first: u64, others: impl Iterator<Item = u64>) -> String {
    let readings = [first].into_iter().chain(others);
    let lines: String = readings.map(|now| format!("{now} F 0 0\n")).collect();
    format!("{header}\n{lines}")
}
