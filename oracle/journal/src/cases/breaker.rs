//! What a breaker does: each policy, each transition, each kind of ticket.

use super::{Named, named};

pub fn journals() -> impl Iterator<Item = Named> {
    let fixed = JOURNALS.iter();
    fixed.map(|&(name, journal)| named(name, journal))
}

/// Document 01's case.
pub const DOCUMENT: &str =
    "C 2 1000 1 1\n10 A\n20 F 0 0\n30 F 0 0\n500 A\n1030 A\n1040 S 1 1\n1050 S 2 1\n";

const JOURNALS: [(&str, &str); 30] = [
    ("document", DOCUMENT),
    // Trips, half-open with two trials, reopens, closes.
    (
        "consecutive",
        "C 3 1000 2 2\n1 A\n2 F 0 0\n3 F 0 0\n4 S 0 0\n5 F 0 0\n6 F 0 0\n7 F 0 0\n8 A\n1006 A\n1007 A\n1008 A\n1009 A\n1010 S 2 1\n1011 A\n1012 F 2 1\n1013 A\n2012 A\n2013 A\n2014 S 4 1\n2015 S 4 1\n2016 A\n2017 F 5 0\n2018 F 5 0\n2019 F 5 0\n2020 A\n",
    ),
    (
        "ratio",
        "R 4 3fe0000000000000 2 500 1 1\n1 S 0 0\n2 F 0 0\n3 A\n502 A\n503 A\n504 F 2 1\n505 A\n1004 A\n1005 S 4 1\n1006 S 5 0\n1007 S 5 0\n1008 S 5 0\n1009 F 5 0\n1010 F 5 0\n1011 A\n",
    ),
    (
        "windowed",
        "W 3 100 50 3 2\n10 F 0 0\n60 F 0 0\n111 F 0 0\n112 F 0 0\n113 A\n162 A\n163 A\n164 A\n165 A\n166 S 2 1\n167 X 2 1\n168 S 2 1\n169 A\n170 F 3 0\n171 F 3 0\n172 F 3 0\n222 A\n223 F 4 1\n224 F 5 1\n273 A\n",
    ),
    // P5 to P7, P9 to P11 of document 01.
    (
        "p5_at_open_until",
        "C 1 1000 1 1\n30 F 0 0\n1029 A\n1030 A\n",
    ),
    (
        "p6_trips_at_the_sixth",
        "R 4 3fe0000000000000 4 1000 1 1\n1 F 0 0\n2 S 0 0\n3 F 0 0\n4 S 0 0\n5 S 0 0\n6 F 0 0\n",
    ),
    (
        "p7_time_at_the_cutoff",
        "W 2 100 1000 1 1\n0 F 0 0\n100 F 0 0\n",
    ),
    (
        "p7_time_below_the_cutoff",
        "W 2 100 1000 1 1\n0 F 0 0\n101 F 0 0\n",
    ),
    (
        "p9_open_until_capped",
        "C 1 1 1 1\n18446744073709551615 F 0 0\n18446744073709551614 A\n18446744073709551615 A\n",
    ),
    (
        "p10_reset_of_a_fresh_one",
        "C 1 1000 1 1\n0 Z\n0 F 0 0\n0 A\n0 F 1 0\n",
    ),
    (
        "p11_both_required_success_first",
        "C 1 0 2 2\n0 F 0 0\n0 A\n0 A\n0 S 2 1\n0 F 2 1\n",
    ),
    (
        "p11_both_required_failure_first",
        "C 1 0 2 2\n0 F 0 0\n0 A\n0 A\n0 F 2 1\n0 S 2 1\n",
    ),
    (
        "p11_one_required_success_first",
        "C 1 0 2 1\n0 F 0 0\n0 A\n0 A\n0 S 2 1\n0 F 2 1\n",
    ),
    (
        "p11_one_required_failure_first",
        "C 1 0 2 1\n0 F 0 0\n0 A\n0 A\n0 F 2 1\n0 S 2 1\n",
    ),
    // Generations before, after and far from the present one, in each state.
    (
        "foreign_tickets_closed",
        "C 1 1000 1 1\n1 Z\n2 Z\n3 F 1 0\n4 F 3 0\n5 F 0 1\n6 F 18446744073709551615 0\n7 S 1 1\n8 X 1 1\n9 F 2 0\n",
    ),
    (
        "foreign_tickets_open",
        "C 1 1000 1 1\n1 F 0 0\n2 F 0 0\n3 S 0 0\n4 S 2 1\n5 F 2 1\n6 X 2 1\n7 S 1 0\n8 F 1 1\n9 X 1 1\n10 F 18446744073709551615 1\n11 A\n",
    ),
    (
        "foreign_tickets_half_open",
        "C 1 1000 2 1\n1 F 0 0\n1001 A\n1002 A\n1003 F 0 0\n1004 S 1 1\n1005 F 1 1\n1006 X 1 1\n1007 S 3 1\n1008 F 3 1\n1009 X 3 1\n1010 X 18446744073709551615 1\n1011 F 4294967298 1\n1012 A\n1013 S 2 1\n",
    ),
    // The probe flag counts in HalfOpen alone.
    (
        "probe_flag_closed",
        "C 2 1000 1 1\n1 F 0 1\n2 S 0 1\n3 F 0 1\n4 X 0 1\n5 F 0 1\n",
    ),
    (
        "probe_flag_half_open",
        "C 1 0 3 3\n0 F 0 0\n0 A\n0 A\n0 S 2 0\n0 X 2 0\n0 X 2 1\n0 S 2 1\n0 X 2 1\n0 X 2 1\n0 S 2 1\n0 A\n",
    ),
    (
        "probe_flag_failure",
        "C 1 5 3 3\n0 F 0 0\n5 A\n6 A\n7 F 2 0\n12 A\n",
    ),
    (
        "successes_without_a_probe",
        "C 1 0 1 1\n0 F 0 0\n0 A\n0 S 2 0\n0 A\n",
    ),
    // Readings that go back.
    (
        "back_while_open",
        "C 1 100 1 1\n500 F 0 0\n100 A\n0 A\n599 A\n600 A\n0 F 2 1\n99 A\n100 A\n",
    ),
    (
        "back_before_the_period",
        "W 2 100 10 1 1\n50 F 0 0\n10 S 0 0\n0 F 0 0\n",
    ),
    (
        "later_time_keeps_the_front",
        "W 3 100 10 1 1\n1000 F 0 0\n10 F 0 0\n500 F 0 0\n1001 F 0 0\n1002 F 0 0\n",
    ),
    // 10 stays behind 1000 and counts again when the reading goes back.
    (
        "older_time_behind_the_front",
        "W 3 100 10 1 1\n1000 F 0 0\n10 F 0 0\n500 S 0 0\n20 F 0 0\n",
    ),
    // A success evicts: the time 0 is gone when the reading goes back to 50.
    (
        "success_evicts",
        "W 2 100 10 1 1\n0 F 0 0\n101 S 0 0\n50 F 0 0\n60 F 0 0\n",
    ),
    (
        "resets",
        "C 1 1000 2 2\n1 Z\n2 F 1 0\n3 Z\n4 A\n5 F 3 0\n1005 A\n1006 S 5 1\n1007 A\n1008 Z\n1009 S 5 1\n1010 F 6 0\n",
    ),
    // A failure after closing and one after a reset would trip with those before.
    (
        "emptied_consecutive",
        "C 2 0 1 1\n1 F 0 0\n2 F 0 0\n3 A\n4 S 2 1\n5 F 3 0\n6 Z\n7 F 4 0\n8 F 4 0\n",
    ),
    (
        "emptied_ratio",
        "R 4 3fe0000000000000 2 0 1 1\n1 F 0 0\n2 F 0 0\n3 A\n4 S 2 1\n5 F 3 0\n6 Z\n7 F 4 0\n8 F 4 0\n",
    ),
    (
        "emptied_windowed",
        "W 2 9 0 1 1\n1 F 0 0\n2 F 0 0\n3 A\n4 S 2 1\n5 F 3 0\n6 Z\n7 F 4 0\n8 F 4 0\n",
    ),
];
