//! Around the limit of 65,536 bytes.

use super::breaker::DOCUMENT;
use super::{Named, named};
use crate::LIMIT;
use crate::pad::pad;

pub fn journals() -> impl Iterator<Item = Named> {
    let whole = filled(LIMIT);
    let malformed = whole.replacen("2 S 9 1\n", "2 S 9 2\n", 1);
    [
        named("size_at_the_limit", whole.clone()),
        named("size_feed_past_the_limit", filled(LIMIT + 1)),
        named("size_digit_past_the_limit", whole.clone() + "1"),
        named("size_empty_line_past_the_limit", whole.clone() + "\n"),
        named("size_no_feed_at_the_limit", &filled(LIMIT + 1)[..LIMIT]),
        named("size_line_across_the_limit", filled(LIMIT + 2)),
        named("size_much_longer", filled(LIMIT + 30_000)),
        named("size_malformed_before_the_limit", malformed + "1 A\n"),
        named("size_refused_header", format!("W 4097 1 1 1 1\n{whole}")),
        named("size_one_line", "1".repeat(LIMIT + 1)),
        named("size_feeds", "\n".repeat(LIMIT + 1)),
        named("size_long_answer", long_answer()),
    ]
    .into_iter()
}

/// Document 01's case, filled to the limit, and a line more.
pub fn past_the_limit() -> String {
    filled_from(DOCUMENT, LIMIT) + "1 A\n"
}

fn filled(bytes: usize) -> String {
    filled_from("C 2 1000 1 1\n", bytes)
}

/// A journal of so many bytes, its last a feed: stale tickets, short answers.
fn filled_from(start: &str, bytes: usize) -> String {
    let mut journal = start.to_owned();
    let stale = "18446744073709551615 S 18446744073709551615 1\n";
    while bytes - journal.len() > stale.len() + 30 {
        journal += stale;
    }
    journal += "2 S 9 1\n";
    pad(&mut journal, bytes);
    journal
}

/// Shortest lines, each with two numbers of 20 digits in its answer and a
/// generation of three.
fn long_answer() -> String {
    let header = "C 1 18446744073709551615 1 1\n0 F 0 0\n";
    let opens = "0 Z\n".repeat(98) + "0 F 99 0\n";
    let shed = "0 A\n".repeat((LIMIT - header.len() - opens.len()) / 4);
    format!("{header}{opens}{shed}")
}
