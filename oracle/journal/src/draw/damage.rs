//! Damages a journal. What comes out may be malformed, or another journal.

use std::ops::Range;

use sample::prng::Prng;

/// Bytes that journals are made of, and their neighbours.
const BYTES: &[u8] = b"0123456789 \n\r\tabcdefgACDFGRSWXZ+-./:@`\0\xff";

/// Lines that no journal has after its header.
const MALFORMED: [&str; 12] = [
    "",
    " ",
    "A",
    "10",
    "10 ",
    "10 a",
    "10 S 0",
    "10 F 0 2",
    "10 X 00 1",
    "010 A",
    "10 Z\r",
    "C 2 1000 1 1",
];

/// Numbers at the edges of the widths, some of them malformed.
const EDGES: [&str; 14] = [
    "0",
    "1",
    "4095",
    "4096",
    "4097",
    "4294967295",
    "4294967296",
    "9223372036854775808",
    "18446744073709551615",
    "18446744073709551616",
    "18446744073709551617",
    "99999999999999999999",
    "00",
    "-1",
];

/// One damage, at a place drawn from all bytes or, one time in five, from the first 40.
pub fn damage(prng: &mut Prng, journal: &mut Vec<u8>) {
    if journal.is_empty() {
        return journal.extend(drawn_byte(prng));
    }
    let reach = if prng.percent(20) { 40 } else { usize::MAX };
    let at = prng.below(journal.len().min(reach) as u64) as usize;
    match prng.below(14) {
        0 => journal[at] ^= 1 << prng.below(8),
        1 => journal[at] = prng.next() as u8,
        2 => journal[at] = prng.pick(BYTES),
        3 => journal.insert(at, prng.pick(BYTES)),
        4 => drop(journal.remove(at)),
        5 => duplicate(prng, journal, at),
        6 => swap_digits(journal, at),
        7 => journal.truncate(at),
        8 => drop(journal.pop()),
        9 => journal.extend(drawn_byte(prng)),
        10 => put_line(journal, at, prng.pick(&MALFORMED)),
        11 => move_line(journal, at),
        _ => put_edge(prng, journal, at),
    }
}

fn drawn_byte(prng: &mut Prng) -> [u8; 1] {
    [prng.pick(b"\n\n\n 0A\r\0")]
}

/// Repeats up to 20 bytes.
fn duplicate(prng: &mut Prng, journal: &mut Vec<u8>, at: usize) {
    let end = journal.len().min(at + 1 + prng.below(20) as usize);
    let span = journal[at..end].to_vec();
    journal.splice(at..at, span);
}

/// Swaps the first two digits side by side, from there on.
fn swap_digits(journal: &mut [u8], at: usize) {
    let digits = |pair: &[u8]| pair.iter().all(u8::is_ascii_digit);
    if let Some(first) = journal[at..].windows(2).position(digits) {
        journal.swap(at + first, at + first + 1);
    }
}

/// Puts a line before the one that holds this byte.
fn put_line(journal: &mut Vec<u8>, at: usize, line: &str) {
    let start = line_at(journal, at).start;
    journal.splice(start..start, format!("{line}\n").bytes());
}

/// Takes a line out and puts it at the end.
fn move_line(journal: &mut Vec<u8>, at: usize) {
    let range = line_at(journal, at);
    let line: Vec<u8> = journal.drain(range).collect();
    journal.extend(line);
}

/// The line that holds this byte, with its feed.
fn line_at(journal: &[u8], at: usize) -> Range<usize> {
    let before = journal[..at].iter().rposition(|&byte| byte == b'\n');
    let feed = journal[at..].iter().position(|&byte| byte == b'\n');
    before.map_or(0, |feed| feed + 1)..feed.map_or(journal.len(), |feed| at + feed + 1)
}

/// Puts an edge in place of the first number from there on.
fn put_edge(prng: &mut Prng, journal: &mut Vec<u8>, at: usize) {
    let is_digit = |byte: &u8| byte.is_ascii_digit();
    let Some(first) = journal[at..].iter().position(is_digit) else {
        return;
    };
    let start = at + first;
    let digits = journal[start..].iter().take_while(|byte| is_digit(byte));
    let end = start + digits.count();
    journal.splice(start..end, prng.pick(&EDGES).bytes());
}
