//! What is malformed, and which line is named.

use journal::{LIMIT, replay};

fn answer(journal: &str) -> String {
    String::from_utf8(replay(journal.as_bytes())).expect("ASCII")
}

#[test]
fn headers() {
    let malformed = [
        "",
        "\n",
        "10 A\n",
        "C 2 1000 1 1",
        "C 2 1000 1 1\r\n",
        " C 2 1000 1 1\n",
        "C 2 1000 1 1 \n",
        "C  2 1000 1 1\n",
        "C\t2 1000 1 1\n",
        "C 2 1000 1\n",
        "C 2 1000 1 1 1\n",
        "c 2 1000 1 1\n",
        "D 2 1000 1 1\n",
        "C 02 1000 1 1\n",
        "C +2 1000 1 1\n",
        "C -2 1000 1 1\n",
        "C 4294967296 1000 1 1\n",
        "C 2 18446744073709551616 1 1\n",
        "C 2 1000 4294967296 1\n",
        "C 2 1000 1 4294967296\n",
        "R 4 3fe000000000000 1 1000 1 1\n",
        "R 4 3fe00000000000000 1 1000 1 1\n",
        "R 4 3FE0000000000000 1 1000 1 1\n",
        "R 4 3fe000000000000g 1 1000 1 1\n",
        "R 4 3fe0000000000000 1 1000 1\n",
        "R 4097 3fe0000000000000 01 1000 1 1\n",
        "W 4097 18446744073709551616 1000 1 1\n",
        "W 3 1000 1 1\n",
    ];
    for header in malformed {
        assert_eq!(answer(header), "E 12 1\n", "{header:?}");
    }
}

#[test]
fn calls() {
    let malformed = [
        "\n",
        "20\n",
        "20 \n",
        "A\n",
        "20 A",
        "20 A \n",
        " 20 A\n",
        "20  A\n",
        "20\tA\n",
        "20 A\r\n",
        "20 a\n",
        "20 B\n",
        "20 A 0 0\n",
        "20 Z 0 0\n",
        "020 A\n",
        "+20 A\n",
        "18446744073709551616 A\n",
        "20 F\n",
        "20 F 0\n",
        "20 F 0 0 0\n",
        "20 F 00 0\n",
        "20 F 18446744073709551616 0\n",
        "20 F 0 2\n",
        "20 F 0 00\n",
        "20 F 0 \n",
        "20 F  0\n",
        "C 2 1000 1 1\n",
    ];
    for line in malformed {
        let journal = format!("C 2 1000 1 1\n10 A\n{line}");
        let expected = "G 0 0 0 0 0 0 0\nE 12 3\n";
        assert_eq!(answer(&journal), expected, "{line:?}");
        let refused = format!("W 4097 10 1000 1 1\n{line}");
        assert_eq!(answer(&refused), "E 2\n", "the header ends the run");
    }
}

#[test]
fn the_greatest_numbers_fit() {
    let (narrow, wide) = (u32::MAX, u64::MAX);
    let ticket = format!("{wide} F {wide} 1\n");
    for header in [
        format!("C {narrow} {wide} {narrow} {narrow}\n"),
        format!("R 4096 ffffffffffffffff {narrow} {wide} {narrow} {narrow}\n"),
        format!("W 4096 {wide} {wide} {narrow} {narrow}\n"),
    ] {
        assert_eq!(answer(&header), "");
        assert_eq!(answer(&(header + &ticket)), "N 0 0 0 0 0\n");
    }
    for header in [
        format!("R {narrow} ffffffffffffffff {narrow} {wide} {narrow} {narrow}\n"),
        format!("W {narrow} {wide} {wide} {narrow} {narrow}\n"),
        "R 4097 0000000000000000 0 0 0 0\n".into(),
        "W 4097 0 0 0 0\n".into(),
    ] {
        assert_eq!(answer(&header), "E 2\n");
    }
}

/// A journal of as many bytes, 16 or more, that ends in a feed.
fn long(bytes: usize) -> String {
    let header = "C 2 1000 1 1\n";
    let rest = bytes - header.len();
    let last = format!("{} A\n", "1".repeat(1 + rest % 4));
    header.to_owned() + &"1 Z\n".repeat(rest / 4 - 1) + &last
}

/// How many lines are answered, and the last line of the answer.
fn ending(journal: &str) -> (usize, String) {
    let answer = answer(journal);
    let last = answer.lines().last().expect("an answer").to_owned();
    (answer.lines().filter(|l| !l.starts_with('E')).count(), last)
}

#[test]
fn the_line_past_the_limit() {
    let whole = long(LIMIT);
    let lines = whole.lines().count();
    assert_eq!((whole.len(), ending(&whole).0), (LIMIT, lines - 1));
    let next = format!("E 12 {}", lines + 1);
    for more in ["1", "\n", "1 A\n", &whole] {
        let journal = whole.clone() + more;
        assert_eq!(ending(&journal), (lines - 1, next.clone()));
    }
    let past = long(LIMIT + 1);
    let lines = past.lines().count();
    let last = (lines - 2, format!("E 12 {lines}"));
    assert_eq!(ending(&past), last, "the feed is past the limit");
    assert_eq!(ending(&past[..LIMIT]), last, "the feed is missing");
}
