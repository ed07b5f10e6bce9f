//! The fixed journals and the container.

use std::collections::HashSet;
use std::sync::LazyLock;

use journal::cases;
use journal::container::Case;

static CASES: LazyLock<Vec<Case>> = LazyLock::new(cases::all);

fn container(cases: &[Case]) -> Vec<u8> {
    let mut out = Vec::new();
    for case in cases {
        case.write(&mut out).expect("a Vec takes any bytes");
    }
    out
}

/// Takes the next case of a container.
fn take(rest: &mut &[u8]) -> (String, Vec<u8>, Vec<u8>) {
    let feed = rest.iter().position(|&b| b == b'\n').expect("a feed");
    let head = str::from_utf8(&rest[..feed]).expect("ASCII");
    let [letter, name, n, m] = head.split(' ').collect::<Vec<_>>()[..] else {
        panic!("{head:?} is no head of a case");
    };
    assert_eq!(letter, "J");
    let (journal, others) = rest[feed + 1..].split_at(n.parse().expect(n));
    let (answer, others) = others.split_at(m.parse().expect(m));
    let case = (name.to_owned(), journal.to_vec(), answer.to_vec());
    *rest = others;
    case
}

#[test]
fn the_container_is_small_always_the_same_and_reads_back() {
    let bytes = container(&CASES);
    assert!(bytes.len() < 2_700_000, "{} bytes", bytes.len());
    assert!(bytes == container(&cases::all()));
    let mut rest = &bytes[..];
    for case in &*CASES {
        let (name, journal, answer) = take(&mut rest);
        assert_eq!(name, case.name);
        assert!(journal == case.journal && answer == case.answer);
    }
    assert!(rest.is_empty());
}

#[test]
fn names() {
    let names: HashSet<&str> = CASES.iter().map(|case| &*case.name).collect();
    assert_eq!(names.len(), CASES.len());
    let plain = |b: u8| b.is_ascii_lowercase() || b.is_ascii_digit() || b == b'_';
    assert!(names.iter().all(|name| name.bytes().all(plain)));
}

fn case(name: &str) -> &'static Case {
    CASES.iter().find(|case| case.name == name).expect(name)
}

fn answer(case: &'static Case) -> &'static str {
    str::from_utf8(&case.answer).expect("ASCII")
}

#[test]
fn bent_lines_and_headers_are_malformed() {
    for case in &*CASES {
        let last = answer(case).lines().last().unwrap_or_default();
        if case.name.starts_with("line_") {
            assert!(last.starts_with("E 12 "), "{}", case.name);
        }
        if case.name.starts_with("header_c_") && case.name != "header_c_empty_line_after" {
            assert_eq!(answer(case), "E 12 1\n", "{}", case.name);
        }
    }
}

#[test]
fn a_third_is_rounded_once() {
    let third_call = |name| answer(case(name)).lines().nth(2);
    assert_eq!(third_call("quotient_1_of_3_at"), Some("N 2 1 0 0 1002"));
    assert_eq!(third_call("quotient_1_of_3_up"), Some("N 0 0 0 0 0"));
    let up = &case("quotient_1_of_3_up").journal;
    assert!(up.starts_with(b"R 3 3fd5555555555556 "));
    assert!(answer(case("quotient_1_of_10_at")).ends_with("B 989 2 1 0 0 1009\n"));
}

#[test]
fn sizes() {
    let ends = [
        ("size_at_the_limit", 65_536, "G 0 0 0 0 0 0 0\n"),
        ("size_feed_past_the_limit", 65_537, "E 12 1428\n"),
        ("size_digit_past_the_limit", 65_537, "E 12 1429\n"),
        ("size_no_feed_at_the_limit", 65_536, "E 12 1428\n"),
        ("size_much_longer", 95_536, "E 12 1426\n"),
    ];
    for (name, bytes, end) in ends {
        assert_eq!(case(name).journal.len(), bytes, "{name}");
        assert!(answer(case(name)).ends_with(end), "{name}");
    }
}
