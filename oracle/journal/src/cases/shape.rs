//! The shape of lines and of the whole: spaces, feeds, fields too few or many.

use super::{Named, named};

pub fn journals() -> impl Iterator<Item = Named> {
    let calls = LINES.iter().flat_map(|&(form, line)| {
        bent(line).map(move |(what, bent)| {
            let journal = format!("C 2 1000 1 1\n10 A\n{bent}\n30 A\n");
            named(format!("line_{form}_{what}"), journal)
        })
    });
    let headers = HEADERS.iter().flat_map(|&(form, line)| {
        bent(line).map(move |(what, bent)| {
            named(format!("header_{form}_{what}"), format!("{bent}\n10 A\n"))
        })
    });
    let whole = WHOLE.iter().map(|&(name, journal)| named(name, journal));
    headers.chain(calls).chain(whole)
}

const HEADERS: [(&str, &str); 3] = [
    ("c", "C 2 1000 1 1"),
    ("r", "R 4 3fe0000000000000 2 1000 1 1"),
    ("w", "W 2 500 1000 1 1"),
];

const LINES: [(&str, &str); 5] = [
    ("a", "20 A"),
    ("s", "20 S 0 0"),
    ("f", "20 F 0 1"),
    ("x", "20 X 0 1"),
    ("z", "20 Z"),
];

/// A good line made malformed in each of these ways.
fn bent(line: &str) -> impl Iterator<Item = (&'static str, String)> {
    let (head, last) = line.rsplit_once(' ').expect("a space");
    let (first, tail) = line.split_once(' ').expect("a space");
    [
        ("leading_space", format!(" {line}")),
        ("trailing_space", format!("{line} ")),
        ("double_space", format!("{first}  {tail}")),
        ("double_space_last", format!("{head}  {last}")),
        ("leading_tab", format!("\t{line}")),
        ("tab", format!("{first}\t{tail}")),
        ("tab_last", format!("{head}\t{last}")),
        ("no_space", format!("{first}{tail}")),
        ("no_space_last", format!("{head}{last}")),
        ("cr", format!("{line}\r")),
        ("cr_alone_parts_lines", format!("{line}\r{line}")),
        ("nul", format!("{line}\0")),
        ("form_feed", format!("{line}\u{c}")),
        ("first_missing", tail.into()),
        ("last_missing", head.into()),
        ("first_alone", first.into()),
        ("extra_field", format!("{line} 0")),
        ("extra_letter", format!("{line} A")),
        ("twice", format!("{line} {line}")),
        ("comment", format!("{line} # x")),
        ("broken", format!("{first}\n{tail}")),
        ("empty_line_before", format!("\n{line}")),
        ("empty_line_after", format!("{line}\n")),
        ("space_line_before", format!(" \n{line}")),
        ("byte_order_mark", format!("\u{feff}{line}")),
        ("lower_case", line.to_lowercase()),
    ]
    .into_iter()
}

const WHOLE: [(&str, &str); 25] = [
    ("empty", ""),
    ("feed_alone", "\n"),
    ("feeds_alone", "\n\n\n"),
    ("space_alone", " "),
    ("cr_feed_alone", "\r\n"),
    ("letter_alone", "C"),
    ("header_alone", "C 2 1000 1 1\n"),
    ("header_alone_ratio", "R 4 7ff8000000000000 2 1000 1 1\n"),
    ("header_alone_windowed", "W 2 500 1000 1 1\n"),
    ("header_alone_refused", "W 4097 500 1000 1 1\n"),
    ("header_without_feed", "C 2 1000 1 1"),
    ("header_refused_without_feed", "W 4097 500 1000 1 1"),
    ("header_missing", "10 A\n20 A\n"),
    ("header_second", "10 A\nC 2 1000 1 1\n20 A\n"),
    ("header_twice", "C 2 1000 1 1\nC 2 1000 1 1\n"),
    ("header_cut", "C 2 1000 1 1\n10 A\n20 "),
    ("call_without_feed", "C 2 1000 1 1\n10 A\n20 A"),
    ("digit_without_feed", "C 2 1000 1 1\n10 A\n2"),
    ("feed_extra", "C 2 1000 1 1\n10 A\n20 A\n\n"),
    ("feed_extra_after_header", "C 2 1000 1 1\n\n"),
    ("cr_feeds", "C 2 1000 1 1\r\n10 A\r\n20 A\r\n"),
    (
        "malformed_before_refused_window",
        "R 4097 3fe0000000000000 2 1000 1 01\n10 A\n",
    ),
    (
        "malformed_before_refused_bits",
        "R 4097 3fe000000000000 2 1000 1 1\n10 A\n",
    ),
    (
        "malformed_before_refused_failures",
        "W 4097 500 1000 1\n10 A\n",
    ),
    (
        "malformed_after_refused",
        "W 4097 500 1000 1 1\n\n\nnothing here is read",
    ),
];
