//! One field of one line replaced: malformed, or at the edge of what fits.

use super::{Named, named};

/// A name, a good line, and the names of its fields.
type Form = (&'static str, &'static str, &'static str);

const HEADERS: [Form; 3] = [
    ("c", "C 2 1000 1 1", "letter n cooldown trials required"),
    (
        "r",
        "R 3 3fe0000000000000 2 1000 1 1",
        "letter window bits min cooldown trials required",
    ),
    (
        "w",
        "W 2 500 1000 1 1",
        "letter failures period cooldown trials required",
    ),
];

const CALLS: [Form; 5] = [
    ("a", "20 A", "reading letter"),
    ("s", "20 S 0 0", "reading letter generation probe"),
    ("f", "20 F 0 0", "reading letter generation probe"),
    ("x", "20 X 0 0", "reading letter generation probe"),
    ("z", "20 Z", "reading letter"),
];

const AFTER_HEADER: &str = "10 A\n20 F 0 0\n30 F 0 0\n40 A\n1030 A\n1040 S 2 1\n";

pub fn journals() -> impl Iterator<Item = Named> {
    let headers = HEADERS.into_iter().flat_map(replaced);
    let headers = headers.map(|(name, line)| named(name, format!("{line}\n{AFTER_HEADER}")));
    let calls = CALLS.into_iter().flat_map(replaced);
    let calls = calls.map(|(name, line)| {
        let journal = format!("C 2 1000 1 1\n10 F 0 0\n{line}\n30 F 0 0\n40 A\n");
        named(name, journal)
    });
    headers.chain(calls)
}

/// The form's line with each field replaced in turn.
fn replaced((form, good, names): Form) -> impl Iterator<Item = (String, String)> {
    let fields = names.split(' ').enumerate();
    fields.flat_map(move |(place, field)| {
        let words: Vec<&str> = good.split(' ').collect();
        let texts = texts(field, words[place]).into_iter();
        texts.map(move |(what, text)| {
            let mut words = words.clone();
            words[place] = &text;
            (format!("{form}_{field}_{what}"), words.join(" "))
        })
    })
}

/// What is put in place of a field's good text.
fn texts(field: &str, good: &str) -> Vec<(&'static str, String)> {
    let own = |(what, text): (&'static str, &str)| (what, text.to_owned());
    let mut texts = match field {
        "letter" => letters(good),
        "bits" => BITS.map(own).into(),
        "probe" => PROBES.map(own).into(),
        "period" | "cooldown" | "reading" | "generation" => decimals(u64::MAX),
        _ => decimals(u32::MAX.into()),
    };
    texts.extend(ANYWHERE.map(own));
    texts
}

/// Malformed in every field.
const ANYWHERE: [(&str, &str); 9] = [
    ("empty", ""),
    ("space", " "),
    ("tab", "\t"),
    ("cr", "\r"),
    ("nul", "\0"),
    ("sign", "+"),
    ("at", "@"),
    ("word", "word"),
    ("not_ascii", "\u{661}"),
];

fn letters(letter: &str) -> Vec<(&'static str, String)> {
    vec![
        ("lower", letter.to_lowercase()),
        ("twice", letter.repeat(2)),
        ("unknown", "Q".into()),
        ("digit", "1".into()),
    ]
}

/// Of a field that takes numbers up to `greatest`.
fn decimals(greatest: u64) -> Vec<(&'static str, String)> {
    let past = u128::from(greatest) + 1;
    vec![
        ("zero", "0".into()),
        ("greatest", greatest.to_string()),
        ("too_wide", past.to_string()),
        ("too_wide_by_2", (past + 1).to_string()),
        ("twice_too_wide", (past * 2 + 1).to_string()),
        ("a_digit_more", format!("{greatest}0")),
        ("past_64_bits", ((1_u128 << 64) + 1).to_string()),
        ("past_128_bits", "9".repeat(39)),
        ("zeros", "00".into()),
        ("leading_zero", "01".into()),
        ("many_zeros", "0".repeat(40) + "1"),
        ("plus", "+1".into()),
        ("minus", "-1".into()),
        ("minus_zero", "-0".into()),
        ("hex", "0x1".into()),
        ("lower_hex", "1f".into()),
        ("point", "1.0".into()),
        ("exponent", "1e3".into()),
        ("comma", "1,000".into()),
        ("slash", "1/".into()),
        ("colon", "1:".into()),
        ("tab_after", "1\t".into()),
        ("cr_after", "1\r".into()),
        ("nul_after", "1\0".into()),
    ]
}

const BITS: [(&str, &str); 17] = [
    ("zeros", "0000000000000000"),
    ("digits", "0123456789abcdef"),
    ("digits_back", "fedcba9876543210"),
    ("of_15", "3fe000000000000"),
    ("of_17", "3fe00000000000000"),
    ("of_17_zero_first", "03fe0000000000000"),
    ("of_1", "0"),
    ("of_32", "3fe00000000000003fe0000000000000"),
    ("upper", "3FE0000000000000"),
    ("one_upper", "3fe000000000000A"),
    ("g", "3fe000000000000g"),
    ("slash", "3fe000000000000/"),
    ("colon", ":fe0000000000000"),
    ("backquote", "3fe0000`00000000"),
    ("prefix", "0x3fe00000000000"),
    ("minus", "-3fe000000000000"),
    ("inner_space", "3fe00000 00000000"),
];

const PROBES: [(&str, &str); 13] = [
    ("0", "0"),
    ("1", "1"),
    ("2", "2"),
    ("9", "9"),
    ("00", "00"),
    ("01", "01"),
    ("10", "10"),
    ("11", "11"),
    ("plus", "+1"),
    ("minus", "-0"),
    ("true", "true"),
    ("256", "256"),
    ("past_64_bits", "18446744073709551617"),
];
