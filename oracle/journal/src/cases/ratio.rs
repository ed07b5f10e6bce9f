//! Ratio bits: what they are normalised to, and the rounded quotient.

use super::{Named, named};

pub fn journals() -> impl Iterator<Item = Named> {
    let normalised = BITS
        .iter()
        .map(|&(name, bits)| named(format!("bits_{name}"), mixed(bits)));
    let quotients =
        (1..=10).flat_map(|total| (1..=total).flat_map(move |failed| near(failed, total)));
    normalised.chain(quotients)
}

const BITS: [(&str, u64); 22] = [
    ("quiet_nan", 0x7ff8_0000_0000_0000),
    ("quiet_nan_negative", 0xfff8_0000_0000_0000),
    ("quiet_nan_payload", 0x7fff_ffff_ffff_ffff),
    ("signalling_nan", 0x7ff0_0000_0000_0001),
    ("signalling_nan_negative", 0xfff7_ffff_ffff_ffff),
    ("all_ones", 0xffff_ffff_ffff_ffff),
    ("infinity", 0x7ff0_0000_0000_0000),
    ("infinity_negative", 0xfff0_0000_0000_0000),
    ("zero", 0x0000_0000_0000_0000),
    ("zero_negative", 0x8000_0000_0000_0000),
    ("least_subnormal", 0x0000_0000_0000_0001),
    ("least_subnormal_negative", 0x8000_0000_0000_0001),
    ("greatest_subnormal", 0x000f_ffff_ffff_ffff),
    ("least_normal", 0x0010_0000_0000_0000),
    ("greatest", 0x7fef_ffff_ffff_ffff),
    ("one", 0x3ff0_0000_0000_0000),
    ("one_up", 0x3ff0_0000_0000_0001),
    ("one_down", 0x3fef_ffff_ffff_ffff),
    ("one_negative", 0xbff0_0000_0000_0000),
    ("nine", 0x4022_0000_0000_0000),
    ("half", 0x3fe0_0000_0000_0000),
    ("half_up", 0x3fe0_0000_0000_0001),
];

/// Outcomes of which the last failures make 1 of 2, 2 of 3 and at last 4 of 4.
fn mixed(bits: u64) -> String {
    let calls = "1 S 0 0\n2 S 0 0\n3 F 0 0\n4 F 0 0\n5 S 0 0\n6 F 0 0\n7 F 0 0\n8 F 0 0\n9 F 0 0\n";
    format!("R 4 {bits:016x} 2 1000 1 1\n{calls}10 A\n")
}

/// `failed` of `total`, the last of them a failure, at their quotient and at
/// its neighbours. 1 of 3 next above is 3fd5555555555556: a rounded product
/// would trip there.
fn near(failed: u64, total: u64) -> impl Iterator<Item = Named> {
    let quotient = failed as f64 / total as f64;
    let near = [
        ("down", quotient.next_down()),
        ("at", quotient),
        ("up", quotient.next_up()),
    ];
    near.into_iter().map(move |(side, ratio)| {
        let name = format!("quotient_{failed}_of_{total}_{side}");
        named(name, outcomes(failed, total, ratio.to_bits()))
    })
}

fn outcomes(failed: u64, total: u64, bits: u64) -> String {
    let letter = |i| if i < total - failed { 'S' } else { 'F' };
    let calls = (0..total).map(|i| format!("{i} {} 0 0\n", letter(i)));
    let calls: String = calls.collect();
    format!("R {total} {bits:016x} {total} 1000 1 1\n{calls}20 A\n")
}
