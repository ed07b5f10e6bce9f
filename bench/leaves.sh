#!/usr/bin/env bash
# Measures the list leaves beside C loops, and counts vector instructions in their object code. Run from the repository's top.
# The leaves are not exported by any crate, so a scratch repository under target/ wraps them.
set -eu
top=$PWD
work=target/leaves
rm -rf "$work" && mkdir -p "$work/crates/leaves/src"
cp -r crates/error crates/history "$work/crates/"
rm -rf "$work"/crates/*/must-fail "$work"/crates/*/out
printf 'error:\nhistory: error\nleaves staticlib: error history\n' > "$work/crates.txt"
cat > "$work/crates/leaves/src/lib.rt" <<'RT'
#![tactic(auto)]

use error::Refusal;
use history::Items;
fn number(c: Result<u32, Refusal>) -> u32 {
    match c {
        Ok(n) => n,
        Err(r) => 10000 + r.number() % 16,
    }
}
#[unsafe(no_mangle)]
pub extern "C" fn leaf_sound(list: &[u64], len: u32, window: u32) -> bool {
    history::sound_list(list, len, Items::Outcomes(window))
}
#[unsafe(no_mangle)]
pub extern "C" fn leaf_failures(list: &[u64], first: u32, len: u32) -> u64 {
    history::count_failures(list, first, len)
}
#[unsafe(no_mangle)]
pub extern "C" fn leaf_recent(list: &[u64], first: u32, len: u32, cutoff: u64) -> u32 {
    history::count_recent(list, first, len, cutoff)
}
#[unsafe(no_mangle)]
pub extern "C" fn leaf_expired(list: &[u64], len: u32, cutoff: u64) -> u32 {
    history::count_expired(list, len, cutoff)
}
#[unsafe(no_mangle)]
pub extern "C" fn leaf_turn_over(list: &mut [u64], len: u32, gone: u32, item: u64) -> u32 {
    number(history::turn_over(list, len, gone, item))
}
RT
(cd "$work/crates/leaves" && rt lib --cpu=x86-64 > ../../build.out 2>&1) || { tail -5 "$work/build.out"; exit 1; }
lib=$work/crates/leaves/out/libleaves.a
cc -O3 -Wall -Wextra -o "$work/leaves" "$top/bench/leaves.c" "$lib"
for f in leaf_sound leaf_failures leaf_recent leaf_expired leaf_turn_over; do
    objdump -dr --disassemble=$f --no-show-raw-insn "$lib" > "$work/$f.s"
    printf '%s: %s instructions, %s on vector registers, calls: %s\n' "$f" "$(grep -c '^ ' "$work/$f.s" || true)" \
        "$(grep -c 'xmm' "$work/$f.s" || true)" "$(grep -o 'mem[a-z]*' "$work/$f.s" | sort -u | tr '\n' ' ')"
done
"$work/leaves"
