#!/usr/bin/env bash
# Times the soundness test with its code at each of the four places in a 64-byte line that the linker may give it. Run from the
# repository's top, after tools/archive.
set -eu
lib=target/staticlib/libcapi.a
work=target/placement
mkdir -p "$work"
echo '| Code at, modulo 64 | 0 | 1 | 99 | 100 | 2,048 | 2,049 | 4,096 items |'
echo '|---|---|---|---|---|---|---|---|'
for pad in 1 17 33 49; do
    printf '.section .text.padding,"ax",@progbits\n.skip %d, 0x90\n.section .note.GNU-stack,"",@progbits\n' "$pad" > "$work/pad.s"
    cc -O3 -Wall -Wextra -Iinclude -o "$work/placement" bench/placement.c "$work/pad.s" "$lib"
    at=$(nm "$work/placement" | awk '$3 == "breaker::is_sound" { print $1 }')
    printf '| %d%s\n' $((0x$at % 64)) "$("$work/placement")"
done
