#!/usr/bin/env bash
# Measures saves, returns and checks of blocks beside C that sums and copies the same bytes, and the depth of their stack; lists the frames
# over 1 KiB and counts vector instructions where sums are made. Run from the repository's top, after tools/archive.
#     bench/saves.sh [ARCHIVE]
set -eu
lib=${1:-target/staticlib/libcapi.a}
work=target/saves
mkdir -p "$work"
objdump -d --no-show-raw-insn "$lib" > "$work/capi.s"
echo 'Frames over 1 KiB, bytes:'
awk '/^[0-9a-f]+ </ { name = $0; sub(/^[0-9a-f]+ </, "", name); sub(/>:$/, "", name) }
    /add +\$0x[0-9a-f]+,%rsp/ { n = $0; sub(/.*\$0x/, "", n); sub(/,.*/, "", n); if (length(n) > 3 || (length(n) == 3 && n >= "400")) print name, n }' "$work/capi.s" |
    while read -r name n; do printf '    %7d  %s\n' $((0x$n)) "$name"; done
echo 'Multiplications on vector registers, by function:'
awk '/^[0-9a-f]+ </ { name = $0; sub(/^[0-9a-f]+ </, "", name); sub(/>:$/, "", name) }
    /pmul|pmadd/ { count[name]++ }
    END { for (name in count) printf "    %7d  %s\n", count[name], name }' "$work/capi.s"
for cc in gcc clang; do
    command -v $cc > /dev/null || continue
    $cc -std=gnu11 -O3 -Wall -Wextra -pthread -Iinclude -o "$work/saves_$cc" bench/saves.c "$lib"
    echo
    echo "C by $cc $($cc -dumpfullversion 2> /dev/null || $cc -dumpversion) -O3, ns a call:"
    echo
    "$work/saves_$cc"
done
