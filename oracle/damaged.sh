#!/usr/bin/env bash
# Flips one comparison at a time in the archive's machine code, as it is linked into `compare` (< and <=, >= and >; with `all` also == and !=),
# and says whether `compare` finds it. Run from the repository's top once oracle/compare is built with the archive.
#     oracle/damaged.sh [STEPS] [all]     at most so many random steps for each; 10,000,000 if left out
set -eu
program=oracle/target/release/compare
steps=${1:-10000000}
kinds='jb|jbe|ja|jae'
[ "${2:-}" != all ] || kinds="$kinds|je|jne"
work=oracle/target/damaged
mkdir -p "$work"
set -- $(readelf -SW "$program" | sed -n 's/^ *\[ *[0-9]*\] *//p' | awk '$1 == ".text" { print $3, $4 }')
shift_by=$((0x$1 - 0x$2))
# jumps within the archive's functions: address, length in bytes of the opcode, the byte that says which, name
jumps() {
    nm -S --defined-only "$program" | grep -E ' (pudvirez_|(error|history|trip|breaker|steps|outcomes|admission|circuit|batch|preview|crossing|plain|capi)::)' | while read -r at size _ name; do
        objdump -d -w --start-address=0x"$at" --stop-address=$((0x$at + 0x$size)) "$program" |
            awk -F'\t' -v kinds="^($kinds) " -v name="$name" '$3 ~ kinds { split($2, b, " "); sub(/:.*/, "", $1); gsub(/ /, "", $1)
                split($3, w, " "); print $1, (b[1] == "0f") ? 1 : 0, (b[1] == "0f") ? b[2] : b[1], w[1], name }'
    done
}
found=0 missed=0 ended=0
while read -r at more byte jump name; do
    # the low four bits say which condition: 2 and 6, 3 and 7 differ by equality; 4 and 5 are each other's contrary
    case $((0x$byte % 16)) in 4 | 5) with=$((0x$byte ^ 1)) ;; *) with=$((0x$byte ^ 4)) ;; esac
    cp "$program" "$work/compare"
    printf "\\x$(printf %02x $with)" | dd of="$work/compare" bs=1 seek=$((0x$at - shift_by + more)) conv=notrunc status=none
    status=0
    timeout 60 "$work/compare" random 1 "$steps" >"$work/out" 2>&1 || status=$?
    case $status in
    0) missed=$((missed + 1)) && echo "not found: $jump at $at in $name" ;;
    1) found=$((found + 1)) ;;
    *) ended=$((ended + 1)) && echo "ended with $status: $jump at $at in $name" ;;
    esac
done < <(jumps)
echo "$found found by a difference, $ended ended the program, $missed not found"
