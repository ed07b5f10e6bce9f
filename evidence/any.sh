#!/usr/bin/env bash
# Makes the archive, feeds every function of it with any numbers (any.c) and compares all with document 01 (model.c) and the saves of
# document 02 (saves.c) once more, under the sanitizers and under valgrind, and shows that planted faults are found. What is proved already
# is not proved again. Where the sanitizers or valgrind are missing it says so and goes on.
#     evidence/any.sh [ROUNDS] [ROUNDS under valgrind] [SEED]
set -eu
cd "$(dirname "$0")/.."
rounds=${1:-5000000}
fewer=${2:-50000}
seed=${3:-1}
lib=target/staticlib/libcapi.a
out=target/evidence
command -v gcc > /dev/null || { echo "gcc is missing: nothing was run"; exit 1; }
tools/archive
mkdir -p "$out"
wrong=0
build() { # name, further arguments
    local name=$1
    shift
    gcc -std=c11 -O2 -g -Wall -Wextra -Werror -Iinclude "$@" evidence/any.c evidence/model.c evidence/saves.c "$lib" -lm -o "$out/$name"
}
build any

echo "== the sanitizers on the C side (address, undefined)"
if build any_sanitized -fsanitize=address,undefined -fno-sanitize-recover=all 2> "$out/sanitized.out"; then
    "$out/any_sanitized" "$rounds" "$seed" || wrong=1
else
    echo "gcc has no sanitizers here; without them:"
    "$out/any" "$rounds" "$seed" || wrong=1
fi

echo "== valgrind"
if command -v valgrind > /dev/null; then
    valgrind --quiet --error-exitcode=9 "$out/any" "$fewer" "$((seed + 1))" || wrong=1
else
    echo "valgrind is missing: left out"
fi

echo "== planted faults"
wrap=
for call in settle admit_as wait_drop reconfigure save restore check_block preview_settle preview_abort; do wrap="$wrap,--wrap=pudvirez_$call"; done
for fault in $(seq 1 21) 24 25 26 27 28; do
    build "fault_$fault" -DFAULT="$fault" "-Wl$wrap" evidence/any_faults.c
    if (ulimit -c 0; "$out/fault_$fault" 300000 "$seed") > "$out/fault_$fault.out" 2>&1; then
        echo "fault $fault was not found"
        wrong=1
    else
        echo "fault $fault found"
    fi
done 2> /dev/null

[ "$wrong" = 0 ] && echo "no findings" || { echo "FINDINGS"; exit 1; }
