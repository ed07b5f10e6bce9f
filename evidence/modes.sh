#!/usr/bin/env bash
# Makes the archive and runs the same calls in every floating-point mode (modes.c), in a program built plainly and in one built with -Ofast,
# which begins with FTZ and DAZ on. Then shows that a soundness test by floats would be found. Needs gcc and x86-64; takes seconds.
#     evidence/modes.sh
set -eu
cd "$(dirname "$0")/.."
lib=target/staticlib/libcapi.a
out=target/evidence
command -v gcc > /dev/null || { echo "gcc is missing: nothing was run"; exit 1; }
tools/archive
mkdir -p "$out"
wrong=0
build() { # name, further arguments
    local name=$1
    shift
    gcc -std=c11 -g -Wall -Wextra -Werror -Iinclude "$@" evidence/modes.c "$lib" -o "$out/$name"
}

for optimised in -O2 -Ofast; do
    echo "== gcc $optimised"
    build modes "$optimised"
    "$out/modes" || wrong=1
done

build modes_fault -O2 -DFAULT -Wl,--wrap=pudvirez_is_sound
if "$out/modes_fault" > "$out/modes_fault.out"; then
    echo "a soundness test by floats was not found"
    wrong=1
else
    echo "a soundness test by floats is found"
fi

[ "$wrong" = 0 ] && echo "no findings" || { echo "FINDINGS"; exit 1; }
