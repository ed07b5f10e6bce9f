#!/usr/bin/env bash
# Makes the archive of the C interface, runs the C programs of examples/ and README.md, and tests the Rust crate. Says one line if all pass, else
# what failed. Needs the kit, gcc and cargo; fetches nothing, and writes to target/ and to crates/*/out alone.
set -eu
cd "$(dirname "$0")/.."
unset PUDVIREZ_LIB_DIR PUDVIREZ_INCLUDE
out=$PWD/target/bindings
lib=target/staticlib/libcapi.a
export CARGO_HOME=$out/cargo-home CARGO_TARGET_DIR=$out/cargo CARGO_INCREMENTAL=0
mkdir -p "$out"

try() { # what it is, command
    local what=$1
    shift
    "$@" > "$out/log" 2>&1 || { cat "$out/log"; echo "bindings: $what FAILED"; exit 1; }
}
c_program() { # name, source
    try "building $1" gcc -std=c11 -Wall -Wextra -Werror -Iinclude "$2" "$lib" -o "$out/$1"
    try "$1" "$out/$1"
}

try "the archive" tools/archive
c_program breaker examples/breaker.c
c_program waiting examples/waiting.c
c_program checkpoints examples/checkpoints.c
sed -n '/^    #include <stdio.h>/,/^    }/s/^    //p' README.md > "$out/readme.c"
c_program readme "$out/readme.c"
cd bindings/rust
try "the Rust crate" cargo test --offline --locked
for example in limiter checkpoints; do
    try "its example $example" cargo run --offline --locked --example "$example"
done
echo "bindings: C programs and Rust crate pass"
