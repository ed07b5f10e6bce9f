#!/usr/bin/env bash
# Runs ./replay in 2 MB of stack on journals good and bad, and holds answer, status and words to what they must be. Seconds, once it is built.
# The answers are document 01's, or the oracle's (examples/day.answer, crates/replay/stdout).
cd "$(dirname "$0")/.." || exit 2
ulimit -s 2048
work=$(mktemp -d) || exit 2
trap 'rm -rf "$work"' EXIT
runs=0 wrong=0

# held STATUS ANSWER WORDS COMMAND...: the command's status, a file that its output equals, and words of its standard error ('': none at all)
held() {
    status=$1 answer=$2 words=$3
    shift 3
    "$@" >"$work/out" 2>"$work/err"
    got=$?
    runs=$((runs + 1)) why=
    [ "$got" -eq "$status" ] || why="status $got, not $status"
    cmp -s "$work/out" "$answer" || why="$why another answer"
    if [ -z "$words" ]; then [ ! -s "$work/err" ]; else grep -q -- "$words" "$work/err"; fi || why="$why other words"
    [ -z "$why" ] || {
        wrong=$((wrong + 1))
        echo "replay_test: $*: $why" >&2
        head -n 3 "$work/out" "$work/err" >&2
    }
}
on() { # FILE COMMAND...: with standard input from the file
    from=$1
    shift
    "$@" <"$from"
}
later() { { cat "$1" && sleep 1 && printf '0 A\n'; } | target/bin/replay; } # the program itself, on FILE and then a line more
full() { ./replay "$1" >/dev/full; }
small() (ulimit -s 256 && ./replay "$1") # a stack that the program can't run in

./replay --help >"$work/help" && grep -q usage "$work/help" || exit 2
./replay examples/day.journal >/dev/null || exit 2 # builds, if it must

none=$work/none
: >"$none"
printf 'E 12 1\n' >"$work/1"
printf 'G 0 0 0 0 0 0 0\nE 12 3\n' >"$work/3"
printf 'E 2\n' >"$work/2"
printf 'C 1 0 1 1\n0 A\n0 A' >"$work/no feed"
printf 'C 1 0 1 1\n0 A\n00 A\n0 A\n' >"$work/zero"
printf 'W 4097 1 1 1 1\n0 A\n' >"$work/over"
cp examples/day.journal "$work/a day"
cp examples/day.journal "$work/-day"
dd if=crates/replay/stdin of="$work/at" bs=65536 count=1 2>/dev/null
dd if=crates/replay/stdin of="$work/past" bs=65537 count=1 2>/dev/null
sed '$d' crates/replay/stdout >"$work/whole"

held 0 examples/day.answer '' ./replay examples/day.journal
held 0 examples/day.answer '' on examples/day.journal ./replay
held 0 examples/day.answer '' ./replay "$work/a day"
cd "$work" || exit 2
top=$OLDPWD
held 0 "$top/examples/day.answer" '' "$top/replay" -day
held 0 "$top/examples/day.answer" '' "$top/replay" -- -day
cd "$top" || exit 2
held 0 "$work/help" '' ./replay --help
held 2 "$none" "can't be read" ./replay "$work/nowhere"
held 2 "$none" 'is a directory' ./replay examples
held 2 "$none" 'one file' ./replay examples/day.journal examples/day.journal
held 1 "$work/1" 'line 1 is malformed: the journal is empty' ./replay "$none"
held 1 "$work/1" 'line 1 is malformed: the journal is empty' on /dev/null ./replay
held 1 "$work/3" 'line 3 is malformed; the lines before' ./replay "$work/zero"
held 1 "$work/3" 'line 3 is malformed: it has no line feed' ./replay "$work/no feed"
held 1 "$work/2" 'over 4,096' ./replay "$work/over"
held 0 "$work/whole" '' ./replay "$work/at"
held 1 crates/replay/stdout 'line 1434 is malformed: it passes the limit of 65,536 bytes' ./replay "$work/past"
held 1 crates/replay/stdout 'it passes the limit' ./replay crates/replay/stdin
held 1 crates/replay/stdout 'it passes the limit' on crates/replay/stdin ./replay
held 0 crates/replay/stdout '' later "$work/at"
held 2 "$none" "can't be written" full examples/day.journal
held 2 "$none" 'ended with status' small examples/day.journal

echo "replay_test: $runs runs, $wrong wrong"
[ "$wrong" -eq 0 ]
