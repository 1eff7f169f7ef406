#!/usr/bin/env bash
# Counts the instructions that a worker takes to take a command, with valgrind's callgrind: builds bench/take.rattle in a copy of
# the one crate that it needs, which takes a minute the first time, and takes the difference between 10,000 numbers and none.
# Usage: bench/take.sh [PROGRAM], where PROGRAM is one that was built before. Changes nothing but files in a temporary folder.
set -eu
here=$(cd "$(dirname "$0")" && pwd)
folder=$(mktemp -d)
trap 'rm -rf "$folder"' EXIT
program=${1:-$folder/crates/take/out/take}

# builds the program
build() {
    crate=$folder/crates/take
    mkdir -p "$crate/src" "$crate/proofs/take_some"
    cp "$here/../HANDLES" "$folder/"
    cp -r "$here/../crates/feed_core" "$folder/crates/"
    cp "$here/take.rattle" "$crate/src/main.rt"
    {
        grep -E '^feed_core[ :]' "$here/../crates.txt"
        printf '%s\n' 'take may_wait=2: feed_core'
    } >"$folder/crates.txt"
    cat >"$crate/proofs/take_some/Invariants.antt" <<'PROOF'
use Rattle.std.proofs.Common.{◌≡◌}
use Rattle.take.proofs.take_some.Given as goal

abbrev pub invariant-loop-taken : goal.invariant-loop-taken
invariant-loop-taken g l = l.seat.feed ≡ l.feed
PROOF
    git -C "$folder" init -q
    (cd "$crate" && rt run -- 0 </dev/null >"$folder/build" 2>&1) || { tail -5 "$folder/build"; exit 1; }
}
(($#)) || build

# instructions NUMBERS: those of a run that takes so many numbers
instructions() {
    valgrind --tool=callgrind --callgrind-out-file=/dev/null "$program" "$1" 2>&1 >/dev/null | sed -n 's/.*Collected : //p'
}
printf 'a number taken: %s instructions\n' "$((($(instructions 10000) - $(instructions 0)) / 10000))"
