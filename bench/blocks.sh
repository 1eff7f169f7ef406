#!/usr/bin/env bash
# Prints a table of what small transactions take in the whole program, at names drawn at random from NAMES like `hq3k9x2`: the instructions
# (valgrind's callgrind) of one, with reading its lines and printing its outcome, as the difference of 3,000 and 1,000 transactions. `four` is
# two names deleted and the two before added again by a `write`, `record` one more record of a name by a `write`, `update` one more by an
# `update`, and `below` a TXT added below a name by a `write` and the one before deleted. Each is done alone, and while the worker holds a
# snapshot of the version before.
# Usage: bench/blocks.sh [PROGRAM [NAMES..]] (100,000 names); build the program first, as the README says. It takes minutes, and changes nothing
# but files of its own in a temporary folder.
set -eu
here=$(cd "$(dirname "$0")" && pwd)
program=${1:-$here/../crates/qpzone/out/qpzone}
[ $# -gt 1 ] && shift || set -- 100000
folder=$(mktemp -d)
trap 'rm -rf "$folder"' EXIT

# NAMES COUNT KIND, and the word held
instructions() {
    python3 "$here/blocks.py" "$@" >"$folder/job"
    valgrind --tool=callgrind --callgrind-out-file=/dev/null "$program" run --origin example. --chunks 4096 \
        <"$folder/job" 2>&1 >"$folder/report" | sed -n 's/.*Collected : //p'
    ! grep -q REFUSED "$folder/report" || echo "blocks.sh: a transaction was refused" >&2
}
printf 'names\tkind\tsnapshot\tinstructions\n'
for names in "$@"; do
    for kind in four record below update; do
        for held in '' held; do
            printf '%s\t%s\t%s\t%s\n' "$names" "$kind" "${held:-none}" \
                $((($(instructions "$names" 3000 "$kind" $held) - $(instructions "$names" 1000 "$kind" $held)) / 2000))
        done
    done
done
