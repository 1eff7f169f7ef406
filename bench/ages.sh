#!/usr/bin/env bash
# Prints a table of what a commit of the shared index takes by how many came before: the instructions (valgrind's callgrind) of one, without
# reading the input, as the mean of those from one number of transactions to another, at names drawn at random from NAMES like `hq3k9x2`. `four`
# is two names out and the two before in again by a `write`, `update` one item exchanged by an `update`.
# Usage: bench/ages.sh PROGRAM [NAMES..] >bench/results/ages.tsv (100,000 names): PROGRAM is where bench/commits.sh left its own. It takes
# minutes, and changes nothing but files of its own in a temporary folder.
set -eu
here=$(cd "$(dirname "$0")" && pwd)
program=$1
shift
(($#)) || set -- 100000
folder=$(mktemp -d)
trap 'rm -rf "$folder"' EXIT
# NAMES COUNT KIND
instructions() {
    python3 "$here/commits.py" "$@" >"$folder/input"
    valgrind --tool=callgrind --callgrind-out-file=/dev/null --toggle-collect='*commits::commit::*' "$program" <"$folder/input" 2>&1 >/dev/null | sed -n 's/.*Collected : //p'
}
printf 'names\tkind\tfrom\tto\tinstructions\n'
for names in "$@"; do
    for kind in four update; do
        # kept, since each number of transactions is the end of one span and the beginning of the next
        declare -A all=()
        for count in 3000 5000 60000 80000 100000; do
            all[$count]=$(instructions "$names" "$count" "$kind")
        done
        all[0]=0
        while read -r from to; do
            printf '%s\t%s\t%s\t%s\t%s\n' "$names" "$kind" "$from" "$to" $(((all[$to] - all[$from]) / (to - from)))
        done <<<$'3000 5000\n5000 60000\n60000 80000\n80000 100000\n0 80000'
    done
done
