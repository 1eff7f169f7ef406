#!/usr/bin/env bash
# Counts the instructions of a question in a live session, with valgrind's callgrind: the difference between 10,000 and 5,000 of them, with
# reading the lines and printing what is replied. Whole responses for a name that is there and for one that isn't, and an answer.
# Usage: bench/asks.sh [RECORDS [PROGRAM]] (100,000 records); build the program first, as the README says. It takes
# minutes, and changes nothing but files of its own in a temporary folder.
set -eu
here=$(cd "$(dirname "$0")" && pwd)
records=${1:-100000}
program=${2:-$here/../crates/qpzone/out/qpzone}
folder=$(mktemp -d)
trap 'rm -rf "$folder"' EXIT
instructions() {
    python3 "$here/hosts.py" "$records" 1 "$1" "$2" >"$folder/session"
    valgrind --tool=callgrind --callgrind-out-file=/dev/null "$program" live --origin example. --chunks 4096 \
        <"$folder/session" 2>&1 >/dev/null | sed -n 's/.*Collected : //p'
}
for commands in asks denied gets; do
    printf '%s: %s instructions each\n' "$commands" \
        "$((($(instructions "$commands" 10000) - $(instructions "$commands" 5000)) / 5000))"
done
