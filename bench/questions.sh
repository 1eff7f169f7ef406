#!/usr/bin/env bash
# Counts the instructions of a question, of a prerequisite, and of a transaction of one addition, with valgrind's callgrind: the difference
# between 10,000 and 5,000 of them, with reading the lines and printing the outcome.
# Usage: bench/questions.sh [RECORDS [PROGRAM]] (100,000 records); build the program first, as the README says. It takes
# minutes, and changes nothing but files of its own in a temporary folder.
set -eu
here=$(cd "$(dirname "$0")" && pwd)
records=${1:-100000}
program=${2:-$here/../crates/qpzone/out/qpzone}
folder=$(mktemp -d)
trap 'rm -rf "$folder"' EXIT
instructions() {
    python3 "$here/hosts.py" "$records" 1 "$1" "$2" >"$folder/job"
    valgrind --tool=callgrind --callgrind-out-file=/dev/null "$program" run --origin example. --chunks 4096 \
        <"$folder/job" 2>&1 >/dev/null | sed -n 's/.*Collected : //p'
}
for commands in questions absent below needs neednots blocks; do
    printf '%s: %s instructions each\n' "$commands" \
        "$((($(instructions "$commands" 10000) - $(instructions "$commands" 5000)) / 5000))"
done
