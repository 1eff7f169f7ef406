#!/usr/bin/env bash
# Times a live session: questions one at a time, beside lines that `cat` copies so, and through a pipe, over 1,000 names too; transactions of one
# addition with a question each, and the slowest of 100,000 questions one at a time while another session answers a full pipe beside it; and the
# memory of short and long sessions.
# Usage: bench/live.sh [RECORDS [PROGRAM]] (100,000 records); build the program first, as the README says. Prints microseconds each, the
# quickest of three runs, and KiB; changes nothing but files of its own in a temporary folder.
set -eu
here=$(cd "$(dirname "$0")" && pwd)
records=${1:-100000}
program=${2:-$here/../crates/qpzone/out/qpzone}
folder=$(mktemp -d)
trap 'rm -rf "$folder"' EXIT
for names in "$records" 1000; do python3 "$here/hosts.py" "$names" 1 one | sed -n '1,/^%%$/p' >"$folder/session.$names"; done
# quickest NAMES KIND COUNT
quickest() { for _ in 1 2 3; do python3 "$here/live.py" "$folder/session.$1" "$program" "$2" "$3"; done | sort -g | head -n 1; }
echo "questions one at a time: $(quickest "$records" one 100000) us each; lines through cat: $(quickest "$records" copied 100000) us each"
echo "questions through a pipe: $(quickest "$records" pipe 1000000) us each; over 1,000 names: $(quickest 1000 pipe 1000000) us each"
echo "commits with a question each, through a pipe: $(quickest "$records" commits 100000) us each"
memory() { python3 "$here/live.py" "$folder/session.$records" "$program" memory "$1"; }
echo "memory over 10,000 and 500,000 commits with a question each: $(memory 10000) and $(memory 500000) KiB"
echo "slowest of 100,000 questions beside a full pipe: $(quickest "$records" slowest 100000) us"
