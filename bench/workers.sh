#!/usr/bin/env bash
# Times 10,000 questions by each of 1, 2 and 4 workers over a zone, without and with one more worker that makes 10,000
# transactions meanwhile; and the transactions alone. What reading the zone takes, the time of a run of one question, is taken off.
# Usage: bench/workers.sh [RECORDS [PROGRAM]] (100,000 records); build the program first, as the README says. Prints milliseconds,
# the middle of five runs; changes nothing but files of its own in a temporary folder.
set -eu
here=$(cd "$(dirname "$0")" && pwd)
records=${1:-100000}
program=${2:-$here/../crates/qpzone/out/qpzone}
folder=$(mktemp -d)
trap 'rm -rf "$folder"' EXIT

part() {
    python3 "$here/hosts.py" "$records" 1 "$1" | sed '1,/^%%$/d'
}
python3 "$here/hosts.py" "$records" 1 one | sed -n '1,/^%%$/p' >"$folder/zone"
for commands in one questions blocks; do
    part "$commands" >"$folder/$commands"
done

# the middle of five runs of the zone with these lists of commands
took() {
    local begin
    for list; do
        cat "$folder/$list"
    done | cat "$folder/zone" - >"$folder/job"
    for _ in 1 2 3 4 5; do
        begin=$(date +%s%N)
        "$program" run --origin example. --chunks 4096 <"$folder/job" >/dev/null
        echo $((($(date +%s%N) - begin) / 1000))
    done | sort -n | sed -n 3p
}
reading=$(took one)
tell() {
    local name=$1
    shift
    printf '%s: %s ms\n' "$name" "$((($(took "$@") - reading) / 1000))"
}
tell 'transactions alone' blocks
tell '1 worker asks' questions
tell '2 workers ask' questions questions
tell '4 workers ask' questions questions questions questions
tell '1 worker asks, one writes' questions blocks
tell '2 workers ask, one writes' questions questions blocks
tell '4 workers ask, one writes' questions questions questions questions blocks
