#!/usr/bin/env bash
# Times 10,000 questions over a zone: handed out to 1, 2 and 4 workers as they come free (`feed`), and split evenly between them
# beforehand (`run`). First all of them ask for a name; then one in ten walks through a thousand names, which costs six hundred
# times as much, drawn at random; then these walks stand in front, so that an even split gives them to one worker. What reading the
# zone takes, the time of a run of one question, is taken off. With valgrind it also counts the instructions that handing out a
# command takes: those of `next_number`, which is all that `FeedSeat::take` does, and those that a feed by one worker takes more
# than a run, for each command, as the difference between 10,000 and 5,000 of them. Last, what each of 4 workers spends, which
# other work on the machine doesn't change.
# Usage: bench/feed.sh [RECORDS [PROGRAM]] (100,000 records); build the program first, as the README says. Prints milliseconds,
# the quickest of nine runs; changes nothing but files of its own in a temporary folder.
set -eu
here=$(cd "$(dirname "$0")" && pwd)
records=${1:-100000}
program=${2:-$here/../crates/qpzone/out/qpzone}
folder=$(mktemp -d)
trap 'rm -rf "$folder"' EXIT

# commands KIND COUNT: so many commands, without the line of a worker
commands() {
    python3 "$here/hosts.py" "$records" 1 "$1" "$2" | sed '1,/^%%$/d' | sed 1d
}
python3 "$here/hosts.py" "$records" 1 one | sed -n '1,/^%%$/p' >"$folder/zone"

# listed KIND COUNT: a feed's job; split KIND COUNT WORKERS: the same commands as lists of so many workers
listed() {
    commands "$1" "$2" | cat "$folder/zone" - >"$folder/feed"
}
split_up() {
    commands "$1" "$2" | awk -v each="$(($2 / $3))" 'NR % each == 1 || each == 1 { print "worker" } { print }' |
        cat "$folder/zone" - >"$folder/run"
}

# quickest FILE WORDS..: the quickest of nine runs, in microseconds
quickest() {
    local job=$1 begin
    shift
    for _ in 1 2 3 4 5 6 7 8 9; do
        begin=$(date +%s%N)
        "$program" "$@" --origin example. --chunks 4096 <"$job" >/dev/null
        echo $((($(date +%s%N) - begin) / 1000))
    done | sort -n | sed -n 1p
}
split_up one 1 1
reading=$(quickest "$folder/run" run)
printf 'reading the zone: %s ms\n' "$((reading / 1000))"
for kind in questions drawn front; do
    listed "$kind" 10000
    for workers in 1 2 4; do
        split_up "$kind" 10000 "$workers"
        printf '%s, %s workers: feed %s ms, run %s ms\n' "$kind" "$workers" \
            "$((($(quickest "$folder/feed" feed --workers "$workers") - reading) / 1000))" \
            "$((($(quickest "$folder/run" run) - reading) / 1000))"
    done
done
command -v valgrind >/dev/null 2>&1 || exit 0

# instructions FILE WORDS..: those of one run, whose profile is kept
instructions() {
    local job=$1
    shift
    valgrind --tool=callgrind --callgrind-out-file="$folder/profile" "$program" "$@" --origin example. --chunks 4096 \
        <"$job" 2>&1 >/dev/null | sed -n 's/.*Collected : //p'
}
for count in 5000 10000; do
    listed questions "$count"
    split_up questions "$count" 1
    ran=$(instructions "$folder/run" run)
    fed=$(instructions "$folder/feed" feed --workers 1)
    printf '%s\n' "$((fed - ran))"
done >"$folder/more"
printf 'a command, handed out and put in order: %s instructions more than in a run\n' \
    "$((($(sed -n 2p "$folder/more") - $(sed -n 1p "$folder/more")) / 5000))"
callgrind_annotate --inclusive=yes --threshold=100 "$folder/profile" | grep -m 1 'feed_core::seat::next_number' ||
    printf 'next_number: no function of its own\n'

# busiest FILE WORDS..: the instructions of each worker's commands, by its thread, the most first
busiest() {
    local job=$1 profile
    shift
    rm -f "$folder"/thread*
    valgrind --tool=callgrind --separate-threads=yes --fair-sched=yes --callgrind-out-file="$folder/thread" "$program" "$@" \
        --origin example. --chunks 4096 <"$job" >/dev/null 2>&1
    for profile in "$folder"/thread-*; do
        callgrind_annotate --inclusive=yes --threshold=100 "$profile" | grep -F 'first+FnOnce::call_once' | grep -vF 'called by C'
    done | sed 's/ *(.*//; s/[ ,]//g' | sort -nr | paste -sd ' '
}
for kind in questions drawn front; do
    listed "$kind" 10000
    split_up "$kind" 10000 4
    printf '%s, feed, instructions of each of 4 workers: %s\n' "$kind" "$(busiest "$folder/feed" feed --workers 4)"
    printf '%s, run, instructions of each of 4 workers: %s\n' "$kind" "$(busiest "$folder/run" run)"
done
