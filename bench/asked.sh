#!/usr/bin/env bash
# Counts the instructions of a question at an index alone, at one that the table of zones finds, and through `zone_server`, with valgrind's
# callgrind: the difference between 20,000 and 10,000 of them, at a zone of 10,000 hosts, with the records counted. Ends with 1 where the server's is
# over 100 dearer than at the index alone. The program is built by tools/native.py, which proves nothing, in a copy of the crates: that takes some minutes.
# Usage: bench/asked.sh [PROGRAM], where PROGRAM is one that was built before. Changes nothing but files in a temporary folder.
set -eu
here=$(cd "$(dirname "$0")" && pwd)
folder=$(mktemp -d)
trap 'rm -rf "$folder"' EXIT
program=${1:-$folder/asked}

# builds the program
build() {
    mkdir -p "$folder/crates"
    cp "$here/../HANDLES" "$folder/"
    for crate in "$here"/../crates/*/; do
        mkdir -p "$folder/crates/$(basename "$crate")"
        for part in src specs proofs; do
            [ ! -d "$crate$part" ] || cp -r "$crate$part" "$folder/crates/$(basename "$crate")/"
        done
    done
    mkdir -p "$folder/crates/asked/src"
    cp "$here/asked.rattle" "$folder/crates/asked/src/main.rt"
    {
        cat "$here/../crates.txt"
        printf '%s\n' 'asked: dns_name index_items job_commands master_file qp_multi rr_data trie_write zone_answer zone_server zone_table'
    } >"$folder/crates.txt"
    git -C "$folder" init -q
    (cd "$folder/crates/asked" && "$here/../tools/native.py" "$program") >"$folder/build" 2>&1 || { tail -5 "$folder/build"; exit 2; }
}
(($#)) || build

# counted WHERE: instructions of a question
counted() {
    local times counts=()
    for times in 10000 20000; do
        [ "$("$program" "$1" "$times")" = "$times records" ] || { echo 'a record is wanting'; exit 2; }
        counts+=("$(valgrind --tool=callgrind --callgrind-out-file=/dev/null "$program" "$1" "$times" 2>&1 >/dev/null | sed -n 's/.*Collected : //p')")
    done
    echo $(((counts[1] - counts[0]) / 10000))
}
alone=$(counted 0)
table=$(counted 1)
server=$(counted 2)
printf 'a question at an index: %s instructions, by the table of zones: %s, through a server: %s\n' "$alone" "$table" "$server"
[ $((server - alone)) -le 100 ]
