#!/usr/bin/env bash
# Times the program on zones of 3,000 to 300,000 address records and on scripts of 10,000 questions or changes.
# Usage: bench/load.sh [PROGRAM]; build it first, as the README says. Prints seconds and the largest
# resident set; changes nothing but files of its own in a temporary folder.
set -eu
here=$(cd "$(dirname "$0")" && pwd)
program=${1:-$here/../crates/qpzone/out/qpzone}
folder=$(mktemp -d)
trap 'rm -rf "$folder"' EXIT
run() {
    python3 "$here/hosts.py" "$2" 1 "$3" >"$folder/job"
    /usr/bin/time -f "$1: %e s, %M KiB" "$program" run --origin example. --chunks 4096 <"$folder/job" >/dev/null
}
run '3,000 records, one question' 3000 one
run '3,000 records, 10,000 blocks' 3000 blocks
run '100,000 records, one question' 100000 one
run '100,000 records, 10,000 questions' 100000 questions
run '300,000 records, one question' 300000 one
run '300,000 records, 10,000 blocks' 300000 blocks
run '300,000 records, a block of 10,000' 300000 block
