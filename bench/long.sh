#!/usr/bin/env bash
# Times names with TXT records of 65,000 octets: `qpzone check` of a zone of 240 of them (16 MB) beside the zone checkers of BIND, NSD and
# Knot, where they are installed; then 1,000 transactions that each write one such name anew, without a snapshot and with one held; and
# counts the instructions of one of those, and of a question for the record, by the difference of 60 and 20.
# Usage: bench/long.sh [PROGRAM]. Installs nothing, and changes nothing but files of its own in a temporary folder.
set -eu
here=$(cd "$(dirname "$0")" && pwd)
program=${1:-$here/../crates/qpzone/out/qpzone}
folder=$(mktemp -d)
trap 'rm -rf "$folder"' EXIT
timed() {
    name=$1
    shift
    if command -v "$1" >/dev/null 2>&1; then
        for _ in 1 2 3; do
            /usr/bin/time -f "$name: %e s, %M KiB" "$@" >/dev/null 2>"$folder/time" || true
            tail -n 1 "$folder/time"
        done
    else
        printf '%s: not installed\n' "$name"
    fi
}
instructions() {
    valgrind --tool=callgrind --callgrind-out-file=/dev/null "$program" run --origin example. --chunks 256 <"$folder/job" 2>&1 >/dev/null |
        sed -n 's/.*Collected : //p'
}
python3 "$here/long.py" 240 | sed '/^%%$/,$d' >"$folder/zone"
for _ in 1 2 3; do
    /usr/bin/time -f 'qpzone check: %e s, %M KiB' "$program" check --origin example. --chunks 4096 <"$folder/zone" 2>&1 >/dev/null
done
timed named-checkzone named-checkzone -i none example. "$folder/zone"
timed nsd-checkzone nsd-checkzone example. "$folder/zone"
timed kzonecheck kzonecheck -o example. "$folder/zone"
for held in '' held; do
    python3 "$here/long.py" 12 1000 $held >"$folder/job"
    for _ in 1 2 3; do
        /usr/bin/time -f "1,000 transactions ${held:-without a snapshot}: %e s, %M KiB" "$program" run --origin example. --chunks 256 \
            <"$folder/job" 2>&1 >/dev/null
    done
done
if command -v valgrind >/dev/null 2>&1; then
    for count in 20 60; do
        python3 "$here/long.py" 12 "$count" >"$folder/job"
        printf '%s transactions: %s instructions\n' "$count" "$(instructions)"
    done
    for count in 20 60; do
        python3 "$here/long.py" 12 >"$folder/job"
        for _ in $(seq "$count"); do echo 'get t1 TXT' >>"$folder/job"; done
        printf '%s questions: %s instructions\n' "$count" "$(instructions)"
    done
fi
