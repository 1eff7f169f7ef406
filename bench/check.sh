#!/usr/bin/env bash
# Times `qpzone check` beside the zone checkers of NSD, Knot and BIND, where they are installed, on one zone of address records
# with names in random order, in turn, and prints a table: seconds and the largest resident set in KiB, each the middle of three
# runs. With valgrind also the instructions a name that `qpzone check` takes, by the difference of a twentieth and a tenth of the
# records. Usage: bench/check.sh [RECORDS [PROGRAM]] >bench/results/check.tsv (500,000 records). Installs nothing, and changes
# nothing but files of its own in a temporary folder.
set -eu
here=$(cd "$(dirname "$0")" && pwd)
records=${1:-500000}
program=${2:-$here/../crates/qpzone/out/qpzone}
folder=$(mktemp -d)
trap 'rm -rf "$folder"' EXIT
zone_of() { python3 "$here/hosts.py" "$1" 1 one | sed '/^%%$/,$d' >"$2"; }
zone_of "$records" "$folder/zone"
zone_of 10 "$folder/ten"

# NAME ZONE, and the program with its words, of which ZONE is read as standard input
once() {
    command -v "$3" >/dev/null 2>&1 || return 0
    /usr/bin/time -a -o "$folder/$1" -f '%e %M' "${@:3}" <"$2" >/dev/null 2>&1 || true
}
# NAME RECORDS: the middle of its runs
middle() {
    [ -s "$folder/$1" ] || return 0
    sort -n "$folder/$1" | sed -n 2p | while read -r seconds kib; do
        printf '%s\t%s\t%s\t%s\n' "$1" "$2" "$seconds" "$kib"
    done
}
printf 'program\trecords\tseconds\tKiB\n'
for _ in 1 2 3; do
    once qpzone "$folder/zone" "$program" check --origin example. --chunks 4096
    once NSD "$folder/zone" nsd-checkzone example. "$folder/zone"
    once Knot "$folder/zone" kzonecheck -o example. "$folder/zone"
    once BIND "$folder/zone" named-checkzone -i none example. "$folder/zone"
done
for name in qpzone NSD Knot BIND; do
    middle "$name" "$records"
done
rm -f "$folder/qpzone"
for _ in 1 2 3; do
    once qpzone "$folder/ten" "$program" check --origin example. --chunks 4096
done
middle qpzone 10

counted() {
    zone_of "$1" "$folder/part"
    valgrind --tool=callgrind --callgrind-out-file=/dev/null "$program" check --origin example. --chunks 4096 \
        <"$folder/part" 2>&1 >/dev/null | sed -n 's/.*Collected : //p'
}
if command -v valgrind >/dev/null 2>&1; then
    few=$((records / 20))
    printf 'instructions a name: %s\n' $((($(counted $((few * 2))) - $(counted "$few")) / few)) >&2
fi
