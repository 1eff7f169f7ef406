#!/usr/bin/env bash
# Says whether BIND takes the dumps of the examples' zones, and prints the same zones of them. Then times `qpzone dump` in both
# styles beside what BIND, NSD and Knot print of a zone, where they are installed, on one zone of address records with names in
# random order. Usage: bench/dump.sh [RECORDS [PROGRAM..]] (500,000 records); several programs are timed in one run. Prints
# seconds, the largest resident set and how much was written; with valgrind also how many instructions a name it takes the first
# program to check the zone and to dump it, as the difference between two smaller zones. Installs nothing, and changes nothing
# but files of its own in a temporary folder.
set -eu
here=$(cd "$(dirname "$0")" && pwd)
records=${1:-500000}
shift || true
[ $# -gt 0 ] || set -- "$here/../crates/qpzone/out/qpzone"
program=$1
folder=$(mktemp -d)
trap 'rm -rf "$folder"' EXIT
# agrees NAME STYLE: whether BIND prints the same of a zone and of its dump
agrees() {
    "$program" dump --origin example. --style "$2" <"$folder/$1" >"$folder/dump"
    printed "$folder/dump" | cmp -s - "$folder/printed"
}
# printed FILE: the zone as BIND prints it
printed() {
    named-compilezone -q -i none -k ignore -n ignore -m ignore -r ignore -F text -s full -o - example. "$1"
}
if command -v named-compilezone >/dev/null 2>&1; then
    for job in "$here"/../examples/*.job; do
        name=$(basename "$job" .job)
        # Several zones have no dump.
        if [ "$name" = zones ]; then continue; fi
        sed '/^%%$/,$d' "$job" >"$folder/$name"
        printed "$folder/$name" >"$folder/printed"
        for style in full short; do
            agrees "$name" "$style" && said='the same zone' || said='ANOTHER ZONE'
            printf '%s.job, %s dump: %s\n' "$name" "$style" "$said"
        done
    done
else
    printf 'named-compilezone: not installed\n'
fi
zone_of() { python3 "$here/hosts.py" "$1" 1 one | sed '/^%%$/,$d' >"$2"; }
zone_of "$records" "$folder/zone"
printf '%s records, %s bytes\n' "$records" "$(stat -c %s "$folder/zone")"
# timed NAME COMMAND..: three runs, with the zone as standard input for those that read it there
timed() {
    local name=$1
    shift
    if ! command -v "$1" >/dev/null 2>&1; then
        printf '%s: not installed\n' "$name"
        return
    fi
    for _ in 1 2 3; do
        /usr/bin/time -f "$name: %e s, %M KiB" -o "$folder/time" "$@" <"$folder/zone" >"$folder/out" 2>"$folder/said" ||
            printf '%s: ended with %s\n' "$name" "$?"
        printf '%s, %s bytes\n' "$(tail -n 1 "$folder/time")" "$(stat -c %s "$folder/out")"
    done
}
for each in "$@"; do
    timed "$(basename "$each") dump" "$each" dump --origin example. --chunks 4096
    timed "$(basename "$each") dump --style short" "$each" dump --origin example. --style short --chunks 4096
done
timed 'named-compilezone -s full' named-compilezone -q -i none -F text -s full -o - example. "$folder/zone"
timed 'named-compilezone -s relative' named-compilezone -q -i none -F text -s relative -o - example. "$folder/zone"
timed 'nsd-checkzone -p' nsd-checkzone -p example. "$folder/zone"
if kzonecheck --help 2>/dev/null | grep -q -- ' --print'; then
    timed 'kzonecheck -p' kzonecheck -p -o example. "$folder/zone"
else
    printf 'kzonecheck -p: not installed\n'
fi
# instructions COUNT WORDS..: those that the program takes for a zone of COUNT records
instructions() {
    local count=$1
    shift
    zone_of "$count" "$folder/part"
    valgrind --tool=callgrind --callgrind-out-file=/dev/null "$program" "$@" --origin example. --chunks 4096 \
        <"$folder/part" 2>&1 >/dev/null | sed -n 's/.*Collected : //p'
}
if command -v valgrind >/dev/null 2>&1; then
    few=$((records / 20))
    many=$((records / 10))
    for words in check dump 'dump --style short'; do
        # shellcheck disable=SC2086
        printf 'qpzone %s: %s instructions a name\n' "$words" \
            "$((($(instructions "$many" $words) - $(instructions "$few" $words)) / (many - few)))"
    done
fi
