#!/usr/bin/env bash
# Times the program on inputs of 16 MiB that are made to cost much, and says how each ended: seconds, the largest resident set,
# the exit status and the first line of the answer. Usage: bench/hostile.sh [PROGRAM [NAME..]]; build it first, as the README
# says. Changes nothing but files of its own in a temporary folder.
set -eu
here=$(cd "$(dirname "$0")" && pwd)
program=${1:-$here/../crates/qpzone/out/qpzone}
[ $# -eq 0 ] || shift
folder=$(mktemp -d)
trap 'rm -rf "$folder"' EXIT
python3 "$here/hostile.py" | while read -r name origin; do
    if [ $# -gt 0 ]; then case " $* " in *" $name "*) ;; *) continue ;; esac; fi
    python3 "$here/hostile.py" "$name" >"$folder/input"
    command=check
    ! grep -q '^%%$' "$folder/input" || command=run
    status=0
    /usr/bin/time -q -f '%e s, %M KiB' -o "$folder/time" \
        "$program" "$command" --origin "$origin" --chunks 4096 <"$folder/input" >"$folder/answer" || status=$?
    printf '%s: %s bytes, %s, status %s, %s\n' "$name" "$(stat -c %s "$folder/input")" "$(cat "$folder/time")" \
        "$status" "$(head -n 1 "$folder/answer" | cut -c 1-60)"
done
