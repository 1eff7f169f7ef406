#!/usr/bin/env bash
# Times `qpzone diff` in both styles beside ldns-compare-zones and nsdiff, where they are installed, on two zones of address records with names in
# random order, one in a hundred of which differs: a third is gone, a third is new, and a third has another address.
# Usage: bench/diff.sh [NAMES [PROGRAM]] (500,000 names). Prints seconds, the largest resident set and how much was written, of three runs each.
# Both zones together have at most 16 MiB of text. Installs nothing, and changes nothing but files of its own in a temporary folder.
set -eu
here=$(cd "$(dirname "$0")" && pwd)
names=${1:-500000}
program=${2:-$here/../crates/qpzone/out/qpzone}
folder=$(mktemp -d)
trap 'rm -rf "$folder"' EXIT
python3 - "$names" "$folder" <<'END'
import random, sys

names, folder = int(sys.argv[1]), sys.argv[2]
draw = random.Random(1)
digits = "0123456789abcdefghijklmnopqrstuvwxyz"


def label(number):
    text = ""
    while number or not text:
        number, digit = divmod(number, 36)
        text = digits[digit] + text
    return text


def write(name, serial, owned):
    owned = list(owned.items())
    draw.shuffle(owned)
    with open(f"{folder}/{name}", "w") as file:
        file.write(f"$TTL 300\n@ SOA ns h {serial} 3600 600 86400 60\n@ NS ns\n")
        file.writelines(f"{label(number)} A 1.1.1.{last}\n" for number, last in owned)


old = {number: draw.randrange(10) for number in range(names)}
new = dict(old)
few = max(names // 300, 1)
for at, number in enumerate(draw.sample(range(names), 2 * few)):
    if at % 2:
        del new[number]
    else:
        new[number] = 9 - new[number]
new.update((names + more, 1) for more in range(few))
write("old", 1, old)
write("new", 2, new)
END
{
  cat "$folder/old"
  echo %%
  cat "$folder/new"
} >"$folder/both"
printf '%s names, %s bytes of both zones\n' "$names" "$(stat -c %s "$folder/both")"
# timed NAME COMMAND..: three runs, with both zones as standard input for those that read them there
timed() {
  local name=$1
  shift
  if ! command -v "$1" >/dev/null 2>&1; then
    printf '%s: not installed\n' "$name"
    return
  fi
  for _ in 1 2 3; do
    status=0
    /usr/bin/time -f "$name: %e s, %M KiB" -o "$folder/time" "$@" <"$folder/both" >"$folder/out" 2>"$folder/said" || status=$?
    printf '%s, status %s, %s bytes\n' "$(tail -n 1 "$folder/time")" "$status" "$(stat -c %s "$folder/out")"
  done
}
timed 'qpzone diff' "$program" diff --origin example.
timed 'qpzone diff --style nsupdate' "$program" diff --origin example. --style nsupdate
# these two want an origin and a class that are written out
for zone in old new; do sed -e '1i $ORIGIN example.' "$folder/$zone" >"$folder/$zone.zone"; done
timed 'ldns-compare-zones -a' ldns-compare-zones -a "$folder/old.zone" "$folder/new.zone"
timed 'nsdiff' nsdiff -S file example. "$folder/old.zone" "$folder/new.zone"
