#!/usr/bin/env bash
# How many chunks a job needs, beside how many `qpzone size` tells: the least number, found by halving, with which it ends and no
# transaction is refused as `full`. The jobs are those in examples/, a made load, and 10,000 updates of one record each, by one worker
# and by four, over a zone of 1,000 names. Where workers run beside each other a run may need more than another, so each number is
# tried three times. Prints tab-separated lines: job, chunks needed, chunks told.
# Usage: bench/chunks.sh [PROGRAM]; build it first, as the README says. Changes nothing but files of its own in a temporary folder.
set -eu
here=$(cd "$(dirname "$0")" && pwd)
program=${1:-$here/../crates/qpzone/out/qpzone}
folder=$(mktemp -d)
trap 'rm -rf "$folder"' EXIT

# updates WORKERS: a zone, and 10,000 updates that each add a record to a name or take it out again
updates() {
  python3 "$here/hosts.py" 1000 1 one | sed '/^%%$/,$d'
  awk -v workers="$1" 'BEGIN {
    print "%%"
    srand(1)
    for (worker = 1; worker <= workers; worker++) {
      print "worker"
      for (turn = 0; turn < 5000 / workers; turn++) {
        name = "n" int(rand() * 1000)
        printf "update\nadd %s 300 A 192.0.2.%d\ncommit\nupdate\ndel %s A 192.0.2.%d\ncommit\n", name, worker, name, worker
      }
    }
  }'
}

# runs CHUNKS WORD.. : whether the job in $folder/job does with so many chunks, three times
runs() {
  local chunks=$1 status
  shift
  for _ in 1 2 3; do
    status=0
    "$program" "$@" --chunks "$chunks" <"$folder/job" >"$folder/report" || status=$?
    if ((status > 1)) || grep -q ' REFUSED full ' "$folder/report" || grep -q '^make .* refused [1-9]' "$folder/report"; then return 1; fi
  done
}

# needed WORD.. : the least number with which it does; none where 4,096 are too few
needed() {
  local low=16 high=4096 middle
  runs "$high" "$@" || { echo none; return; }
  while ((low < high)); do
    middle=$(((low + high) / 2))
    if runs "$middle" "$@"; then high=$middle; else low=$((middle + 1)); fi
  done
  echo "$low"
}

told() { "$program" size --origin example. <"$folder/job" | awk '{ print $2 }'; }

printf 'job\tneeded\ttold\n'
for job in "$here"/../examples/*.job; do
  cp "$job" "$folder/job"
  printf '%s\t%s\t%s\n' "$(basename "$job")" "$(needed run --origin example.)" "$(told)"
done
for workers in 1 4; do
  updates "$workers" >"$folder/job"
  printf '10,000 updates by %s\t%s\t%s\n' "$workers" "$(needed run --origin example.)" "$(told)"
done
: >"$folder/job"
printf 'made load\t%s\t-\n' "$(needed make --seed 1 --names 1000 --turns 200 --workers 4)"
