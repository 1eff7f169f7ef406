#!/usr/bin/env bash
# Prints the examples as cases for the program `conformance`, which keeps them in crates/conformance/data/examples.cases:
# each job with its report (that of a list as one worker gives it), the made load with its summary, a zone with its dumps, and two zones with
# what makes of the first the second. Where workers change the zone beside each other, the versions
# of their commands are left open. After a change:
#   examples/cases.sh > crates/conformance/data/examples.cases
set -eu
cd "$(dirname "$0")"
echo "# The jobs of examples/, with their reports. Written by examples/cases.sh."
for job in first:0 delegations:0 transactions:1 writers:0 made:0; do
  name=${job%:*}
  printf '\n= %s.job\n' "$name"
  sed 's/^/| /' "$name.job"
  echo "due ${job#*:}"
  case $name in
  writers) sed -E 's/^([0-9]+\.[0-9]+) v[0-9]+/\1 v?/; s/^/| /' "$name.report" ;;
  *) sed 's/^/| /' "$name.report" ;;
  esac
done
for case in 'list feed --origin example. --workers 1' 'zones zones'; do
  name=${case%% *}
  printf '\n= %s.job\nwords %s\n' "$name" "${case#* }"
  sed 's/^/| /' "$name.job"
  echo 'due 0'
  sed 's/^/| /' "$name.report"
done
printf '\n= the load that made.job is the text of\nwords make --seed 7 --names 5 --turns 8 --workers 1\ndue 0\n'
sed 's/^/| /' made.summary
for style in full short; do
  printf '\n= the zone of delegations.job, dumped\nwords dump --origin example. --style %s\n' "$style"
  sed '/^%%$/,$d; s/^/| /' delegations.job
  echo 'due 0'
  sed 's/^/| /' "delegations.$style"
done
for style in script nsupdate; do
  printf '\n= what changed.zones changes, in style %s\nwords diff --origin example. --style %s\n' "$style" "$style"
  sed 's/^/| /' changed.zones
  echo 'due 1'
  sed 's/^/| /' "changed.$style"
done
