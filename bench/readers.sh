#!/usr/bin/env bash
# Counts how many items threads read of one shared index in a second, without and with a writer beside them, at names drawn from
# all, and prints a table of it; and what a query costs. Builds bench/readers.rattle in a copy of the crates that it needs, which takes some
# minutes the first time. A run's time is that of the quickest of five, less that of the quickest that reads nothing.
# Usage: bench/readers.sh [GETS [PROGRAM]] >bench/results/readers.tsv, where 0 gets leave the seconds out, and PROGRAM is one that was
# built before. Changes nothing but files in a temporary folder.
set -eu
here=$(cd "$(dirname "$0")" && pwd)
gets=${1:-20000000}
folder=$(mktemp -d)
trap 'rm -rf "$folder"' EXIT
program=${2:-$folder/crates/readers/out/readers}

# builds the program
build() {
    below='zone_model dns_name shift_key pin_core packed_node trie_model chunk_cells trie_read chunk_sets chunk_hints chunk_usage trie_space trie_write evacuate shared_cells qp_multi'
    crate=$folder/crates/readers
    mkdir -p "$crate/src" "$crate/proofs"
    cp "$here/../HANDLES" "$folder/"
    for name in $below; do
        cp -r "$here/../crates/$name" "$folder/crates/"
    done
    cp "$here/readers.rattle" "$crate/src/main.rt"
    {
        grep -E "^($(tr ' ' '|' <<<"$below"))[ :]" "$here/../crates.txt"
        printf '%s\n' 'readers may_wait=7: dns_name shift_key packed_node trie_model chunk_cells trie_read trie_write qp_multi'
    } >"$folder/crates.txt"

    # the program's proofs, each under a line with its name
    (cd "$crate/proofs" && while IFS= read -r line; do
        case $line in
            '== '*) file=${line#== } && mkdir -p "$(dirname "$file")" && : >"$file" ;;
            *) printf '%s\n' "$line" >>"$file" ;;
        esac
    done) <<'PROOFS'
== get_each/Invariants.antt
use Rattle.std.proofs.Common.{◌≡◌}
use Rattle.readers.proofs.get_each.Given as goal

abbrev pub invariant-loop-number : goal.invariant-loop-number
invariant-loop-number g l = l.reading ≡ l.initial.reading
== read_on/Invariants.antt
use Rattle.std.proofs.Common.{◌≡◌}
use Rattle.std.specs.Prelude.{IsSome}
use Rattle.readers.proofs.read_on.Given as goal

abbrev pub invariant-loop-query : goal.invariant-loop-query
invariant-loop-query g l = (IsSome l.pass.seat) × (l.pass.place ≡ l.index.place)
== write_on/Invariants.antt
use Rattle.std.proofs.Common.{◌≡◌}
use Rattle.std.specs.Prelude.{IsSome}
use Rattle.readers.proofs.write_on.Given as goal

abbrev pub invariant-loop-place : goal.invariant-loop-place
invariant-loop-place g l = (IsSome l.pass.seat) × (l.pass.place ≡ l.index.place)
== put_all/Invariants.antt
use Rattle.std.proofs.Common.{◌≡◌}
use Rattle.std.specs.Prelude.{IsSomeAnd}
use Rattle.qp_multi.specs.WorkingVersions.{Works}
use Rattle.readers.proofs.put_all.Given as goal

abbrev pub invariant-loop-number : goal.invariant-loop-number
invariant-loop-number g l = record {
  home : l.update.home.ghost_name ≡ l.fn.update.home.ghost_name;
  locked : l.update.locked.ghost_name ≡ l.fn.update.locked.ghost_name;
  place : l.update.locked.now.place ≡ l.fn.update.locked.now.place;
  works : IsSomeAnd l.update.locked.now.working Works;
}
== workers/Invariants.antt
use Rattle.std.proofs.Common.{◌≡◌, vec_len}
use Rattle.std.specs.Prelude.{IsSome}
use Rattle.std.specs.List.{All}
use Rattle.readers.proofs.workers.Given as goal

abbrev pub decreases-loop-pass : goal.decreases-loop-pass
decreases-loop-pass g l = vec_len l.passes

abbrev pub invariant-loop-pass : goal.invariant-loop-pass
invariant-loop-pass g l = All (λ p. (IsSome p.seat) × (p.place ≡ l.index.place)) l.passes.items
== run/Answers.antt
use Rattle.std.proofs.Common.{◌∙◌, sym}
use Rattle.readers.proofs.run.Goals as goal

pub workers-requires : goal.workers-requires
workers-requires g c k p l = let h = c.in-Ok.ensures.passes k p l in (h.0, h.1 ∙ sym c.in-Ok.ensures.place)
== play/Invariants.antt
use Rattle.std.proofs.Common.{[], ◌∷◌}
use Rattle.readers.proofs.play.Given as goal

abbrev pub ghosts-run : goal.ghosts-run
ghosts-run g a = record { tables = a.blank.shared.table.shared.table_id ∷ [] }
PROOFS

    git -C "$folder" init -q
    (cd "$crate" && rt run </dev/null >"$folder/build" 2>&1) || true
    [ -x "$program" ] || { tail -20 "$folder/build"; exit 1; }
}
[ $# -gt 1 ] || build

# the fewest nanoseconds that one of five runs takes, and the fewest milliseconds of processors; what the quickest told is left in
# a file
TIMEFORMAT=%3U
took() {
    local begin spent used best= least=
    for _ in 1 2 3 4 5; do
        begin=$(date +%s%N)
        used=$({ time "$program" "$@" >"$folder/tells"; } 2>&1)
        spent=$(($(date +%s%N) - begin))
        used=$((10#${used/./}))
        if [ -z "$best" ] || [ "$spent" -lt "$best" ]; then
            best=$spent
            mv "$folder/tells" "$folder/told"
        fi
        if [ -z "$least" ] || [ "$used" -lt "$least" ]; then
            least=$used
        fi
    done
    echo "$best $least"
}
printf 'names\treaders\twriters\tgets a second\tcommits\n'
for names in 100000 500000; do
    for writes in 0 1; do
        [ "$gets" -gt 0 ] || break
        for readers in 1 2 4; do
            read -r idle _ <<<"$(took "$readers" 0 100 "$names" 0)"
            read -r busy _ <<<"$(took "$readers" "$gets" 100 "$names" "$writes")"
            read -r _ _ commits _ <"$folder/told"
            printf '%s\t%s\t%s\t%s\t%s\n' "$names" "$readers" "$writes" \
                $((readers * gets * 1000 / ((busy - idle) / 1000000 + 1))) "$commits"
        done
    done
done

counted() {
    valgrind --tool=callgrind --callgrind-out-file=/dev/null "$program" "$@" 2>&1 >/dev/null | sed -n 's/.*Collected : //p'
}
nothing=$(counted 1 0 100 100000 0)
for each in 1 100; do
    printf 'a get, %s in a query: %s instructions\n' "$each" $((($(counted 1 10000 "$each" 100000 0) - nothing) / 10000)) >&2
done
