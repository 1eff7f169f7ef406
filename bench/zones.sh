#!/usr/bin/env bash
# Prints a table of what it takes to find a name's zone, and to ask for its item there, over 16 zones of 10,000 names like `hq3k9x2`, at names drawn
# at random over all zones; beside it what a query of one zone takes that is known, of 10,000 and of 160,000 names. Builds bench/zones.rattle in a copy
# of the crates that it needs, which takes some minutes the first time. Instructions (valgrind's callgrind) and nanoseconds of a processor are the
# difference to a run that asks nothing: instructions of 10,000 names, nanoseconds of 1,000,000, the quickest of five runs.
# Usage: bench/zones.sh [PROGRAM] >bench/results/zones.tsv, where PROGRAM is one that was built before. Changes nothing but files in a temporary folder.
set -eu
here=$(cd "$(dirname "$0")" && pwd)
folder=$(mktemp -d)
trap 'rm -rf "$folder"' EXIT
program=${1:-$folder/crates/zones/out/zones}

# builds the program
build() {
    below='zone_model dns_name shift_key pin_core packed_node trie_model chunk_cells trie_read chunk_sets chunk_hints chunk_usage trie_space trie_write evacuate shared_cells qp_multi zone_table'
    crate=$folder/crates/zones
    mkdir -p "$crate/src" "$crate/proofs"
    cp "$here/../HANDLES" "$folder/"
    for name in $below; do
        cp -r "$here/../crates/$name" "$folder/crates/"
    done
    cp "$here/zones.rattle" "$crate/src/main.rt"
    {
        grep -E "^($(tr ' ' '|' <<<"$below"))[ :]" "$here/../crates.txt"
        printf '%s\n' 'zones may_wait=6: zone_model dns_name shift_key trie_model chunk_cells trie_read trie_write shared_cells qp_multi zone_table'
    } >"$folder/crates.txt"

    # the program's proofs, each under a line with its name
    (cd "$crate/proofs" && while IFS= read -r line; do
        case $line in
            '== '*) file=${line#== } && mkdir -p "$(dirname "$file")" && : >"$file" ;;
            *) printf '%s\n' "$line" >>"$file" ;;
        esac
    done) <<'PROOFS'
== +are_apart/Answers.antt
use Rattle.std.proofs.Common.{refl, sym, subst}
use Rattle.std.specs.List.{IsDistinct}
use Rattle.zone_model.specs.Names.{same_name}
use Rattle.zone_table.specs.Openings.{origins_of}
use Rattle.zones.proofs.OriginLaws.{more_apart, none_apart}
use Rattle.zones.proofs.+are_apart.Goals as goal

pub returns-in_default-clause-different : goal.returns-in_default-clause-different
returns-in_default-clause-different t c = λ _. none_apart c.args.zones.now (sym c.in_default.ensures.cases)

pub returns-then-is_apart-clause-different : goal.returns-then-is_apart-clause-different
returns-then-is_apart-clause-different t c = λ apart.
    subst (λ zs. IsDistinct same_name (origins_of zs)) (sym c.in-Some.ensures.cases.0)
    (more_apart c.in-Some.first.now c.in-Some.others.now (c.if-is_apart.ensures refl) (c.are_apart.ensures.different apart))
== +are_apart/Invariants.antt
use Rattle.std.proofs.Common.{length}
use Rattle.zones.proofs.+are_apart.Given as goal

abbrev pub decreases-are_apart : goal.decreases-are_apart
decreases-are_apart l = length l.zones.now
== +is_apart/Invariants.antt
use Rattle.std.proofs.Common.{length}
use Rattle.zones.proofs.+is_apart.Given as goal

abbrev pub decreases-is_apart : goal.decreases-is_apart
decreases-is_apart l = length l.zones.now
== Lib.antt
mod OriginLaws
== OriginLaws.antt
-- Zones of different origins.
use Rattle.std.proofs.Common.{◌≡◌, List, [], ◌∷◌, arith, false, length}
use Rattle.std.specs.List.{AllByRecursion, IsDistinct}
use Rattle.zone_model.specs.Names.{same_name}
use Rattle.zone_table.specs.declared.opening.ZoneItems.{ZoneItems}
use Rattle.zone_table.specs.Openings.{origins_of}

pub none_apart : (zs : List ZoneItems) → 0 ≡ length zs → IsDistinct same_name (origins_of zs)
unfolding IsDistinct
none_apart [] none = tt
none_apart (z ∷ zs) none = absurd (omega arith)

pub more_apart : (z : ZoneItems) (zs : List ZoneItems) → AllByRecursion (λ other. same_name z.origin other ≡ false) (origins_of zs) → IsDistinct same_name (origins_of zs) → IsDistinct same_name (origins_of (z ∷ zs))
unfolding IsDistinct
more_apart z zs apart others = (apart, others)
== ask_each/Invariants.antt
use Rattle.zone_table.specs.Passes.{IsPassOf}
use Rattle.zones.proofs.ask_each.Given as goal

abbrev pub invariant-loop-name : goal.invariant-loop-name
invariant-loop-name g l = IsPassOf l.zones.origins.items l.pass
== fill_all/Invariants.antt
use Rattle.zone_table.specs.Passes.{IsPassOf}
use Rattle.zones.proofs.fill_all.Given as goal

abbrev pub invariant-loop-zone : goal.invariant-loop-zone
invariant-loop-zone g l = IsPassOf l.zones.origins.items l.pass
== fill_zone/Answers.antt
use Rattle.zone_table.proofs.PassLaws.{went}
use Rattle.zones.proofs.fill_zone.Goals as goal

pub returns : goal.returns
returns g c =
    (went c.args.zones.now.origins.items c.args.pass.now c.args.zone c.zone-place.result.now c.fill.new.pass c.requires.pass c.zone-place.ensures.value c.fill.ensures.here c.fill.ensures.place).pass
== get/Answers.antt
use Rattle.zone_table.proofs.PassLaws.{went}
use Rattle.zones.proofs.get.Goals as goal

pub returns : goal.returns
returns g c =
    (went c.args.zones.now.origins.items c.args.pass.now c.args.zone c.zone-place.result.now c.read_item.new.pass c.requires.pass c.zone-place.ensures.value c.read_item.ensures.here c.read_item.ensures.place).pass
== get_each/Invariants.antt
use Rattle.zone_table.specs.Passes.{IsPassOf}
use Rattle.zones.proofs.get_each.Given as goal

abbrev pub invariant-loop-name : goal.invariant-loop-name
invariant-loop-name g l = IsPassOf l.zones.origins.items l.pass
== locate_each/Invariants.antt
use Rattle.zone_table.specs.Passes.{IsPassOf}
use Rattle.zones.proofs.locate_each.Given as goal

abbrev pub invariant-loop-name : goal.invariant-loop-name
invariant-loop-name g l = IsPassOf l.zones.origins.items l.pass
== put_all/Invariants.antt
use Rattle.std.proofs.Common.{◌≡◌}
use Rattle.std.specs.Prelude.{IsSomeAnd}
use Rattle.qp_multi.specs.WorkingVersions.{Works}
use Rattle.zones.proofs.put_all.Given as goal

abbrev pub invariant-loop-item : goal.invariant-loop-item
invariant-loop-item g l = record {
  home : l.update.home.ghost_name ≡ l.fn.update.home.ghost_name;
  locked : l.update.locked.ghost_name ≡ l.fn.update.locked.ghost_name;
  place : l.update.locked.now.place ≡ l.fn.update.locked.now.place;
  works : IsSomeAnd l.update.locked.now.working Works;
}
== run/Answers.antt
use Rattle.std.proofs.Common.{◌≡◌, ◌+◌, ◌∷◌, suc, map, Some, arith, subst}
use Rattle.std.specs.List.{slice_get}
use Rattle.zone_table.proofs.Lists.{mapped_at}
use Rattle.zones.proofs.run.Goals as goal

pub work_on-requires-clause-named : goal.work_on-requires-clause-named
work_on-requires-clause-named g c = λ k b there.
    let tables = c.in-Ok.table.shared.table.shared.table_id ∷ map (λ b. b.shared.table.shared.table_id) c.in_ok-blanks.blanks.items in
    let next : suc k ≡ k + 1 = omega arith in
    subst (λ n. slice_get tables n ≡ Some b.shared.table.shared.table_id) next (mapped_at (λ b. b.shared.table.shared.table_id) c.in_ok-blanks.blanks.items k b there)
== run/Invariants.antt
use Rattle.std.proofs.Common.{◌∷◌, map}
use Rattle.zones.proofs.run.Given as goal

abbrev pub ghosts-work_on : goal.ghosts-work_on
ghosts-work_on g a = record { tables = a.table.shared.table.shared.table_id ∷ map (λ b. b.shared.table.shared.table_id) a.blanks.items }
== tables/Answers.antt
use Rattle.std.proofs.Common.{◌≡◌, ◌∙◌, ◌+◌, ℕ, [], ◌∷◌, length, length-append, map, sym, ap, subst}
use Rattle.std.proofs.lemmas.List.{map-append}
use Rattle.std.proofs.lemmas.List.Elements.{All-push}
use Rattle.std.specs.List.{All}
use Rattle.shared_cells.specs.declared.view.TableSize.{TableSize}
use Rattle.zones.proofs.tables.Goals as goal

pub loop-zone-preserved : goal.loop-zone-preserved
loop-zone-preserved c =
    let i = c.loop-zone.invariant in
    let blanks = c.loop-zone.blanks.items in
    let blank = c.in_ok-new.field-0 in
    let pushed = c.in_ok-push.ensures.items in
    let sizes = ap (map (λ b. b.shared.table.shared.key)) pushed ∙ map-append (λ b. b.shared.table.shared.key) blanks (blank ∷ []) in
    record {
      many = ap length pushed ∙ length-append blanks (blank ∷ []) ∙ ap (λ (n : ℕ). n + 1) i.many;
      passes = subst (All (λ (s : TableSize). s.passes ≡ 1)) (sym sizes) (All-push (λ (s : TableSize). s.passes ≡ 1) (map (λ b. b.shared.table.shared.key) blanks) blank.shared.table.shared.key i.passes c.in_ok-new.ensures.passes);
    }
== tables/Invariants.antt
use Rattle.std.proofs.Common.{◌≡◌, length, map}
use Rattle.std.specs.List.{All}
use Rattle.zones.proofs.tables.Given as goal

abbrev pub invariant-loop-zone : goal.invariant-loop-zone
invariant-loop-zone l = record {
  many : length l.blanks.items ≡ l._zone;
  passes : All (λ s. s.passes ≡ 1) (map (λ b. b.shared.table.shared.key) l.blanks.items);
}
== work_on/Answers.antt
use Rattle.std.proofs.Common.{◌∙◌, [], ◌∷◌, length, sym, ap, subst}
use Rattle.std.specs.List.{slice_get}
use Rattle.zone_table.specs.Openings.{origins_of}
use Rattle.zone_table.specs.Passes.{IsPassOf}
use Rattle.zone_table.proofs.Lists.{all_at, at_seam}
use Rattle.zones.proofs.work_on.Goals as goal

pub fill_all-requires : goal.fill_all-requires
fill_all-requires g c =
    subst (λ os. IsPassOf os c.in_ok-pass.pass) (sym c.in-Ok.ensures.origins)
    (all_at (IsPassOf (origins_of c.args.items.now)) c.in-Ok.passes.items (length c.pop.new.self.items) c.in_ok-pass.pass c.in-Ok.ensures.passes.passes
    (ap (λ ps. slice_get ps (length c.pop.new.self.items)) c.in_ok-pass.ensures.items ∙ at_seam c.pop.new.self.items c.in_ok-pass.pass []))
PROOFS

    git -C "$folder" init -q
    (cd "$crate" && rt run </dev/null >"$folder/build" 2>&1) || true
    [ -x "$program" ] || { tail -20 "$folder/build"; exit 1; }
}
[ $# -gt 0 ] || build

# ZONES NAMES ASKED: names drawn from all zones, and so many zones of so many names
input() {
    python3 - "$@" <<'PY'
import random
import sys

zones, count, asked = map(int, sys.argv[1:])
letters = "abcdefghijklmnopqrstuvwxyz0123456789"
draw = random.Random(3)


def word():
    return "".join(draw.choice(letters) for _ in range(draw.randint(5, 12)))


def words():
    found = set()
    while len(found) < count:
        found.add(word())
    return sorted(found)


origins = [word() + ".example." for _ in range(zones)]
lists = [words() for _ in origins]
for _ in range(asked):
    zone = draw.randrange(zones)
    print(f"{draw.choice(lists[zone])}.{origins[zone]}")
for origin, names in zip(origins, lists):
    print("+" + origin)
    for name in names:
        print(f"{name}.{origin}")
PY
}
# KIND CHUNKS INPUT: instructions
counted() {
    valgrind --tool=callgrind --callgrind-out-file=/dev/null "$program" "$1" "$2" <"$3" 2>&1 >/dev/null | sed -n 's/.*Collected : //p'
}
# KIND CHUNKS INPUT: nanoseconds of a processor, of the quickest of five
taken() {
    python3 - "$program" "$@" <<'PY'
import resource
import subprocess
import sys

program, kind, chunks, path = sys.argv[1:]
best = None
for _ in range(5):
    before = resource.getrusage(resource.RUSAGE_CHILDREN).ru_utime
    subprocess.run([program, kind, chunks], stdin=open(path), stdout=subprocess.DEVNULL, check=True)
    took = resource.getrusage(resource.RUSAGE_CHILDREN).ru_utime - before
    best = took if best is None else min(best, took)
print(round(best * 1e9))
PY
}
# ZONES NAMES CHUNKS KIND..: a line of the table for each kind
told() {
    input "$1" "$2" 10000 >"$folder/few"
    input "$1" "$2" 1000000 >"$folder/many"
    local none at
    none=$(counted open "$3" "$folder/few")
    at=$(taken open "$3" "$folder/many")
    for kind in "${@:4}"; do
        printf '%s\t%s\t%s\t%s\t%s\n' "$1" "$2" "$kind" $((($(counted "$kind" "$3" "$folder/few") - none) / 10000)) \
            $((($(taken "$kind" "$3" "$folder/many") - at) / 1000000))
    done
}
printf 'zones\tnames of each\twhat\tinstructions\tnanoseconds\n'
told 16 10000 256 locate ask
told 1 10000 256 get
told 1 160000 2048 get
