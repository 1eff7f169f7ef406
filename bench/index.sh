#!/usr/bin/env bash
# Counts the instructions of the shared index's calls, for each name: builds bench/index.rattle in a copy of the crates that it
# needs, which takes some minutes the first time, and runs it with valgrind's callgrind on 100,000 names.
# Usage: bench/index.sh [NAMES [PROGRAM]], where PROGRAM is one that was built before. Changes nothing but files in a temporary
# folder.
set -eu
here=$(cd "$(dirname "$0")" && pwd)
names=${1:-100000}
asked=10000
folder=$(mktemp -d)
trap 'rm -rf "$folder"' EXIT
program=${2:-$folder/crates/index/out/index}

# builds the program
build() {
    below='zone_model dns_name shift_key pin_core packed_node trie_model chunk_cells trie_read chunk_sets chunk_hints chunk_usage trie_space trie_write evacuate shared_cells qp_multi'
    crate=$folder/crates/index
    mkdir -p "$crate/src" "$crate/proofs"
    cp "$here/../HANDLES" "$folder/"
    for name in $below; do
        cp -r "$here/../crates/$name" "$folder/crates/"
    done
    cp "$here/index.rattle" "$crate/src/main.rt"
    {
        grep -E "^($(tr ' ' '|' <<<"$below"))[ :]" "$here/../crates.txt"
        printf '%s\n' 'index may_wait=8: dns_name shift_key packed_node trie_model chunk_cells trie_read trie_write qp_multi'
    } >"$folder/crates.txt"

    # the program's proofs, each under a line with its name
    (cd "$crate/proofs" && while IFS= read -r line; do
        case $line in
            '== '*) file=${line#== } && mkdir -p "$(dirname "$file")" && : >"$file" ;;
            *) printf '%s\n' "$line" >>"$file" ;;
        esac
    done) <<'PROOFS'
== ask_each/Invariants.antt
use Rattle.std.proofs.Common.{◌≡◌}
use Rattle.std.specs.Prelude.{IsSome}
use Rattle.index.proofs.ask_each.Given as goal

abbrev pub invariant-loop-name : goal.invariant-loop-name
invariant-loop-name g l = (IsSome l.pass.seat) × (l.pass.place ≡ l.index.place)
== build_all/Invariants.antt
use Rattle.std.proofs.Common.{[], ◌∷◌}
use Rattle.index.proofs.build_all.Given as goal

abbrev pub ghosts-open_all : goal.ghosts-open_all
ghosts-open_all a = record { tables = a.blank.shared.table.shared.table_id ∷ [] }
== work_alone/Invariants.antt
use Rattle.std.proofs.Common.{[], ◌∷◌}
use Rattle.index.proofs.work_alone.Given as goal

abbrev pub ghosts-work_on : goal.ghosts-work_on
ghosts-work_on g a = record { tables = a.blank.shared.table.shared.table_id ∷ [] }
== get_each/Invariants.antt
use Rattle.std.proofs.Common.{◌≡◌}
use Rattle.index.proofs.get_each.Given as goal

abbrev pub invariant-loop-name : goal.invariant-loop-name
invariant-loop-name g l = l.reading ≡ l.initial.reading
== look_up/Answers.antt
use Rattle.std.proofs.Common.{◌∙◌, sym, subst}
use Rattle.index.proofs.look_up.Goals as goal

pub behind-requires : goal.behind-requires
behind-requires g c =
    let h = c.requires in let x = c.lookup.ensures.split h.0 h.1.0 h.1.1 in
    (x.before, (x.after, subst (λ v. g.V.Reading.stands v c.lookup.new.iter x.before x.after) (sym c.lookup.ensures.same) x.standing))

pub ahead-requires : goal.ahead-requires
ahead-requires g c =
    let h = c.requires in let x = c.lookup.ensures.split h.0 h.1.0 h.1.1 in
    let y = c.behind.ensures.stays x.before x.after (subst (λ v. g.V.Reading.stands v c.lookup.new.iter x.before x.after) (sym c.lookup.ensures.same) x.standing) in
    (x.before, (x.after, subst (λ v. g.V.Reading.stands v c.behind.new.iter x.before x.after) (sym c.behind.ensures.same) y))

pub returns-in-Some-ahead-clause-stands : goal.returns-in-Some-ahead-clause-stands
returns-in-Some-ahead-clause-stands g c =
    let h = c.requires in let x = c.lookup.ensures.split h.0 h.1.0 h.1.1 in
    let y = c.behind.ensures.stays x.before x.after (subst (λ v. g.V.Reading.stands v c.lookup.new.iter x.before x.after) (sym c.lookup.ensures.same) x.standing) in
    let z = c.ahead.ensures.stays x.before x.after (subst (λ v. g.V.Reading.stands v c.behind.new.iter x.before x.after) (sym c.behind.ensures.same) y) in
    (x.before, (x.after, subst (λ v. g.V.Reading.stands v c.ahead.new.iter x.before x.after) (sym c.ahead.ensures.same) z))

pub returns-in_default-ahead-clause-stands : goal.returns-in_default-ahead-clause-stands
returns-in_default-ahead-clause-stands g c =
    let h = c.requires in let x = c.lookup.ensures.split h.0 h.1.0 h.1.1 in
    let y = c.behind.ensures.stays x.before x.after (subst (λ v. g.V.Reading.stands v c.lookup.new.iter x.before x.after) (sym c.lookup.ensures.same) x.standing) in
    let z = c.ahead.ensures.stays x.before x.after (subst (λ v. g.V.Reading.stands v c.behind.new.iter x.before x.after) (sym c.behind.ensures.same) y) in
    (x.before, (x.after, subst (λ v. g.V.Reading.stands v c.ahead.new.iter x.before x.after) (sym c.ahead.ensures.same) z))
== look_up_each/Invariants.antt
use Rattle.trie_read.specs.Readings.{IsStanding}
use Rattle.index.proofs.look_up_each.Given as goal

abbrev pub invariant-loop-name : goal.invariant-loop-name
invariant-loop-name g l = IsStanding (g.V.Reading.stands l.reading l.place)
== put_all/Invariants.antt
use Rattle.std.proofs.Common.{◌≡◌}
use Rattle.std.specs.Prelude.{IsSomeAnd}
use Rattle.qp_multi.specs.WorkingVersions.{Works}
use Rattle.index.proofs.put_all.Given as goal

abbrev pub invariant-loop-item : goal.invariant-loop-item
invariant-loop-item g l = record {
  home : l.update.home.ghost_name ≡ l.fn.update.home.ghost_name;
  locked : l.update.locked.ghost_name ≡ l.fn.update.locked.ghost_name;
  place : l.update.locked.now.place ≡ l.fn.update.locked.now.place;
  works : IsSomeAnd l.update.locked.now.working Works;
}
== put_each/Invariants.antt
use Rattle.std.proofs.Common.{◌≡◌}
use Rattle.std.specs.Prelude.{IsSome}
use Rattle.index.proofs.put_each.Given as goal

abbrev pub invariant-loop-item : goal.invariant-loop-item
invariant-loop-item g l = (IsSome l.pass.seat) × (l.pass.place ≡ l.index.place)
== rise/Answers.antt
use Rattle.std.proofs.Common.{◌≡◌, ℕ, zero, suc, ◌-◌, ◌<◌, ◌≤◌, inl, inr, List, [], ◌∷◌, length, drop, get_or, arith, rules, refl, sym, ◌∙◌, subst}
use Rattle.std.proofs.lemmas.Bool.{cases_lt}
use Rattle.trie_model.specs.Keys.{at, Entry, Less, Rises}
use Rattle.trie_write.specs.declared.item.Item.{Item}
use Rattle.trie_write.specs.Entries.{entry_of, entries_of_items}
use Rattle.index.proofs.rise.Goals as goal

less_then : (a b c : List ℕ) → Less a b → Less b c → Less a c
less_then a b c l m = elim (cases_lt l.place m.place) [
  | inl x ↦ record { place = l.place; same = λ i k. l.same i k ∙ m.same i (omega arith); lower = (let e = m.same l.place x in let f = l.lower in omega arith) }
  | inr y ↦ elim (cases_lt m.place l.place) [
    | inl x ↦ record { place = m.place; same = λ i k. l.same i (omega arith) ∙ m.same i k; lower = (let e = l.same m.place x in let f = m.lower in omega arith) }
    | inr z ↦ (
        let e : l.place ≡ m.place = omega arith in
        let f = subst (λ (i : ℕ). at b i < at c i) (sym e) m.lower in
        record { place = l.place; same = λ i k. l.same i k ∙ m.same i (omega arith); lower = (let g = l.lower in omega arith) }
        )
  ]
]

rises_at : (items : List Item) (k : ℕ) (x y : Item) → suc k < length items → x ≡ get_or items k x → y ≡ get_or items (suc k) y → Less (entry_of x).key (entry_of y).key → Rises (entries_of_items (drop (suc k) items)) → Rises (entries_of_items (drop k items))
rises_at [] k x y n ex ey l r = absurd (omega arith)
rises_at (a ∷ []) k x y n ex ey l r = absurd (omega arith)
rises_at (a ∷ (b ∷ more)) zero x y n ex ey l r =
    let here : Less (entry_of a).key (entry_of b).key = subst (λ (u : Item). Less (entry_of u).key (entry_of b).key) ex (subst (λ (v : Item). Less (entry_of x).key (entry_of v).key) ey l) in
    (λ z i. elim i [ inl e ↦ subst (λ (w : Entry). Less (entry_of a).key w.key) (sym e) here | inr j ↦ less_then (entry_of a).key (entry_of b).key z.key here (r.0 z j) ], r)
rises_at (a ∷ (b ∷ more)) (suc k) x y n ex ey l r = rises_at (b ∷ more) k x y (omega arith) ex ey l r

end_rises : (items : List Item) → Rises (entries_of_items (drop (length items - 1) items))
end_rises [] = tt
end_rises (a ∷ []) = (λ z i. absurd i, tt)
end_rises (a ∷ (b ∷ more)) = let e : length (a ∷ (b ∷ more)) - 1 ≡ suc (length (b ∷ more) - 1) = omega arith in subst (λ (n : ℕ). Rises (entries_of_items (drop n (a ∷ (b ∷ more))))) (sym e) (end_rises (b ∷ more))

pub loop-left-init : goal.loop-left-init
loop-left-init c = record { rising = end_rises c.args.items.now; within = omega arith }

pub loop-left-preserved : goal.loop-left-preserved
loop-left-preserved c =
    let inv = c.loop-left.invariant in
    let test = c.loop-left-test.true in
    let within = inv.within in
    let before = subst (λ (k : List ℕ). Less k c.key-in-loop-left.result) c.key.ensures (c.comes_before.ensures (search rules)) in
    let l = subst (Less (entry_of c.index-items-first.result).key) c.key-in-loop-left.ensures before in
    let e : c.loop-left.left - 1 ≡ suc (c.loop-left.left - 2) = omega arith in
    let f : c.loop-left.left - 1 - 1 ≡ c.loop-left.left - 2 = omega arith in
    record {
      rising = subst (λ (n : ℕ). Rises (entries_of_items (drop n c.args.items.now))) (sym f) (rises_at c.args.items.now (c.loop-left.left - 2) c.index-items-first.result c.index-items-second.result (omega arith) c.index-items-first.is
          (subst (λ (n : ℕ). c.index-items-second.result ≡ get_or c.args.items.now n c.index-items-second.result) e c.index-items-second.is) l (subst (λ (n : ℕ). Rises (entries_of_items (drop n c.args.items.now))) e inv.rising));
      within = omega arith;
    }

pub returns : goal.returns
returns c all =
    let test = c.loop-left-test.false in
    let e : c.loop-left.left - 1 ≡ 0 = omega arith in
    subst (λ (n : ℕ). Rises (entries_of_items (drop n c.args.items.now))) e c.loop-left.invariant.rising
== rise/Invariants.antt
use Rattle.std.proofs.Common.{◌-◌, ◌≤◌, length, drop}
use Rattle.trie_model.specs.Keys.{Rises}
use Rattle.trie_write.specs.Entries.{entries_of_items}
use Rattle.index.proofs.rise.Given as goal

abbrev pub invariant-loop-left : goal.invariant-loop-left
invariant-loop-left l = record {
  rising : Rises (entries_of_items (drop (l.left - 1) l.items));
  within : l.left ≤ length l.items;
}

abbrev pub decreases-loop-left : goal.decreases-loop-left
decreases-loop-left l = l.left
== walk/Answers.antt
use Rattle.std.proofs.Common.{List, [], ◌∷◌, ◌++◌, sym, subst}
use Rattle.trie_model.specs.Keys.{Entry}
use Rattle.trie_read.specs.Readings.{IsStanding}
use Rattle.index.proofs.walk.Goals as goal

moved : (old new : List Entry → List Entry → Type 0) (before after : List Entry) → old before after → ((before after : List Entry) (e : Entry) → old before (e ∷ after) → new (before ++ e ∷ []) after) → ((before : List Entry) → old before [] → new before []) → IsStanding new
moved old new before [] s pass stay = (before, ([], stay before s))
moved old new before (e ∷ rest) s pass stay = (before ++ e ∷ [], (rest, pass before rest e s))

pub loop-preserved : goal.loop-preserved
loop-preserved g c =
    let h = c.loop.invariant in
    subst (λ v. IsStanding (g.V.Reading.stands v c.next_leaf.new.iter)) (sym c.next_leaf.ensures.same)
    (moved (g.V.Reading.stands c.loop.reading c.loop.iter) (g.V.Reading.stands c.loop.reading c.next_leaf.new.iter) h.0 h.1.0 h.1.1 c.next_leaf.ensures.passed c.next_leaf.ensures.stays)
== walk/Invariants.antt
use Rattle.trie_read.specs.Readings.{IsStanding}
use Rattle.index.proofs.walk.Given as goal

abbrev pub invariant-loop : goal.invariant-loop
invariant-loop g l = IsStanding (g.V.Reading.stands l.reading l.iter)
== work_on/Answers.antt
use Rattle.std.proofs.Common.{◌∙◌, sym}
use Rattle.index.proofs.work_on.Goals as goal

pub workers-requires : goal.workers-requires
workers-requires g c k p l = let h = c.in-Ok.ensures.passes k p l in (h.0, h.1 ∙ sym c.in-Ok.ensures.place)
== workers/Invariants.antt
use Rattle.std.proofs.Common.{◌≡◌, vec_len}
use Rattle.std.specs.Prelude.{IsSome}
use Rattle.std.specs.List.{All}
use Rattle.index.proofs.workers.Given as goal

abbrev pub decreases-loop-pass : goal.decreases-loop-pass
decreases-loop-pass g l = vec_len l.passes

abbrev pub invariant-loop-pass : goal.invariant-loop-pass
invariant-loop-pass g l = All (λ p. (IsSome p.seat) × (p.place ≡ l.index.place)) l.passes.items
PROOFS

    git -C "$folder" init -q
    (cd "$crate" && rt run </dev/null >"$folder/build" 2>&1) || true
    [ -x "$program" ] || { tail -20 "$folder/build"; exit 1; }
}
[ $# -gt 1 ] || build

# KIND: names that are there, that aren't, beside one that is, or below one
input() {
    python3 - "$names" "$1" "$asked" <<'PY'
import random
import sys

count, kind, asked = int(sys.argv[1]), sys.argv[2], int(sys.argv[3])
hosts = list(range(count))
random.Random(1).shuffle(hosts)
print("example.\nns.example.")
for host in hosts:
    print(f"n{host}.example.")
form = {"present": "n{}.example.", "absent": "m{}.example.", "beside": "n{}x.example.", "below": "a.n{}.example."}[kind]
for number in range(asked):
    print("?" + form.format(number * 7919 % count))
PY
}
counted() {
    valgrind --tool=callgrind --callgrind-out-file=/dev/null "$program" "$1" <"$2" 2>&1 >/dev/null | sed -n 's/.*Collected : //p'
}
for kind in present absent beside below; do
    input "$kind" >"$folder/$kind"
    counted open "$folder/$kind" >"$folder/$kind.open"
done
for work in get:present pin:present get:absent lookup:present lookup:absent lookup:beside lookup:below walk:present insert:absent insert:below; do
    kind=${work#*:}
    whole=$(counted "${work%:*}" "$folder/$kind")
    printf '%s, names %s: %s instructions\n' "${work%:*}" "$kind" $(((whole - $(cat "$folder/$kind.open")) / asked))
done

# opening an index with names in order: finding out that they are is taken off, and what opening one of two names takes, for the memory is counted too
opened() {
    python3 -c 'import sys; print("example."); print("".join(host + ".example.\n" for host in sorted(f"n{i}" for i in range(int(sys.argv[1])))) + "ns.example.")' "$1" >"$folder/sorted"
    echo $(($(counted build "$folder/sorted") - $(counted rise "$folder/sorted")))
}
printf 'open, a name: %s instructions\n' $((($(opened "$names") - $(opened 0)) / names))
