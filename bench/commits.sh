#!/usr/bin/env bash
# Prints a table of what commits of the shared index take at names drawn at random: builds bench/commits.rattle in a copy of the crates that it needs,
# which takes some minutes the first time, and runs it on 10,000, 100,000 and 500,000 names like `hq3k9x2`. KIND is `exchange` (one item by a
# `write`), `four` (two names out, and the two before in again), `below` (a name put in below another, and the one before taken out), `update`
# (one item by an `update`) or `thin` (nine names of ten taken out by one `write`). Each is done with nobody beside it, and then while a
# snapshot of the first version is held. Nanoseconds are of one run; instructions (valgrind's callgrind) are those of the transactions alone,
# without reading the input, as the difference of 5,000 and 3,000 of them, since in the first ones malloc puts together once what was freed in reading
# the names. Where LMDB is installed (liblmdb-dev, and a C compiler), bench/lmdb.c does the same by it, without waiting for the disk.
# Usage: bench/commits.sh [PROGRAM [NAMES..]] >bench/results/commits.tsv: where the built program is or is to stay, and how many names. With words in KINDS
# only these kinds, and only while nothing is held. Changes nothing but files in a temporary folder.
set -eu
here=$(cd "$(dirname "$0")" && pwd)
folder=$(mktemp -d)
trap 'rm -rf "$folder"' EXIT
built=$folder/crates/commits/out/commits
program=${1:-$built}

# builds the program
build() {
    below='zone_model dns_name shift_key pin_core packed_node trie_model chunk_cells trie_read chunk_sets chunk_hints chunk_usage trie_space trie_write evacuate shared_cells qp_multi'
    crate=$folder/crates/commits
    mkdir -p "$crate/src" "$crate/proofs"
    cp "$here/../HANDLES" "$folder/"
    for name in $below; do
        cp -r "$here/../crates/$name" "$folder/crates/"
    done
    cp "$here/commits.rattle" "$crate/src/main.rt"
    {
        grep -E "^($(tr ' ' '|' <<<"$below"))[ :]" "$here/../crates.txt"
        printf '%s\n' 'commits may_wait=8: dns_name shift_key trie_model trie_write qp_multi'
    } >"$folder/crates.txt"

    # the program's proofs, each under a line with its name
    (cd "$crate/proofs" && while IFS= read -r line; do
        case $line in
            '== '*) file=${line#== } && mkdir -p "$(dirname "$file")" && : >"$file" ;;
            *) printf '%s\n' "$line" >>"$file" ;;
        esac
    done) <<'PROOFS'
== rise/Answers.antt
use Rattle.std.proofs.Common.{◌≡◌, ℕ, zero, suc, ◌-◌, ◌<◌, ◌≤◌, inl, inr, List, [], ◌∷◌, length, drop, get_or, arith, rules, refl, sym, ◌∙◌, subst}
use Rattle.std.proofs.lemmas.Bool.{cases_lt}
use Rattle.trie_model.specs.Keys.{at, Entry, Less, Rises}
use Rattle.trie_write.specs.declared.item.Item.{Item}
use Rattle.trie_write.specs.Entries.{entry_of, entries_of_items}
use Rattle.commits.proofs.rise.Goals as goal

less_then : (a b c : List ℕ) → Less a b → Less b c → Less a c
less_then a b c l m = elim (cases_lt l.place m.place) [
  | inl x ↦ record { place = l.place; same = λ i k. l.same i k ∙ m.same i (omega arith); lower = (let e = m.same l.place x in let f = l.lower in omega arith) }
  | inr y ↦ elim (cases_lt m.place l.place) [
    | inl x ↦ record { place = m.place; same = λ i k. l.same i (omega arith) ∙ m.same i k; lower = (let e = l.same m.place x in let f = m.lower in omega arith) }
    | inr z ↦ (
        let e : l.place ≡ m.place = omega arith in
        let f = subst (λ (i : ℕ). at b i < at c i) (sym e) m.lower in
        record { place = l.place; same = λ i k. l.same i k ∙ m.same i (omega arith); lower = (let g = l.lower in omega arith) }
        )
  ]
]

rises_at : (items : List Item) (k : ℕ) (x y : Item) → suc k < length items → x ≡ get_or items k x → y ≡ get_or items (suc k) y → Less (entry_of x).key (entry_of y).key → Rises (entries_of_items (drop (suc k) items)) → Rises (entries_of_items (drop k items))
rises_at [] k x y n ex ey l r = absurd (omega arith)
rises_at (a ∷ []) k x y n ex ey l r = absurd (omega arith)
rises_at (a ∷ (b ∷ more)) zero x y n ex ey l r =
    let here : Less (entry_of a).key (entry_of b).key = subst (λ (u : Item). Less (entry_of u).key (entry_of b).key) ex (subst (λ (v : Item). Less (entry_of x).key (entry_of v).key) ey l) in
    (λ z i. elim i [ inl e ↦ subst (λ (w : Entry). Less (entry_of a).key w.key) (sym e) here | inr j ↦ less_then (entry_of a).key (entry_of b).key z.key here (r.0 z j) ], r)
rises_at (a ∷ (b ∷ more)) (suc k) x y n ex ey l r = rises_at (b ∷ more) k x y (omega arith) ex ey l r

end_rises : (items : List Item) → Rises (entries_of_items (drop (length items - 1) items))
end_rises [] = tt
end_rises (a ∷ []) = (λ z i. absurd i, tt)
end_rises (a ∷ (b ∷ more)) = let e : length (a ∷ (b ∷ more)) - 1 ≡ suc (length (b ∷ more) - 1) = omega arith in subst (λ (n : ℕ). Rises (entries_of_items (drop n (a ∷ (b ∷ more))))) (sym e) (end_rises (b ∷ more))

pub loop-left-init : goal.loop-left-init
loop-left-init c = record { rising = end_rises c.args.items.now; within = omega arith }

pub loop-left-preserved : goal.loop-left-preserved
loop-left-preserved c =
    let inv = c.loop-left.invariant in
    let test = c.loop-left-test.true in
    let within = inv.within in
    let before = subst (λ (k : List ℕ). Less k c.key-in-loop-left.result) c.key.ensures (c.comes_before.ensures (search rules)) in
    let l = subst (Less (entry_of c.index-items-first.result).key) c.key-in-loop-left.ensures before in
    let e : c.loop-left.left - 1 ≡ suc (c.loop-left.left - 2) = omega arith in
    let f : c.loop-left.left - 1 - 1 ≡ c.loop-left.left - 2 = omega arith in
    record {
      rising = subst (λ (n : ℕ). Rises (entries_of_items (drop n c.args.items.now))) (sym f) (rises_at c.args.items.now (c.loop-left.left - 2) c.index-items-first.result c.index-items-second.result (omega arith) c.index-items-first.is
          (subst (λ (n : ℕ). c.index-items-second.result ≡ get_or c.args.items.now n c.index-items-second.result) e c.index-items-second.is) l (subst (λ (n : ℕ). Rises (entries_of_items (drop n c.args.items.now))) e inv.rising));
      within = omega arith;
    }

pub returns : goal.returns
returns c all =
    let test = c.loop-left-test.false in
    let e : c.loop-left.left - 1 ≡ 0 = omega arith in
    subst (λ (n : ℕ). Rises (entries_of_items (drop n c.args.items.now))) e c.loop-left.invariant.rising
== rise/Invariants.antt
use Rattle.std.proofs.Common.{◌-◌, ◌≤◌, length, drop}
use Rattle.trie_model.specs.Keys.{Rises}
use Rattle.trie_write.specs.Entries.{entries_of_items}
use Rattle.commits.proofs.rise.Given as goal

abbrev pub invariant-loop-left : goal.invariant-loop-left
invariant-loop-left l = record {
  rising : Rises (entries_of_items (drop (l.left - 1) l.items));
  within : l.left ≤ length l.items;
}

abbrev pub decreases-loop-left : goal.decreases-loop-left
decreases-loop-left l = l.left
== apply_all/Invariants.antt
use Rattle.std.proofs.Common.{◌≡◌}
use Rattle.std.specs.Prelude.{IsSomeAnd}
use Rattle.qp_multi.specs.WorkingVersions.{Works}
use Rattle.commits.proofs.apply_all.Given as goal

abbrev pub invariant-loop-operation : goal.invariant-loop-operation
invariant-loop-operation g l = record {
  home : l.transaction.home.ghost_name ≡ l.fn.transaction.home.ghost_name;
  locked : l.transaction.locked.ghost_name ≡ l.fn.transaction.locked.ghost_name;
  place : l.transaction.locked.now.place ≡ l.fn.transaction.locked.now.place;
  works : IsSomeAnd l.transaction.locked.now.working Works;
}
== commit_all/Invariants.antt
use Rattle.std.proofs.Common.{◌≡◌}
use Rattle.std.specs.Prelude.{IsSome}
use Rattle.commits.proofs.commit_all.Given as goal

abbrev pub invariant-loop-block : goal.invariant-loop-block
invariant-loop-block g l = (IsSome l.pass.seat) × (l.pass.place ≡ l.index.place)
== play/Invariants.antt
use Rattle.std.proofs.Common.{[], ◌∷◌}
use Rattle.commits.proofs.play.Given as goal

abbrev pub ghosts-run : goal.ghosts-run
ghosts-run g a = record { tables = a.blank.shared.table.shared.table_id ∷ [] }
PROOFS

    git -C "$folder" init -q
    (cd "$crate" && rt run </dev/null >"$folder/build" 2>&1) || true
    [ -x "$built" ] || { tail -20 "$folder/build"; exit 1; }
    [ "$program" = "$built" ] || cp "$built" "$program"
}
[ -x "$program" ] || build

# NAMES names, and COUNT transactions of a kind
input() {
    python3 "$here/commits.py" "$@"
}
ours() {
    "$program" "$@"
}
theirs() {
    rm -rf "$folder/db" && mkdir "$folder/db" && "$folder/lmdb" "$folder/db" "$@"
}
# NAMES COUNT KIND, and a program with its words
counted() {
    input "$1" "$2" "$3" >"$folder/input"
    rm -rf "$folder/db" && mkdir "$folder/db"
    valgrind --tool=callgrind --callgrind-out-file=/dev/null --toggle-collect='*commits::commit::*' --toggle-collect='transaction*' "${@:4}" <"$folder/input" 2>&1 >/dev/null | sed -n 's/.*Collected : //p'
}
# NAMES KIND HELD, and a name with what runs it, and the program with its words: a line of the table
told() {
    local names=$1 kind=$2 held=$3 who=$4 middle mean most late count
    input "$names" 20000 "$kind" >"$folder/input"
    read -r middle mean most late count <<<"$("$5" $held <"$folder/input")"
    if [ -z "$middle" ]; then
        printf '%s\t%s\t%s\t%s\tno room\n' "$who" "$names" "$kind" "${held:-none}"
    elif [ "$kind" = thin ]; then
        printf '%s\t%s\t%s\t%s\t%s\t-\t-\t-\t-\n' "$who" "$names" "$kind" "${held:-none}" $((middle / (names / 10 * 9)))
    else
        printf '%s\t%s\t%s\t%s\t%s\t%s\t%s\t%s\t%s\n' "$who" "$names" "$kind" "${held:-none}" "$middle" "$mean" "$most" "$late" \
            $((($(counted "$names" 5000 "$kind" "${@:6}" $held) - $(counted "$names" 3000 "$kind" "${@:6}" $held)) / 2000))
    fi
}
lmdb=
if printf '#include <lmdb.h>\n' | cc -E - >/dev/null 2>&1; then
    cc -O2 -o "$folder/lmdb" "$here/lmdb.c" -llmdb && lmdb=yes
fi
# (of `thin`, nanoseconds for each name that is taken out)
printf 'index\tnames\tkind\tsnapshot\tmiddle ns\tmean ns\tslowest ns\tover 1 ms\tinstructions\n'
[ $# -gt 1 ] && shift || set -- 10000 100000 500000
for names in "$@"; do
    for kind in ${KINDS:-exchange four below update thin}; do
        for held in '' held; do
            [ -z "${KINDS:-}" ] || [ -z "$held" ] || continue
            told "$names" "$kind" "$held" qpzone ours "$program"
            [ -z "$lmdb" ] || told "$names" "$kind" "$held" LMDB theirs "$folder/lmdb" "$folder/db"
        done
    done
done
