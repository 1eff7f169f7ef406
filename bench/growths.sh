#!/usr/bin/env bash
# Refuses a program over the shared index each growth of its memory in turn: bench/growths.rattle makes all that it needs, opens an index, and
# then asks each of its calls. A growth that is refused before the index is open is told as want of memory (status 7); none that comes
# later may change an answer (status 1). Says how many growths were refused, and ends with 1 where a run ended otherwise. The program is built
# by tools/native.py, which proves nothing, in a copy of the crates that it needs: that takes some minutes.
# Usage: bench/growths.sh [PROGRAM], where PROGRAM is one that was built before. Needs a C compiler. Changes nothing but files in a temporary
# folder.
set -eu
here=$(cd "$(dirname "$0")" && pwd)
folder=$(mktemp -d)
trap 'rm -rf "$folder"' EXIT
program=${1:-$folder/growths}

# builds the program
build() {
    below='zone_model dns_name shift_key pin_core packed_node trie_model chunk_cells trie_read chunk_sets chunk_hints chunk_usage trie_space trie_write evacuate shared_cells qp_multi'
    mkdir -p "$folder/crates/growths/src"
    cp "$here/../HANDLES" "$folder/"
    for name in $below; do
        cp -r "$here/../crates/$name" "$folder/crates/"
    done
    cp "$here/growths.rattle" "$folder/crates/growths/src/main.rt"
    {
        grep -E "^($(tr ' ' '|' <<<"$below"))[ :]" "$here/../crates.txt"
        printf '%s\n' 'growths may_wait=8: dns_name shift_key trie_model trie_read trie_write qp_multi'
    } >"$folder/crates.txt"
    git -C "$folder" init -q
    (cd "$folder/crates/growths" && "$here/../tools/native.py" "$program") >"$folder/build" 2>&1 || { tail -5 "$folder/build"; exit 2; }
}
(($#)) || build
sed -n "/^cat .*refuse.c.*<<'C'\$/,/^C\$/p" "$here/memory.sh" | sed '1d;$d' >"$folder/refuse.c"
cc -O2 -shared -fPIC -o "$folder/refuse.so" "$folder/refuse.c"

# status NUMBER: that of a run to which this growth is refused
status() {
    local status=0
    REFUSED=$1 LD_PRELOAD=$folder/refuse.so "$program" </dev/null >/dev/null 2>&1 || status=$?
    printf '%s' "$status"
}
[ "$(status 0)" = 0 ] || { echo 'an answer is wrong though nothing was refused'; exit 1; }
number=0 told=0 alike=0 failed=0
# until sixteen in a row changed nothing
while [ $alike -lt 16 ]; do
    number=$((number + 1))
    case $(status $number) in
        7) told=$((told + 1)) alike=0 ;;
        0) alike=$((alike + 1)) ;;
        *) echo "growth $number: an answer is another"; failed=1 alike=0 ;;
    esac
done
printf 'of %s growths %s were told as want of memory before the index was open\n' $((number - 16)) $told
exit $failed
