#!/usr/bin/env bash
# Refuses the program each growth of its memory in turn, the first, the second and so on, for each job in examples/, and for `check`
# and `make`. Each run must end with status 7 and nothing written, or as the run to which nothing was refused; the latter where a
# thread couldn't be started, whose work another does then. Says for each job how many growths were refused, and ends with 1 where
# a run ended otherwise.
# Usage: bench/memory.sh [PROGRAM]; build it first, as the README says. Needs a C compiler. Changes nothing but files of its own in
# a temporary folder.
set -u
here=$(cd "$(dirname "$0")" && pwd)
program=${1:-$here/../crates/qpzone/out/qpzone}
folder=$(mktemp -d)
trap 'rm -rf "$folder"' EXIT
cat >"$folder/refuse.c" <<'C'
#include <errno.h>
#include <stdlib.h>

void *__libc_malloc(size_t), *__libc_calloc(size_t, size_t), *__libc_realloc(void *, size_t);

static long asked, refused = -1;

static int is_refused(void) {
    if (refused < 0) {
        const char *number = getenv("REFUSED");
        refused = number ? atol(number) : 0;
    }
    if (__sync_add_and_fetch(&asked, 1) != refused) {
        return 0;
    }
    errno = ENOMEM;
    return 1;
}

void *malloc(size_t n) { return is_refused() ? 0 : __libc_malloc(n); }
void *calloc(size_t n, size_t m) { return is_refused() ? 0 : __libc_calloc(n, m); }
void *realloc(void *p, size_t n) { return is_refused() ? 0 : __libc_realloc(p, n); }
C
cc -O2 -shared -fPIC -o "$folder/refuse.so" "$folder/refuse.c" || exit 2

# refused NUMBER WORDS.. : a run to which this growth is refused; its status is in $status, what it wrote in $folder/wrote
refused() {
    REFUSED=$1 LD_PRELOAD=$folder/refuse.so "$program" "${@:2}" <"$folder/input" >"$folder/wrote" 2>"$folder/said"
    status=$?
}
# one run after another until sixteen in a row are as the run to which nothing is refused
each() {
    refused 0 "${@:2}"
    local due=$status number=0 told=0 alike=0
    cp "$folder/wrote" "$folder/due"
    while [ $alike -lt 16 ]; do
        number=$((number + 1))
        refused $number "${@:2}"
        if [ $status -eq 7 ] && [ ! -s "$folder/wrote" ]; then
            told=$((told + 1)) alike=0
        elif [ $status -eq "$due" ] && cmp -s "$folder/wrote" "$folder/due"; then
            alike=$((alike + 1))
        else
            printf '%s: growth %s: status %s, %s bytes\n' "$1" $number $status "$(stat -c %s "$folder/wrote")"
            failed=1 alike=0
        fi
    done
    printf '%s: of %s growths %s were told as want of memory\n' "$1" $((number - 16)) $told
}
failed=0
for job in "$here"/../examples/*.job; do
    case $job in */writers.job) continue ;; esac # its report may differ from run to run
    cp "$job" "$folder/input"
    each "$(basename "$job")" run --origin example. --chunks 16
done
sed '/^%%$/,$d' "$here/../examples/first.job" >"$folder/input"
each check check --origin example.
: >"$folder/input"
each make make --seed 7 --names 5 --turns 8 --workers 1
exit $failed
