#!/usr/bin/env python3
"""Writes what bench/commits.rattle and bench/lmdb.c read: NAMES names at random, and COUNT transactions of a kind.

Usage: commits.py NAMES COUNT KIND
KIND is `exchange`, `four`, `below`, `update` or `thin` (bench/commits.sh tells what each does).
"""
import random
import sys

LETTERS = "abcdefghijklmnopqrstuvwxyz0123456789"


def drawn_names(draw, count):
    names = set()
    while len(names) < count:
        names.add("".join(draw.choice(LETTERS) for _ in range(draw.randint(5, 12))))
    return sorted(names)


def moving(draw, names, most, many, mark):
    """Names put in, and those of the transaction before taken out; with no mark the other way round."""
    before = []
    for _ in range(most):
        now = draw.sample(names, many)
        out, put = (before, now) if mark else (now, before)
        yield [f"-{mark}{name}.example." for name in out if name not in put] + [
            f"+{mark}{name}.example." for name in put if name not in out
        ]
        before = now


def transactions(draw, names, most, kind):
    if kind == "thin":
        yield [">w"] + [f"-{name}.example." for i, name in enumerate(names) if i % 10]
    elif kind in ("four", "below"):
        moves = moving(draw, names, most, 2, "") if kind == "four" else moving(draw, names, most, 1, "_acme-challenge.")
        yield from ([">w", *words] for words in moves if words)
    else:
        word = ">u" if kind == "update" else ">w"
        yield from ([word, f"={draw.sample(names, 1)[0]}.example."] for _ in range(most))


def main():
    if len(sys.argv) != 4:
        sys.exit(__doc__)
    draw = random.Random(3)
    names = drawn_names(draw, int(sys.argv[1]))
    print("example.")
    for name in names:
        print(f"{name}.example.")
    for words in transactions(draw, names, int(sys.argv[2]), sys.argv[3]):
        print(*words)


main()
