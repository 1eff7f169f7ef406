#!/usr/bin/env python3
"""Writes a job: a zone of NAMES address records, and COUNT small transactions at names drawn at random.

Usage: blocks.py NAMES COUNT KIND [held]
KIND is `four` (two names deleted, the two before added again), `record` (one more record of a name), `below` (a TXT
added below a name, the one before deleted) or `update` (one more record by an `update`). With `held` a snapshot is taken first.
"""
import random
import sys

LETTERS = "abcdefghijklmnopqrstuvwxyz0123456789"


def drawn_names(draw, count):
    names = set()
    while len(names) < count:
        names.add("".join(draw.choice(LETTERS) for _ in range(draw.randint(5, 12))))
    return sorted(names)


def zone(names):
    yield "$TTL 300"
    yield "@ SOA ns hostmaster 1 3600 600 86400 60"
    yield "@ NS ns"
    yield "ns A 192.0.2.1"
    for name in names:
        yield f"{name} A 192.0.2.1"


def four(draw, names, count):
    before = []
    for _ in range(count):
        now = draw.sample(names, 2)
        yield "write"
        yield from (f"del {name}" for name in now if name not in before)
        yield from (f"add {name} 300 A 192.0.2.1" for name in before if name not in now)
        yield "commit"
        before = now


def below(draw, names, count):
    before = None
    for _ in range(count):
        now = draw.choice(names)
        yield "write"
        yield f'add _acme-challenge.{now} 300 TXT "gfj9Xq"'
        if before not in (None, now):
            yield f"del _acme-challenge.{before}"
        yield "commit"
        before = now


def record(draw, names, count, word="write"):
    for number in range(count):
        yield word
        yield f"add {draw.choice(names)} 300 A 192.0.{number >> 8}.{number & 255}"
        yield "commit"


def update(draw, names, count):
    return record(draw, names, count, "update")


KINDS = {kind.__name__: kind for kind in (four, record, below, update)}


def main():
    if len(sys.argv) < 4 or sys.argv[3] not in KINDS:
        sys.exit(__doc__)
    draw = random.Random(3)
    names = drawn_names(draw, int(sys.argv[1]))
    lines = [*zone(names), "%%", "worker"]
    if "held" in sys.argv[4:]:
        lines.append("hold")
    lines += KINDS[sys.argv[3]](draw, names, int(sys.argv[2]))
    print("\n".join(lines))


main()
