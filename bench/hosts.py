#!/usr/bin/env python3
"""Writes a job: a zone of N address records in random order, and a script that asks for one of them.

Usage: hosts.py N [SEED] [COMMANDS [COUNT]]
COMMANDS is `one` (one question, the default), `questions` (COUNT of them, 10,000 if not said), `absent` (as
many for names that aren't there), `below` (as many for names under those that are), `asks`, `denied` or `gets` (of
a live session: as many whole responses for names that are there, and for such that aren't, and answers), `blocks` (as many blocks
of one new address), `block` (one block of as many new addresses), `needs` or `neednots` (one block of as many
prerequisites, each of a name that is there, or isn't), `drawn` (as many questions, of which one in ten is a walk
through a thousand names, drawn at random) or `front` (the same, with all walks in front).
"""
import random
import sys


def zone(count, seed):
    yield "$TTL 300"
    yield "@ SOA ns hostmaster 1 3600 600 86400 60"
    yield "@ NS ns"
    yield "ns A 192.0.2.1"
    hosts = list(range(count))
    random.Random(seed).shuffle(hosts)
    for host in hosts:
        yield f"n{host} A 10.{host >> 16 & 255}.{host >> 8 & 255}.{host & 255}"


QUESTIONS = {"questions": "get n{} A", "absent": "get m{} A", "below": "get a.n{} A"}
LIVE = {"asks": "ask n{} A", "denied": "ask m{} A", "gets": "get n{} A"}
PREREQUISITES = {"needs": "need n{} A", "neednots": "neednot m{}"}
WALK = "walk . 1000"


def mixed(commands, count, most):
    walks = set(range(most // 10))
    if commands == "drawn":
        walks = set(random.Random(1).sample(range(most), most // 10))
    for question in range(most):
        yield WALK if question in walks else QUESTIONS["questions"].format(question * 7919 % count)


def script(commands, count, most):
    yield "%%"
    if commands not in LIVE:
        yield "worker"
    if commands == "one":
        yield "get n7 A"
    elif commands in QUESTIONS or commands in LIVE:
        line = QUESTIONS.get(commands) or LIVE[commands]
        for question in range(most):
            yield line.format(question * 7919 % count)
    elif commands in ("drawn", "front"):
        yield from mixed(commands, count, most)
    elif commands == "blocks":
        for host in range(most):
            yield from ("write", f"add m{host} 300 A 192.0.2.7", "commit")
    elif commands in PREREQUISITES:
        yield "write"
        for name in range(most):
            yield PREREQUISITES[commands].format(name * 7919 % count)
        yield "commit"
    elif commands == "block":
        yield "write"
        for host in range(most):
            yield f"add m{host} 300 A 192.0.2.7"
        yield "commit"
    else:
        sys.exit(__doc__)


def main():
    if len(sys.argv) < 2:
        sys.exit(__doc__)
    seed = int(sys.argv[2]) if len(sys.argv) > 2 else 1
    commands = sys.argv[3] if len(sys.argv) > 3 else "one"
    most = int(sys.argv[4]) if len(sys.argv) > 4 else 10_000
    for line in zone(int(sys.argv[1]), seed):
        print(line)
    for line in script(commands, int(sys.argv[1]), most):
        print(line)


main()
