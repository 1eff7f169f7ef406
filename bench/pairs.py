#!/usr/bin/env python3
"""Draws pairs of zones, and says of how many what `qpzone diff` writes makes of the first the second.

Usage: bench/pairs.py [COUNT [SEED [PROGRAM]]] (300 pairs). The script is run over the first zone, behind a `worker` and as one list of commands, and
a dump of what it makes is compared with the second zone's. Lines for nsupdate have to be the script's, word by word. One pair more differs in
10,001 records. The last line is 'N passed, N failed'.
"""
import os
import random
import subprocess
import sys

HERE = os.path.dirname(os.path.realpath(__file__))
LABELS = ["a", "b", "c", "ns", "*", "a.b", "c.b", "x.y.z", "m\\.n", "zz"]
TIMES = [60, 300]
SOA = "@ {ttl} SOA ns hostmaster {serial} 3600 600 86400 {minimum}"


def record(draw):
    kind = draw.choice(["A", "A", "AAAA", "TXT", "MX", "TYPE300", "PTR"])
    number = draw.randrange(1, 4)
    data = {
        "A": f"192.0.2.{number}",
        "AAAA": f"2001:db8::{number}",
        "TXT": f'"text {number}" {number}',
        "MX": f"{number} ns",
        "TYPE300": f"\\# 2 00{number:02x}",
        "PTR": f"p{number}.example.net.",
    }
    return kind, data[kind]


def drawn_name(draw):
    """The sets of a name: an alias, or records of some types, each with one time."""
    if draw.random() < 0.2:
        return {"CNAME": (draw.choice(TIMES), [draw.choice(LABELS[:4])])}
    sets = {}
    for _ in range(draw.randrange(1, 5)):
        kind, data = record(draw)
        ttl, records = sets.setdefault(kind, (draw.choice(TIMES), []))
        if data not in records:
            records.append(data)
    return sets


def drawn_zone(draw):
    names = draw.sample(LABELS, draw.randrange(0, len(LABELS)))
    soa = (draw.choice(TIMES), draw.randrange(254, 258), draw.choice([60, 60, 61]))
    return soa, {name: drawn_name(draw) for name in names}


def changed(draw, zone):
    """The same zone, some names of which are others."""
    soa, names = zone
    others = drawn_zone(draw)
    kept = {name: sets for name, sets in names.items() if draw.random() < 0.7}
    new = {name: sets for name, sets in others[1].items() if name not in kept and draw.random() < 0.6}
    return (soa if draw.random() < 0.4 else others[0]), {**kept, **new}


def text_of(zone, draw):
    (ttl, serial, minimum), names = zone
    lines = [f"@ {TIMES[0]} NS ns", SOA.format(ttl=ttl, serial=serial, minimum=minimum)]
    for name, sets in names.items():
        for kind, (time, records) in sets.items():
            lines += [f"{name} {time} {kind} {data}" for data in records]
    draw.shuffle(lines)
    return "".join(line + "\n" for line in lines)


def run(program, words, text, statuses=(0, 1)):
    made = subprocess.run([program, *words, "--origin", "example."], input=text.encode(), capture_output=True, check=False)
    if made.returncode not in statuses:
        raise RuntimeError(f"{words} ended with {made.returncode}: {made.stdout[:200]!r}")
    return made.stdout.decode(), made.returncode


def dumped(report):
    """What a report's only DUMP says; nothing of the script may be refused."""
    lines = report.splitlines()
    if any(" REFUSED" in line for line in lines):
        raise RuntimeError(f"refused: {report[:300]}")
    at = next(i for i, line in enumerate(lines) if " DUMP " in line)
    return lines[at + 1 : at + 1 + int(lines[at].rsplit(" ", 1)[1])]


def without_serial(line):
    words = line.split(" ")
    if words[3] == "SOA":
        words[6] = "?"
    return " ".join(words)


def as_updates(script):
    """The lines of nsupdate that a script's are."""
    lines = []
    for line in script.splitlines():
        words = line.split(" ")
        if words[0] == "update":
            lines.append("zone example.")
        elif words[0] == "commit":
            lines.append("send")
        elif words[0] == "add":
            lines.append(" ".join(["update", "add", *words[1:3], "IN", *words[3:]]))
        else:
            lines.append(" ".join(["update", "delete", words[1]] + (["IN", *words[2:]] if len(words) > 2 else [])))
    return "".join(line + "\n" for line in lines)


def judge(program, before, after, serial):
    both = before + "%%\n" + after
    script, status = run(program, ["diff", "--serial", serial], both)
    wanted = run(program, ["dump"], after, (0,))[0].splitlines()
    if serial == "ignore":
        wanted = [without_serial(line) for line in wanted]
    jobs = [(["run", "--chunks", "512"], "worker\n" + script + "dump\n"), (["feed", "--workers", "1", "--chunks", "512"], script + "dump\n")]
    for words, job in jobs:
        made = dumped(run(program, words, before + "%%\n" + job, (0,))[0])
        if serial == "ignore":
            made = [without_serial(line) for line in made]
        if made != wanted:
            return f"{words}: another zone"
    if (status == 1) != bool(script):
        return f"status {status}"
    if run(program, ["diff", "--serial", serial, "--style", "nsupdate"], both)[0] != as_updates(script):
        return "other lines for nsupdate"
    blocks = script.split("commit\n")[:-1]
    if any(len(block.splitlines()) - 1 > 10000 for block in blocks) or any(len(block.splitlines()) - 1 < 10000 for block in blocks[:-1]):
        return "other transactions"
    return ""


def main():
    count = int(sys.argv[1]) if len(sys.argv) > 1 else 300
    draw = random.Random(int(sys.argv[2]) if len(sys.argv) > 2 else 1)
    program = sys.argv[3] if len(sys.argv) > 3 else f"{HERE}/../crates/qpzone/out/qpzone"
    pairs = []
    for _ in range(count):
        zone = drawn_zone(draw)
        other = changed(draw, zone) if draw.random() < 0.7 else drawn_zone(draw)
        pairs.append((text_of(zone, draw), text_of(other, draw)))
    few = "@ 60 SOA ns hostmaster 1 2 3 4 5\n"
    pairs.append((few, few + "".join(f"{n} 60 A 192.0.2.1\n" for n in range(10001))))
    failed = 0
    for number, (before, after) in enumerate(pairs):
        for serial in ("keep", "ignore"):
            try:
                said = judge(program, before, after, serial)
            except RuntimeError as error:
                said = str(error)
            if said:
                failed += 1
                print(f"pair {number}, --serial {serial}: {said}\n{before}%%\n{after}"[:2000])
    print(f"{2 * len(pairs) - failed} passed, {failed} failed")
    sys.exit(failed > 0)


main()
