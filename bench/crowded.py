#!/usr/bin/env python3
"""Draws jobs that fill small tables, runs them, and tests each outcome `full` by the bound that docs/SCRIPT.md tells ('When full can come').

Usage: crowded.py PROGRAM JOBS SEED. Each job has a zone of a few names with long items, on 16 to 96 chunks; its workers exchange items while
snapshots keep old versions. The report is replayed: which block made which version, and how many cells each set on the way has. Prints one
line: jobs, how many outcomes were full, of how many the bound says something (no set over 768 cells), and how many break it; exits with 1
where one does.
"""
import random
import re
import subprocess
import sys

HEAD = "$TTL 300\n@ SOA a a 1 2 3 4 5\n@ NS a\n"
FULL = re.compile(r"(\d+)\.(\d+) v(\d+) REFUSED full at (\d+) kept (.*)")
ENDED = re.compile(r"(\d+)\.(\d+) v(\d+) (COMMITTED|ROLLED BACK|REFUSED .*)")
# The apex: a leaf, and an item of a name of 9 octets, an SOA of 42 (two names of 11) and an NS of 11, each with 12 octets in front.
APEX = "example."


def cells_of(octets):
    """The cells that an item of so many octets fills, and its links."""
    return (octets + 15) // 16 + ((octets - 17) // 4080 if octets >= 17 else 0)


def item_octets(name, length):
    """An item: the name, then for the one RRset its type, time and number (8), and for the record its length (2) and its octets."""
    return len(name) + 1 + len("example") + 2 + 8 + 2 + length


def cells(zone):
    """The cells of a zone's trie. Names t0, t1, .. to t9 differ in one place, so their keys hang below one branch; the apex is beside it."""
    leaves = len(zone) + 1
    branches = (1 if zone else 0) + (1 if len(zone) > 1 else 0)
    apex = cells_of(9 + 8 + 2 + 42 + 8 + 2 + 11)
    return leaves + branches + apex + sum(cells_of(item_octets(name, length)) for name, length in zone.items())


def draw(rng):
    """A zone, chunks, and for each worker its commands: holds, releases, and blocks of exchanges, most of which take all names."""
    chunks = rng.choice([16, 16, 20, 24, 33, 64])
    octets = rng.choice([600, 1000, 1500, 4000])
    zone = {f"t{i}": octets for i in range(rng.randint(2, min(10, 11000 // octets)))}
    heavy = rng.choice([0.5, 0.9, 1])
    workers = []
    for _ in range(rng.randint(8, 16)):
        commands, held = [], False
        for _ in range(rng.randint(10, 40)):
            if rng.random() < (0.05 if held else 0.4):
                commands.append("release" if held else "hold")
                held = not held
            operations = []
            for name in rng.sample(sorted(zone), len(zone) if rng.random() < 0.8 else 1):
                operations.append(("del", name, 0))
                if rng.random() < 0.95:
                    operations.append(("add", name, rng.randint(max(1, octets * 9 // 10), octets)))
            commands.append(("update" if rng.random() < heavy else "write", operations, "commit" if rng.random() < 0.9 else "rollback"))
        workers.append(commands)
    return chunks, zone, workers


def line_of(operation, fill):
    """The line of an operation, and of a record in the zone."""
    kind, name, length = operation
    return f"del {name}" if kind == "del" else f"add {name} 60 TYPE65280 \\# {length} {('%02x' % fill) * length}"


def job_of(zone, workers):
    lines = [HEAD] + [f"{name} 60 TYPE65280 \\# {length} {'00' * length}\n" for name, length in zone.items()] + ["%%\n"]
    for number, commands in enumerate(workers):
        lines.append("worker\n")
        for place, command in enumerate(commands):
            if isinstance(command, str):
                lines.append(command + "\n")
                continue
            kind, operations, end = command
            if kind == "write":
                end = "commit"
            fill = (number * 31 + place) % 255 + 1
            lines += [kind + "\n"] + [line_of(operation, fill) + "\n" for operation in operations] + [end + "\n"]
    return "".join(lines)


def applied(zone, operation):
    """One more record beside those that there are is drawn nowhere, since each name is taken out before."""
    kind, name, length = operation
    changed = dict(zone)
    if kind == "del":
        changed.pop(name, None)
    else:
        changed[name] = length
    return changed


def ways(zone, operations):
    """Each set on the way, the first and the last with it."""
    sets = [zone]
    for operation in operations:
        sets.append(applied(sets[-1], operation))
    return sets


def test(chunks, zone, workers, report):
    """How many outcomes are full, of how many the bound says something, and how many break it."""
    ended = [ENDED.match(line).groups() for line in report.splitlines() if ENDED.match(line)]
    blocks = {(int(w), int(c)): (int(v), end) for w, c, v, end in ended}
    made = {v: workers[w - 1][c - 1][1] for (w, c), (v, end) in blocks.items() if end == "COMMITTED"}
    versions, most = [zone], [cells(zone)]
    for number in range(1, len(made) + 1):
        sets = ways(versions[-1], made[number])
        versions.append(sets[-1])
        most.append(max([most[-1]] + [cells(one) for one in sets]))
    counts = [0, 0, 0]
    for line in report.splitlines():
        match = FULL.match(line)
        if not match:
            continue
        worker, command, base, at = (int(word) for word in match.groups()[:4])
        operations = workers[worker - 1][command - 1][1]
        sets = ways(versions[base], operations[:at - 1])
        bound = max([most[base]] + [cells(one) for one in sets])
        kept = len(match.group(5).split())
        next_set = applied(sets[-1], operations[at - 1])
        name = operations[at - 1][1]
        item = cells_of(item_octets(name, next_set[name])) if name in next_set else 0
        counts[0] += 1
        if bound <= 768:
            counts[1] += 1
            asked = 3 + item + cells(sets[-1])
            counts[2] += chunks - chunks // 4 > (kept + 1) * (bound // 257 + 9) + 1 + asked // 769
    return counts


def main():
    program, jobs, seed = sys.argv[1], int(sys.argv[2]), int(sys.argv[3])
    rng, total = random.Random(seed), [0, 0, 0]
    for _ in range(jobs):
        chunks, zone, workers = draw(rng)
        words = [program, "run", "--origin", "example.", "--chunks", str(chunks)]
        run = subprocess.run(words, input=job_of(zone, workers).encode(), capture_output=True)
        if run.returncode > 1:
            sys.exit(f"status {run.returncode}: {run.stdout[:200]!r}")
        total = [old + new for old, new in zip(total, test(chunks, zone, workers, run.stdout.decode()))]
    print(f"{jobs} jobs, {total[0]} outcomes full, of {total[1]} the bound says something, {total[2]} break it")
    sys.exit(1 if total[2] else 0)


main()
