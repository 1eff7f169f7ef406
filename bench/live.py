#!/usr/bin/env python3
"""Times a live session. Usage: bench/live.py SESSION PROGRAM KIND COUNT: the zone of SESSION, up to its line %%, and so many commands.

KIND is `one`, questions one at a time; `pipe`, the same through a pipe; `commits`, transactions of one addition with a question each, through
a pipe; `memory`, the same; `slowest`, the slowest of so many questions one at a time while another session of the same program has a full
pipe to answer; `copied`, so many lines one at a time through `cat`, which is what the two pipes alone take. Prints microseconds each, of
`slowest` also the middle one, and of `memory` the most KiB that the program had.

With `one` and `copied` both ends are kept on one processor, since one of them waits while the other works, and waking another processor takes longer
than an answer.
"""
import os
import subprocess
import sys
import threading
import time


AT_ONCE = 1 << 16


def start(program, zone):
    process = subprocess.Popen([program, "live", "--origin", "example.", "--chunks", "4096"], stdin=subprocess.PIPE, stdout=subprocess.PIPE, bufsize=0)
    process.stdin.write(zone)
    out = process.stdout.fileno()
    os.read(out, AT_ONCE)
    return process, out


def questions(hosts, count):
    return [b"get n%d A\n" % (place * 7919 % hosts) for place in range(count)]


def through(program, zone, lines):
    process, out = start(program, zone)
    writer = threading.Thread(target=lambda: (process.stdin.write(b"".join(lines)), process.stdin.close()))
    begun = time.perf_counter()
    writer.start()
    while os.read(out, AT_ONCE):
        pass
    taken = time.perf_counter() - begun
    writer.join()
    _, process.returncode, used = os.wait4(process.pid, 0)
    return taken, used.ru_maxrss


# A reply's first line tells how many follow it.
def is_whole(reply):
    lines = reply.count(b"\n")
    if not lines:
        return False
    head = reply[: reply.index(b"\n")].split()
    return lines == 1 + (int(head[3]) if len(head) > 3 else 0)


def one_by_one(program, zone, lines):
    process, out = start(program, zone)
    into, times = process.stdin.fileno(), []
    for line in lines:
        begun = time.perf_counter()
        os.write(into, line)
        reply = os.read(out, AT_ONCE)
        while not is_whole(reply):
            reply += os.read(out, AT_ONCE)
        times.append(time.perf_counter() - begun)
    process.stdin.close()
    process.wait()
    return times


def copied(count):
    process = subprocess.Popen(["cat"], stdin=subprocess.PIPE, stdout=subprocess.PIPE, bufsize=0)
    into, out = process.stdin.fileno(), process.stdout.fileno()
    begun = time.perf_counter()
    for line in questions(count, count):
        os.write(into, line)
        os.read(out, AT_ONCE)
    taken = time.perf_counter() - begun
    process.stdin.close()
    process.wait()
    return taken


def main(name, program, kind, count):
    with open(name, "rb") as file:
        text = file.read()
    zone = text[: text.index(b"\n%%\n") + 4]
    hosts, count = zone.count(b" A 10."), int(count)
    if kind in ("one", "copied"):
        os.sched_setaffinity(0, {min(os.sched_getaffinity(0))})
    if kind == "one":
        print(f"{sum(one_by_one(program, zone, questions(hosts, count))) / count * 1e6:.2f}")
    elif kind == "copied":
        print(f"{copied(count) / count * 1e6:.2f}")
    elif kind == "pipe":
        print(f"{through(program, zone, questions(hosts, count))[0] / count * 1e6:.2f}")
    elif kind in ("commits", "memory"):
        lines = [b"write\nadd c%d 300 A 192.0.2.1\ncommit\nget c%d A\n" % (place % 1000, place % 1000) for place in range(count)]
        taken, kib = through(program, zone, lines)
        print(kib if kind == "memory" else f"{taken / count * 1e6:.2f}")
    else:
        busy = threading.Thread(target=through, args=(program, zone, questions(hosts, count) * 20))
        busy.start()
        times = sorted(one_by_one(program, zone, questions(hosts, count)))
        print(f"{times[-1] * 1e6:.0f} of {times[count // 2] * 1e6:.1f}")
        busy.join()


if __name__ == "__main__":
    main(*sys.argv[1:])
