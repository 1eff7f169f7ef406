#!/usr/bin/env python3
"""Draws live sessions and holds them against feeds of one worker, which have to print the same behind a session's first line.

Usage: bench/sessions.py [COUNT [SEED [PROGRAM]]] (300, 1, the proved program). A session's zone and lines are drawn, none of which is
refused. It goes into the pipe in pieces of 1 to 999 bytes; every other one line by line, each reply being read, with a limit of ten
seconds, before the next line is written. The last line is 'N sessions as due', or the session that isn't stands in a file that is named.
"""
import os
import random
import selectors
import subprocess
import sys

HERE = os.path.dirname(os.path.realpath(__file__))
NAMES = ["@", "ns", "www", "a", "b.a", "c.b.a", "*", "*.a", "mail", "x.y.z", "sub", "h.sub"]
DATA = ["A 192.0.2.{}", "AAAA 2001:db8::{}", 'TXT "text {}"', "MX {} mail", "TYPE65280 \\# 1 0{}"]
TYPES = ["A", "AAAA", "TXT", "MX", "NS", "SOA", "CNAME", "TYPE65280"]


def record(draw):
    return draw.choice(DATA).format(draw.randrange(1, 9))


def zone(draw):
    yield "$TTL 300"
    yield "@ SOA ns hostmaster 1 3600 600 86400 60"
    yield "@ NS ns"
    for _ in range(draw.randrange(12)):
        yield f"{draw.choice(NAMES)} {record(draw)}"


def question(draw):
    name, kind = draw.choice(NAMES), draw.choice(TYPES)
    return draw.choice([f"get {name} {kind}", f"get {name} {kind}", f"find {name}", f"walk {name} 3", f"back {name} 2", "stat", "dump", "compact"])


def block(draw):
    kind = draw.choice(["write", "update"])
    yield kind
    for _ in range(draw.randrange(2)):
        yield draw.choice([f"need {draw.choice(NAMES)}", f"neednot {draw.choice(NAMES)} {draw.choice(TYPES)}"])
    for _ in range(draw.randrange(4)):
        name = draw.choice(NAMES)
        yield draw.choice([f"add {name} 300 {record(draw)}", f"del {name}", f"del {name} {draw.choice(TYPES)}", f"add {name} 300 CNAME www"])
    yield "commit" if kind == "write" or draw.random() < 0.8 else "rollback"


def commands(draw):
    """Lists of lines, each of which is one command."""
    for _ in range(draw.randrange(40)):
        yield list(block(draw)) if draw.random() < 0.4 else [question(draw)]


def whole(program, verb, text):
    return subprocess.run([program, verb[0], "--origin", "example.", *verb[1:]], input=text, stdout=subprocess.PIPE, check=False)


class Pipe:
    """A session at the other end of a pipe."""

    def __init__(self, program):
        self.process = subprocess.Popen([program, "live", "--origin", "example."], stdin=subprocess.PIPE, stdout=subprocess.PIPE, bufsize=0)
        self.poll = selectors.DefaultSelector()
        self.poll.register(self.process.stdout, selectors.EVENT_READ)
        self.got = b""
        self.read = 0

    def line(self):
        while b"\n" not in self.got[self.read :]:
            if not self.poll.select(10):
                raise TimeoutError
            piece = os.read(self.process.stdout.fileno(), 65536)
            if not piece:
                raise EOFError
            self.got += piece
        end = self.got.index(b"\n", self.read) + 1
        line, self.read = self.got[self.read : end], end
        return line

    def reply(self):
        words = self.line().split()
        count = int(words[3]) if len(words) == 4 and words[2] != b"ROLLED" and words[3].isdigit() else 0
        for _ in range(count + (words[2] in (b"EXACT", b"PARTIAL", b"NONE"))):
            self.line()

    def end(self):
        self.process.stdin.close()
        self.got += self.process.stdout.read()
        return self.got, self.process.wait()


def by_pieces(program, text, draw):
    pipe = Pipe(program)
    at = 0
    while at < len(text):
        count = draw.randrange(1, 1000)
        pipe.process.stdin.write(text[at : at + count])
        at += count
    return pipe.end()


def one_by_one(program, head, lists):
    pipe = Pipe(program)
    pipe.process.stdin.write(head)
    if pipe.line().startswith(b"live "):
        for lines in lists:
            pipe.process.stdin.write("".join(f"{line}\n" for line in lines).encode())
            pipe.reply()
    return pipe.end()


def is_as_due(program, number, seed):
    draw = random.Random(f"{seed} {number}")
    head = "".join(f"{line}\n" for line in [*zone(draw), "%%"]).encode()
    lists = list(commands(draw))
    text = head + "".join(f"{line}\n" for lines in lists for line in lines).encode()
    fed = whole(program, ["feed", "--workers", "1"], text)
    if number % 2:
        got, status = one_by_one(program, head, lists)
    else:
        got, status = by_pieces(program, text, draw)
    first, _, rest = got.partition(b"\n")
    due = got == fed.stdout if fed.returncode > 1 else first.startswith(b"live v0 names ") and rest == fed.stdout
    if not due or status != fed.returncode:
        name = f"/tmp/session-{seed}-{number}"
        with open(name, "wb") as file:
            file.write(text)
        print(f"session {number}, in {name}: status {status} for {fed.returncode}")
        return False
    return True


def main(count=300, seed=1, program=f"{HERE}/../crates/qpzone/out/qpzone"):
    good = sum(is_as_due(program, number, seed) for number in range(int(count)))
    print(f"{good} sessions as due" + ("" if good == int(count) else f", {int(count) - good} not"))
    return good != int(count)


if __name__ == "__main__":
    sys.exit(main(*sys.argv[1:]))
