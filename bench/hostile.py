#!/usr/bin/env python3
"""Writes an input of 16 MiB, the most that the program reads, made to cost as much as it can.

Usage: hostile.py NAME; without a name it prints the names, each with the origin that goes with it.
"""
import sys

MOST = 16 * 1024 * 1024
HEAD = "$TTL 300\n@ SOA a a 1 2 3 4 5\n@ NS a\n"
DEEP = ".".join(["a"] * 126) + "."


def filled(head, line, tail=""):
    """The head, then the line as often as it fits, then the tail."""
    return head + line * ((MOST - len(head) - len(tail)) // len(line)) + tail


def numbered(form, numbers):
    """A zone of one record a number, as many as fit."""
    lines, size = [HEAD], len(HEAD)
    for number in numbers:
        line = form.format(number, chr(97 + number % 26))
        if size + len(line) > MOST:
            break
        lines.append(line)
        size += len(line)
    return "".join(lines)


def last_octets():
    """Names of 60 octets that differ in the last three, at most; each with an address."""
    stem = "x" * 57
    digits = "abcdefghijklmnopqrstuvwxyz0123456789"
    lines, size = [HEAD], len(HEAD)
    for number in range(len(digits) ** 3):
        end = digits[number // 1296] + digits[number // 36 % 36] + digits[number % 36]
        for line in (f"{stem}{end} A 192.0.2.1\n",):
            if size + len(line) > MOST:
                return "".join(lines)
            lines.append(line)
            size += len(line)
    return "".join(lines)


def walks():
    """Sixteen workers, each with a snapshot that is asked 9,998 times for a thousand names."""
    hosts = "".join(f"n{host} A 192.0.2.1\n" for host in range(2000))
    worker = "worker\nhold\n" + "at walk . 1000\n" * 9998 + "release\n"
    return HEAD + hosts + "%%\n" + worker * 16


INPUTS = {
    "deep": (DEEP, lambda: filled("$TTL 300\n@ SOA a a 1 2 3 4 5\n@ NS a\n", "b NS c\n")),
    "equal": ("example.", lambda: filled(HEAD + "b NS a\n", " NS a\n")),
    "owners": ("example.", lambda: numbered("{0} NS a\n", range(10**7))),
    "parentheses": ("example.", lambda: "(" * MOST),
    "blank": ("example.", lambda: HEAD + "\n" * (MOST - len(HEAD))),
    "escapes": ("example.", lambda: filled("", "\\000")),
    "quoted": ("example.", lambda: '"' + "a" * (MOST - 2) + '"'),
    "cname": ("example.", lambda: filled("$TTL 300\n@ SOA a a 1 2 3 4 5\n", "a CNAME a\n")),
    "descending": ("example.", lambda: numbered("{0} NS a\n", range(10**6 + 10**5, 0, -1))),
    "last-octets": ("example.", last_octets),
    "walks": ("example.", walks),
}


def main():
    if len(sys.argv) != 2 or sys.argv[1] not in INPUTS:
        for name, (origin, _) in INPUTS.items():
            print(name, origin)
        return
    sys.stdout.write(INPUTS[sys.argv[1]][1]())


main()
