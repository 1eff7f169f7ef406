#!/usr/bin/env python3
"""Writes a job: a zone of N names with a TXT record of 65,000 octets each, and a script that exchanges the address of one of them by
COUNT transactions, so that the name's 65,000 octets are written anew each time.

Usage: long.py N [COUNT [held]]
With `held` the script takes a snapshot first, and asks it for the TXT record at the end.
"""
import sys

OCTETS = 65_000


def texts(host):
    letter = "abcdefghijklmnopqrstuvwxyz"[host % 26]
    left = OCTETS
    while left > 0:
        length = min(255, left - 1)
        yield '"' + letter * length + '"'
        left -= length + 1


def zone(count):
    yield "$TTL 300"
    yield "@ SOA ns hostmaster 1 3600 600 86400 60"
    yield "@ NS ns"
    yield "ns A 192.0.2.1"
    for host in range(count):
        yield f"t{host} TXT {' '.join(texts(host))}"


def script(count, held):
    yield "%%"
    yield "worker"
    if held:
        yield "hold"
    for turn in range(count):
        yield from ("write", "del t0 A", f"add t0 300 A 10.0.{turn >> 8 & 255}.{turn & 255}", "commit")
    yield "get t0 TXT"
    if held:
        yield "at get t0 TXT"


def main():
    if len(sys.argv) < 2:
        sys.exit(__doc__)
    count = int(sys.argv[2]) if len(sys.argv) > 2 else 0
    for line in zone(int(sys.argv[1])):
        print(line)
    for line in script(count, len(sys.argv) > 3):
        print(line)


main()
