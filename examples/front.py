#!/usr/bin/python3
"""DNS over UDP and TCP in front of a live session of qpzone.

Usage: examples/front.py [--address A] [--port P] [--program PROGRAM] ORIGIN ZONE

It wants python3-dnspython of Debian. The zone's master file goes to `qpzone live --origin ORIGIN`, and each question is one line `ask
NAME TYPE`, whose reply is the message section by section, of one version. A transfer (AXFR, over TCP alone) is `hold`, `at dump`,
`release`, so all of its records are of one version too. It says `ready PORT` once it answers, and ends by SIGTERM or SIGINT: it ends the
session's input, and says the session's last line.
"""
import argparse
import asyncio
import os
import signal
import subprocess
import sys

import dns.edns
import dns.exception
import dns.flags
import dns.message
import dns.name
import dns.opcode
import dns.rcode
import dns.rdataclass
import dns.rdatatype
import dns.rrset

TOP = os.path.dirname(os.path.dirname(os.path.realpath(__file__)))
CODES = {"NOERROR": dns.rcode.NOERROR, "NXDOMAIN": dns.rcode.NXDOMAIN, "REFUSED": dns.rcode.REFUSED}
# What a message over UDP takes at most: of a client without EDNS (RFC 1035, section 4.2.1), and of one with it.
PLAIN, LARGE = 512, 1232
# A transfer's messages have about so many records.
BATCH = 100
# A connection on which nothing comes is closed after so many seconds.
IDLE = 10


class Ended(Exception):
    """The session has ended."""


class Session:
    """A session of qpzone: a line goes in, and its reply comes out."""

    def __init__(self, program, origin, zone):
        self.process = subprocess.Popen([program, "live", "--origin", origin], stdin=subprocess.PIPE, stdout=subprocess.PIPE, start_new_session=True)
        with open(zone, "rb") as file:
            text = file.read()
        self.send(text + b"\n%%\n")
        first = self.line()
        if not first.startswith("live "):
            raise Ended(first)

    def send(self, octets):
        try:
            self.process.stdin.write(octets)
            self.process.stdin.flush()
        except BrokenPipeError as error:
            raise Ended("the session has ended") from error

    def line(self):
        line = self.process.stdout.readline()
        if not line:
            raise Ended("the session has ended")
        return line.decode("latin-1").rstrip("\n")

    def rows(self, count):
        """So many records: owner, time, class, type and data of each."""
        return [self.line().split(" ", 4) for _ in range(count)]

    def command(self, text):
        """The words of the reply to a line, behind its number and version; none of a line that was refused."""
        self.send(text.encode() + b"\n")
        words = self.line().split()
        return [] if words[0] == "refused" else words[2:]

    def ask(self, name, rtype):
        """The code, the flag and the three sections of the response to a question."""
        words = self.command(f"ask {name} TYPE{rtype}")
        if not words:
            return "REFUSED", False, [], [], []
        sections = [self.rows(int(count)) for count in words[3:6]]
        return words[1], words[2] == "aa", *sections

    def dump(self):
        """All records, of one version."""
        self.command("hold")
        rows = self.rows(int(self.command("at dump")[1]))
        self.command("release")
        return rows

    def end(self):
        """Ends the input, and gives the last line."""
        try:
            self.process.stdin.close()
        except BrokenPipeError:
            pass
        last = self.process.stdout.read().decode("latin-1").splitlines()[-1:]
        self.process.wait()
        return last[0] if last else "the session has ended"


def rrsets(rows):
    """Records as RRsets, in order."""
    sets = []
    for owner, ttl, _, rtype, data in rows:
        if sets and sets[-1][:3] == (owner, ttl, rtype):
            sets[-1][3].append(data)
        else:
            sets.append((owner, ttl, rtype, [data]))
    return [dns.rrset.from_text(owner, int(ttl), "IN", rtype, *data) for owner, ttl, rtype, data in sets]


def refused(query, code):
    reply = dns.message.make_response(query, our_payload=LARGE)
    reply.set_rcode(code)
    return reply


def fault(query):
    """Why a query is answered by a code alone, if it is."""
    if query.opcode() != dns.opcode.QUERY:
        return dns.rcode.NOTIMP
    if len(query.question) != 1:
        return dns.rcode.FORMERR
    if query.edns > 0:
        return dns.rcode.BADVERS
    question = query.question[0]
    if question.rdclass != dns.rdataclass.IN:
        return dns.rcode.REFUSED
    if dns.rdatatype.is_metatype(question.rdtype) and question.rdtype != dns.rdatatype.AXFR:
        return dns.rcode.NOTIMP
    return None


def answer(session, query):
    """The response to a question, from one `ask`."""
    question = query.question[0]
    code, authoritative, answers, authority, additional = session.ask(question.name.to_text(), int(question.rdtype))
    reply = dns.message.make_response(query, our_payload=LARGE)
    reply.set_rcode(CODES[code])
    if authoritative:
        reply.flags |= dns.flags.AA
    reply.answer, reply.authority, reply.additional = rrsets(answers), rrsets(authority), rrsets(additional)
    return reply


def to_wire(message, limit=65535):
    """Its octets, with records in the order that they came in."""
    return message.to_wire(max_size=limit, want_shuffle=False)


def is_referral(reply):
    return any(rrset.rdtype == dns.rdatatype.NS for rrset in reply.authority)


def fitted(reply, limit):
    """A response in so many octets. Addresses that nobody needs are left out without a word; else it is told that it is cut
    (RFC 2181, section 9; RFC 9471, section 2)."""
    try:
        return to_wire(reply, limit)
    except dns.exception.TooBig:
        pass
    if not is_referral(reply):
        reply.additional = []
        try:
            return to_wire(reply, limit)
        except dns.exception.TooBig:
            pass
    reply.answer, reply.authority, reply.additional = [], [], []
    reply.flags |= dns.flags.TC
    return to_wire(reply, limit)


def transfer(session, origin, query):
    """The messages of a transfer: all records between two copies of the SOA (RFC 5936, section 2.2)."""
    if query.question[0].name.to_text().lower() != origin:
        return [refused(query, dns.rcode.NOTAUTH)]
    rows = session.dump()
    soa = [row for row in rows if row[3] == "SOA"]
    rows = soa + [row for row in rows if row[3] != "SOA"] + soa
    messages = []
    for at in range(0, len(rows), BATCH):
        reply = dns.message.make_response(query, our_payload=LARGE)
        reply.flags |= dns.flags.AA
        if at > 0:
            reply.question = []
        # Each record for itself, since the first and the last are one RRset.
        reply.answer = [rrset for row in rows[at : at + BATCH] for rrset in rrsets([row])]
        messages.append(reply)
    return messages


class Front:
    def __init__(self, session, origin):
        self.session, self.origin, self.over = session, origin, asyncio.Event()

    def replies(self, octets, stream):
        """What is answered to a message: messages as octets. None for what isn't a query."""
        try:
            query = dns.message.from_wire(octets)
        except dns.exception.DNSException:
            return []
        if query.flags & dns.flags.QR:
            return []
        try:
            return self.answers(query, stream)
        except Ended as ended:
            print(ended, file=sys.stderr)
            self.over.set()
            return [to_wire(refused(query, dns.rcode.SERVFAIL))]

    def answers(self, query, stream):
        code = fault(query)
        if code is None and query.question[0].rdtype == dns.rdatatype.AXFR:
            if stream:
                return [to_wire(message) for message in transfer(self.session, self.origin, query)]
            code = dns.rcode.REFUSED
        if code is not None:
            return [to_wire(refused(query, code))]
        limit = 65535 if stream else max(PLAIN, min(query.payload, LARGE)) if query.edns == 0 else PLAIN
        return [fitted(answer(self.session, query), limit)]

    async def serve_stream(self, reader, writer):
        """The questions of a connection, each behind its length (RFC 1035, section 4.2.2)."""
        try:
            while True:
                length = int.from_bytes(await asyncio.wait_for(reader.readexactly(2), IDLE), "big")
                octets = await asyncio.wait_for(reader.readexactly(length), IDLE)
                for reply in self.replies(octets, True):
                    writer.write(len(reply).to_bytes(2, "big") + reply)
                    await writer.drain()
        except (asyncio.IncompleteReadError, asyncio.TimeoutError, ConnectionError):
            pass
        finally:
            writer.close()


class Datagrams(asyncio.DatagramProtocol):
    def __init__(self, front):
        self.front, self.transport = front, None

    def connection_made(self, transport):
        self.transport = transport

    def datagram_received(self, data, addr):
        for reply in self.front.replies(data, False):
            self.transport.sendto(reply, addr)


async def serve(session, options):
    front = Front(session, options.origin)
    loop = asyncio.get_running_loop()
    for number in (signal.SIGTERM, signal.SIGINT):
        loop.add_signal_handler(number, front.over.set)
    stream = await asyncio.start_server(front.serve_stream, options.address, options.port)
    port = stream.sockets[0].getsockname()[1]
    datagrams, _ = await loop.create_datagram_endpoint(lambda: Datagrams(front), (options.address, port))
    print("ready", port, flush=True)
    await front.over.wait()
    datagrams.close()
    stream.close()


def main():
    parser = argparse.ArgumentParser(description="DNS over UDP and TCP in front of a live session of qpzone.")
    parser.add_argument("--address", default="127.0.0.1")
    parser.add_argument("--port", type=int, default=5300, help="0 for any that is free")
    parser.add_argument("--program", default=f"{TOP}/qpzone")
    parser.add_argument("origin", type=lambda text: dns.name.from_text(text).to_text().lower())
    parser.add_argument("zone", help="the zone's master file")
    options = parser.parse_args()
    try:
        session = Session(options.program, options.origin, options.zone)
    except Ended as ended:
        print(ended, file=sys.stderr)
        return 1
    asyncio.run(serve(session, options))
    last = session.end()
    print(last)
    return 0 if last.startswith("end ") else 1


if __name__ == "__main__":
    sys.exit(main())
