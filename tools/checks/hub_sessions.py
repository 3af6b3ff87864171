#!/usr/bin/env python3
"""Drives the built program `komd` with its word `hub` and many connections over loopback: hub_sessions.py [PROGRAM [WORKERS]]

By one worker, or as many as are named, it serves stores in a folder in memory, and looks at
1. as many connections as the workers have places for, but 1,000 at most: each is answered, what is resident for each, and that the server
   does next to nothing while they are idle;
2. a member for each of them in one conference: each is told of 200 texts, all in one order;
3. a peer that never reads among them, while the others are answered;
4. call 44 while they are idle: the server ends with status 0 within a second;
5. twenty clients that fetch texts of a mebibyte without a pause beside a hundred that ask who they are: the slowest of these is answered at
   least half as often as the one in the middle;
6. a greeting, four calls and half a line from a peer that then ends what it sends, also in pieces of one byte: all replies come, and the
   connection ends;
7. a server with 64 descriptors and 100 clients: who is inside is served, who waits comes in within a second after one has left, and nothing
   spins meanwhile;
8. 20,000 connections one after the other.

It prints a line for each part, takes a minute or two, and ends with 1 at the first thing that is otherwise, else with 0. It ends each
server that it starts. PROGRAM is the built `komd` unless it is named.
"""
import collections
import pathlib
import resource
import selectors
import socket
import statistics
import sys
import tempfile
import time

sys.path.insert(0, str(pathlib.Path(__file__).resolve().parents[1] / "common"))
from built import Wrong, make_store, program_of, script
from protocol import string
from served import PATIENCE, Server, Session, folder_in_memory, limit_seconds, stop, wants

LIMIT_SECONDS = 400
MOST = 1_000
TEXTS = 200
FETCHERS, ASKERS = 20, 100
MEBIBYTE = 1_048_576
FEW_DESCRIPTORS, MANY_CLIENTS = 64, 100
CONNECTS = 20_000
STOP_SECONDS = 1.0
SOON = 5.0
# An idle server may take so much of a processor, whatever it has; the clock of processor time ticks a hundred times a second.
IDLE_SHARE = 0.01
IDLE_SECONDS = 5


def raise_limit():
    """As many descriptors as the system gives."""
    hard = resource.getrlimit(resource.RLIMIT_NOFILE)[1]
    resource.setrlimit(resource.RLIMIT_NOFILE, (hard, hard))


def serve(program, store, workers, begin=None):
    return Server(program, store, workers, begin=begin, word="hub")


def ask_each(sessions, call, want=None):
    """Sends a call by each session, and then reads each reply."""
    references = [session.send(call) for session in sessions]
    told = [session.reply(reference) for session, reference in zip(sessions, references)]
    if want is not None and any(one != want for one in told):
        raise Wrong(f"{call!r} is answered {next(one for one in told if one != want)!r}, not {want!r}")
    return told


def many(server, count):
    """Part 1: so many connections; what each has resident, and the share of a processor while they are idle."""
    before = server.resident()
    sessions = [Session(server.port, f"user{number}") for number in range(count)]
    numbers = ask_each(sessions, "56")
    wants("the numbers of the sessions", len(set(numbers)), count)
    grown = (server.resident() - before) / count
    time.sleep(1)
    used = server.processor_seconds()
    time.sleep(IDLE_SECONDS)
    share = (server.processor_seconds() - used) / IDLE_SECONDS
    if share > IDLE_SHARE:
        raise Wrong(f"{count} idle connections take {share:.1%} of a processor")
    return sessions, grown, share


def members(server, sessions):
    """Part 2: a member for each connection is told of the same texts in one order."""
    writer = Session(server.port, "writer").login()
    conference = int(writer.ask("88 4HOpen 0000 0 { }"))
    for number, session in enumerate(sessions):
        session.person = int(session.ask(f"89 {string(f'Person {number}')} 1Hp 00000000 0 {{ }}"))
    references = [session.send(f"62 {session.person} 1Hp 0") for session in sessions]
    for session, reference in zip(sessions, references):
        session.reply(reference)
    for call in (f"100 {conference} {{}} 100 0 00000000", "80 1 { 15 }"):
        references = [session.send(call.replace("{}", str(session.person), 1)) for session in sessions]
        for session, reference in zip(sessions, references):
            session.reply(reference)
    made = [int(text) for text in writer.ask_all([f"86 {string(f'text {place}')} 1 {{ 0 {conference} }} 0 {{ }}" for place in range(TEXTS)])]
    for session in sessions:
        told = [int(session.message().split(" ")[2]) for _ in range(TEXTS)]
        wants("the texts that a member is told of", told, made)
    wants("what follows the writer's end", writer.end(), [])


def never_reads(server, sessions):
    """Part 3: a peer that never reads, while the others are answered."""
    peer = Session(server.port, "unread", receive=4_096)
    peer.socket.settimeout(0.3)
    calls = "1 85\n" * 10_000
    try:
        for _ in range(200):
            peer.write(calls)
        raise Wrong("a peer that never reads is read without an end")
    except TimeoutError:
        pass
    begun = time.monotonic()
    for _ in range(10):
        ask_each(sessions, "56")
    took = time.monotonic() - begun
    if took > 2 * SOON:
        raise Wrong(f"ten calls of each of {len(sessions)} sessions take {took:.1f} s beside a peer that never reads")
    peer.close()
    return took


def stop_idle(server, sessions):
    """Part 4: call 44 while many are idle; how long it takes until the server has ended."""
    session = Session(server.port, "stopper").login()
    session.ask("42 255")
    begun = time.monotonic()
    wants("what call 44 is answered", session.try_to("44 0"), "=")
    status = server.wait()
    took = time.monotonic() - begun
    wants("the status after call 44", status, 0)
    if took > STOP_SECONDS:
        raise Wrong(f"{took:.2f} s until the server ended")
    for other in [*sessions, session]:
        wants("what an idle connection reads", other.rest(), [])
    return took


class Asker:
    """A client that always has one call under way."""

    def __init__(self, port, call, length):
        self.session, self.call, self.length = Session(port, "asker"), call.encode("ascii"), length
        self.left, self.count = 0, 0
        self.session.socket.setblocking(False)

    def ask(self):
        self.left = self.length
        self.session.socket.sendall(self.call)

    def read(self):
        """Reads what is there, and asks again where the whole reply has come."""
        got = len(self.session.socket.recv(262_144))
        if got == 0:
            raise Wrong("a client's connection ended")
        self.left -= got
        if self.left <= 0:
            self.count += 1
            self.ask()


def fetch_and_ask(server):
    """Part 5: who fetches long texts beside who asks."""
    writer = Session(server.port, "writer").login()
    text = writer.ask(f"86 {string('x' * MEBIBYTE)} 0 {{ }} 0 {{ }}")
    number = int(writer.ask("56"))
    fetched = len(f"=1 {string('x' * MEBIBYTE)}\n")
    askers = [Asker(server.port, "1 56\n", len("=1 1\n")) for _ in range(ASKERS)]
    fetchers = [Asker(server.port, f"1 25 {text} 0 4294967295\n", fetched) for _ in range(FETCHERS)]
    for asker in askers:
        asker.length = len(f"=1 {number + 1 + askers.index(asker)}\n")
    for fetcher in fetchers:
        fetcher.session.socket.setblocking(True)
        fetcher.session.login()
        fetcher.session.socket.setblocking(False)
    with selectors.DefaultSelector() as watch:
        for one in askers + fetchers:
            watch.register(one.session.socket, selectors.EVENT_READ, one)
            one.ask()
        end = time.monotonic() + 5
        while time.monotonic() < end:
            for key, _ in watch.select(1):
                key.data.read()
    counts = sorted(asker.count for asker in askers)
    middle, fetches = statistics.median(counts), sum(fetcher.count for fetcher in fetchers)
    for one in askers + fetchers:
        one.session.close()
    if counts[0] < middle / 2 or fetches == 0:
        raise Wrong(f"the slowest of those who ask is answered {counts[0]} times, the one in the middle {middle}, beside {fetches} texts")
    return counts[0], middle, fetches


def halves(server):
    """Part 6: half a line from a peer that ends what it sends."""
    for piece in (100_000, 1):
        peer = Session(server.port, None)
        sent = "A1Hh\n1 56\n2 35\n3 56\n4 56\n5 5"
        for place in range(0, len(sent), piece):
            peer.write(sent[place:place + piece])
        peer.socket.shutdown(socket.SHUT_WR)
        lines = peer.rest()
        wants("what a peer reads that leaves half a line", [line.split(" ")[0] for line in lines], ["LysKOM", "=1", "=2", "=3", "=4"])


def few_descriptors(program, folder):
    """Part 7: more clients than the server has descriptors for; how many come in."""
    limit = (FEW_DESCRIPTORS, FEW_DESCRIPTORS)
    server = serve(program, make_store(program, folder / "few"), 1, lambda: resource.setrlimit(resource.RLIMIT_NOFILE, limit))
    try:
        peers = collections.deque()
        for number in range(MANY_CLIENTS):
            peer = Session(server.port, None)
            peer.write(f"A{string(f'user{number}')}\n1 56\n")
            peers.append(peer)
        inside, waiting = [], []
        for peer in peers:
            peer.socket.settimeout(0.02 if waiting else 2)
            try:
                wants("a client's greeting", peer.line(), "LysKOM")
                peer.socket.settimeout(PATIENCE)
                peer.line()
                inside.append(peer)
            except TimeoutError:
                peer.file = peer.socket.makefile("rb")
                waiting.append(peer)
        if not inside or not waiting:
            raise Wrong(f"{len(inside)} of {len(peers)} clients come in with {FEW_DESCRIPTORS} descriptors")
        used = server.processor_seconds()
        time.sleep(3)
        share = (server.processor_seconds() - used) / 3
        if share > 0.05:
            raise Wrong(f"a server without descriptors takes {share:.0%} of a processor")
        for peer in inside:
            peer.write("2 35\n")
            wants("a reply to who is inside", peer.line().split(" ")[0], "=2")
        slowest = 0.0
        for peer in waiting[:5]:
            wants("what follows an end", inside.pop(0).end(), [])
            begun = time.monotonic()
            peer.socket.settimeout(PATIENCE)
            wants("the greeting of one that waited", peer.line(), "LysKOM")
            slowest = max(slowest, time.monotonic() - begun)
        if slowest > 2:
            raise Wrong(f"one that waits for a place comes in {slowest:.1f} s after it is free")
        count = len(inside) + 5
        for peer in peers:
            peer.close()
        time.sleep(0.5)
        stop(server).rest()
        wants("the status", server.wait(), 0)
        return count, slowest
    finally:
        server.kill()


def comes_and_goes(server):
    """Part 8: many connections, one after the other."""
    before = server.resident()
    for number in range(CONNECTS):
        peer = socket.create_connection(("127.0.0.1", server.port), PATIENCE)
        peer.sendall(b"A1Hc\n1 35\n")
        peer.shutdown(socket.SHUT_WR)
        read = b""
        while got := peer.recv(4_096):
            read += got
        peer.close()
        if not read.startswith(b"LysKOM\n=1 ") or not read.endswith(b"\n"):
            raise Wrong(f"connection {number} reads {read!r}")
    grown = server.resident() - before
    if grown > 8_192:
        raise Wrong(f"the server has {grown} KiB more resident after {CONNECTS} connections")
    return grown


def main(arguments):
    program = program_of(arguments)
    workers = int(arguments[1]) if len(arguments) > 1 else 1
    begun = time.monotonic()

    def tell(line):
        print(f"{time.monotonic() - begun:5.1f} s: {line}", flush=True)

    limit_seconds(LIMIT_SECONDS)
    raise_limit()
    with tempfile.TemporaryDirectory(dir=folder_in_memory()) as memory:
        folder = pathlib.Path(memory)
        server = serve(program, make_store(program, folder / "many"), workers)
        try:
            sessions, grown, share = many(server, MOST)
            tell(f"{MOST} connections are served, {grown:.1f} KiB resident each, and idle they take {share:.2%} of a processor")
            members(server, sessions)
            tell(f"{MOST} members are told of {TEXTS} texts in one order")
            took = never_reads(server, sessions)
            tell(f"{MOST} sessions are answered ten calls in {took:.2f} s beside a peer that never reads")
            took = stop_idle(server, sessions)
            tell(f"the server ended {took:.2f} s after call 44, with {MOST} connections")
        finally:
            server.kill()
        server = serve(program, make_store(program, folder / "other"), workers)
        try:
            slowest, middle, fetches = fetch_and_ask(server)
            tell(f"beside {fetches} texts of a mebibyte the slowest of {ASKERS} was answered {slowest} times, the one in the middle {middle}")
            halves(server)
            tell("a peer that ends what it sends has all its replies, whatever the pieces")
            grown = comes_and_goes(server)
            tell(f"{CONNECTS} connections came one after the other, and the server has {grown} KiB more resident")
            stop(server).rest()
            wants("the status", server.wait(), 0)
        finally:
            server.kill()
        inside, slowest = few_descriptors(program, folder)
        tell(f"with {FEW_DESCRIPTORS} descriptors {inside} of {MANY_CLIENTS} clients are served, and one that waits comes in after {slowest:.2f} s")
    return 0


if __name__ == "__main__":
    script(main, __doc__)
