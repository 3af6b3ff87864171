#!/usr/bin/python3 -B
"""Measures what contrib/komd-front costs before a `komd serve`: front.py [PROGRAM [SECONDS [FOLDER]]]

1. get-text of 1,000 texts of 500 bytes, by four processes that each have a session and one call under way: to the server itself, through
   the door without TLS, and through it with TLS. They take turns, five times, SECONDS (2) each; the medians are compared. Once with a
   store in FOLDER (a folder of its own on the disk for temporary files), where each call is synced, and once with one in memory, where
   what the door itself takes is the most that can be seen. The processor time of the door for a call is told too.
2. The memory of the door with 1,000 members who were logged in over TLS and are idle, before a stand-in that answers a greeting and a
   login, since a komd has 64 workers at most.

It prints a line for each, takes a minute, and wants a machine that does nothing else; the status is 0. PROGRAM is the built `komd` unless
it is named.
"""
import multiprocessing
import pathlib
import resource
import socket
import statistics
import sys
import tempfile
import threading
import time

sys.path.insert(0, str(pathlib.Path(__file__).resolve().parents[1] / "common"))
from built import Wrong, make_store, program_of, script
from doors import Front, Guest, free_port, kill_all, make_certificate
from protocol import string
from served import Server, Session, folder_in_memory

WORKERS, CLIENTS, TURNS = 8, 4, 5
TEXTS, BODY = 1_000, 500
IDLE = 1_000


def fill(port):
    """Makes the texts."""
    session = Session(port, "filler").login()
    session.ask("88 4HOpen 0000 0 { }")
    for _ in range(TEXTS // 100):
        session.ask_all([f"86 {string('x' * BODY)} 1 {{ 0 6 }} 0 {{ }}"] * 100)
    session.end()


def calls(connect, seconds, barrier, counts):
    """One client: how many calls are answered in so many seconds, once all are there."""
    session = connect().login()
    connection, count = session.socket, 0
    barrier.wait()
    end = time.monotonic() + seconds
    while time.monotonic() < end:
        connection.sendall(b"1 25 %d 0 9999\n" % (count % TEXTS + 1))
        got = connection.recv(65_536)
        while not got.endswith(b"\n"):
            got += connection.recv(65_536)
        if not got.startswith(b"=1 500H"):
            raise Wrong(f"{got!r:.80} in place of a text")
        count += 1
    counts.put(count)
    session.end()


def rate(connect, seconds):
    """How many calls a second the clients have answered together."""
    barrier, counts = multiprocessing.Barrier(CLIENTS), multiprocessing.Queue()
    clients = [multiprocessing.Process(target=calls, args=(connect, seconds, barrier, counts)) for _ in range(CLIENTS)]
    for client in clients:
        client.start()
    for client in clients:
        client.join()
    if any(client.exitcode for client in clients):
        raise Wrong("a client failed")
    return sum(counts.get() for _ in clients) / seconds


def compare(program, folder, certificate, where, seconds):
    """Part 1, in a folder."""
    server = Server(program, make_store(program, str(folder / "store")), WORKERS)
    try:
        compare_served(server, certificate, where, seconds)
    finally:
        server.kill()


def compare_served(server, certificate, where, seconds):
    """Part 1, once a store is served."""
    fill(server.port)
    words = ("--places", str(WORKERS))
    plain = Front(certificate[0].parent, server.port, *words)
    tls = Front(certificate[0].parent, server.port, *words, certificate=certificate)
    ways = {"the server": lambda: Session(server.port), "the door without TLS": lambda: Guest(plain), "the door": lambda: Guest(tls)}
    rates = {way: [] for way in ways}
    for _ in range(TURNS):
        for way, connect in ways.items():
            rates[way].append(rate(connect, seconds))
    medians = {way: statistics.median(found) for way, found in rates.items()}
    for way, front in (("without TLS", plain), ("with TLS", tls)):
        calls_made = sum(rates["the door" if front is tls else "the door without TLS"]) * seconds
        print(f"a store {where}: the door {way} takes {front.processor_seconds() / calls_made * 1e6:.0f} microseconds of a core for a call")
    for way, median in medians.items():
        print(f"get-text, {CLIENTS} connections, a store {where}, {way}: {median:,.0f} a second, {median / medians['the server']:.2f}")
    plain.end()
    tls.end()


class StandIn:
    """What a door takes for a server: it answers greetings and calls, whatever they are."""

    def __init__(self):
        self.port = free_port()
        self.listener = socket.create_server(("127.0.0.1", self.port), backlog=IDLE)
        self.connections = []
        threading.Thread(target=self.serve, daemon=True).start()

    def serve(self):
        while True:
            connection, _ = self.listener.accept()
            connection.recv(100)
            connection.sendall(b"LysKOM\n")
            connection.recv(100)
            connection.sendall(b"=1\n")
            self.connections.append(connection)


def idle(folder, certificate):
    """Part 2."""
    front = Front(folder, StandIn().port, "--places", str(IDLE + 2), "--connections", str(IDLE), certificate=certificate)
    before = front.resident()
    guests = [Guest(front).login() for _ in range(IDLE)]
    time.sleep(1)
    after = front.resident()
    print(f"{IDLE:,} idle members over TLS: {after / 1000:.0f} MB resident, {(after - before) / IDLE:.0f} kB each")
    for guest in guests:
        guest.close()
    front.end()


def main(words):
    program, seconds = program_of(words), float(words[1]) if len(words) > 1 else 2
    resource.setrlimit(resource.RLIMIT_NOFILE, (4 * IDLE, max(4 * IDLE, resource.getrlimit(resource.RLIMIT_NOFILE)[1])))
    with tempfile.TemporaryDirectory(dir=folder_in_memory()) as memory, tempfile.TemporaryDirectory(dir=(words[2:] or [None])[0]) as disk:
        certificate = make_certificate(pathlib.Path(memory))
        try:
            compare(program, pathlib.Path(disk), certificate, "on disk", seconds)
            compare(program, pathlib.Path(memory), certificate, "in memory", seconds)
            idle(pathlib.Path(memory), certificate)
        finally:
            kill_all()
    return 0


if __name__ == "__main__":
    script(main, __doc__)
