#!/usr/bin/env python3
"""Measures the built program `komd` with its word `serve`, or `hub`, over loopback: measure_serve.py [PROGRAM[:hub] [PART..]]

Each part makes a store in memory and has it served by 64 workers, or with `:hub` behind the program's name by one worker for all:
- memory: what the server has resident after ten thousand calls of four connections that send what they can, and after ten
  million; of a hundred calls eighteen are stored;
- idle: which part of a core the server takes in 20 seconds, by clock ticks, while 64 connections at which somebody is logged in
  are idle, with `hub` 1,000, and what it takes without them; and what C (idle_waits.c) takes meanwhile of which 64 threads poll, again
  and again;
- messages: how long 1,000 messages take to a session that is idle, of as many; the median, and what 99 of 100 do not exceed.

It prints a line for each, with the machine's load before and after: another load than its own makes the figures greater. All
parts are measured unless some are named. Memory takes one to five minutes, the others three together. It ends with 1 where the
memory has grown by more than 256 KiB, the idle server takes more than 1 % of a core (with `hub` 0.1 %), or the median is above 60 ms
or the 99th of 100 above 100 ms (with `hub` 2 and 20), else with 0. It ends each server that it starts, and needs a C compiler.
"""
import collections
import os
import pathlib
import resource
import statistics
import subprocess
import sys
import tempfile
import threading
import time

sys.path.insert(0, str(pathlib.Path(__file__).resolve().parents[1] / "common"))
from built import Wrong, compile_c, make_store, program_of, script
from protocol import string
from served import ADMINISTRATOR, Server, Session, folder_in_memory, limit_seconds, side_by_side, stop

# How many workers serve, how many connections are idle, which part of a core they may take, and how long a message may.
Way = collections.namedtuple("Way", "word workers idle most_idle most_median most_99")
SERVE, HUB = Way("serve", 64, 64, 0.01, 0.060, 0.100), Way("hub", 1, 1_000, 0.001, 0.002, 0.020)
POLLING = 64
PAUSE_MILLISECONDS = 80
CONNECTIONS = 4
FEW, MANY = 10_000, 10_000_000
MOST_GROWN_KIB = 256
IDLE_SECONDS = 20
MESSAGES = 1_000
LIMIT_SECONDS = 1_800
# A hundred calls, of which three are stored beside those that fetch a text; {0} is the number of the connection. None makes a row,
# since a row that goes leaves its slot empty.
HUNDRED = (
    ["56"] * 43 + ["35"] * 10 + ["25 1 0 99"] * 15 + ["90 1"] * 10 + ["103 6 1 10"] * 5 + ["76 2Hne 1 1"] * 5
    + ["91 6", "49 5", "83 1 1 0", "53 5 2Hyo", "82", "25 99 0 1", "200", "27 6 1 {{ {0} }}", "22 6 {0}", "57 5 {0}", "81", "94"]
)


class Pusher:
    """A connection that sends calls without waiting for replies, whose number is counted by another thread."""

    def __init__(self, port, number):
        self.session = Session(port, f"pusher{number}").login()
        self.session.ask("80 1 { 12 }")
        self.lines = "".join(f"1 {call.format(number)}\n" for call in HUNDRED).encode("ascii")
        self.calls = len(HUNDRED)

    def push(self, rounds):
        """Sends the hundred so many times, and returns when each call was answered."""
        reader = threading.Thread(target=self.count, args=(rounds * self.calls,), daemon=True)
        reader.start()
        left = rounds
        while left > 0:
            self.session.socket.sendall(self.lines * min(left, 20))
            left -= 20
        reader.join()

    def count(self, calls):
        """Reads until so many replies have come: each line begins with a sign, and no string has a line feed."""
        while calls > 0:
            line = self.session.file.readline()
            if not line:
                raise Wrong("the server ends a connection")
            calls -= line[:1] in b"=%"


def served(program, way, folder, name):
    """A server over a store with a conference and four texts in it."""
    server = Server(program, make_store(program, folder / name), way.workers, word=way.word)
    session = Session(server.port, "maker").login()
    session.ask("88 4HOpen 0000 0 { }")
    session.ask("100 6 5 100 0 00000000")
    for number in range(CONNECTIONS):
        session.ask(f"86 {string(f'text {number}')} 1 {{ 0 6 }} 0 {{ }}")
    session.end()
    return server


def end(server):
    stop(server).rest()
    if (status := server.wait()) != 0:
        raise Wrong(f"the server ends with status {status}")


def memory(program, way, folder):
    """What is resident after few and after many calls."""
    server = served(program, way, folder, "memory")
    try:
        pushers = [Pusher(server.port, number + 1) for number in range(CONNECTIONS)]
        told, done, begun = {}, 0, time.monotonic()
        for calls in (FEW, MANY):
            rounds = (calls - done) // CONNECTIONS // len(HUNDRED)
            side_by_side(CONNECTIONS, lambda number: pushers[number].push(rounds))
            done, told[calls] = calls, server.resident()
        print(f"after {FEW} calls {told[FEW]} KiB are resident, after {MANY} {told[MANY]} ({time.monotonic() - begun:.0f} s)")
        for pusher in pushers:
            pusher.session.close()
        end(server)
        return told[MANY] <= told[FEW] + MOST_GROWN_KIB
    finally:
        server.kill()


def parts_of_core(server, waits):
    """Which part of a core the server takes, and C that waits."""
    process = subprocess.Popen([waits, str(POLLING), str(PAUSE_MILLISECONDS), str(IDLE_SECONDS)], stdout=subprocess.PIPE, text=True)
    time.sleep(1)
    before, begun = server.processor_seconds(), time.monotonic()
    time.sleep(IDLE_SECONDS)
    part = (server.processor_seconds() - before) / (time.monotonic() - begun)
    return part, float(process.communicate()[0])


def idle(program, way, folder):
    """What an idle server takes."""
    waits = compile_c(pathlib.Path(__file__).with_name("idle_waits.c"), folder / "idle_waits")
    server = served(program, way, folder, "idle")
    try:
        alone, theirs_alone = parts_of_core(server, waits)
        sessions = [Session(server.port, f"idle{number}").login() for number in range(way.idle)]
        part, theirs = parts_of_core(server, waits)
        print(f"{way.word} with {way.workers} workers takes {alone:.2%} of a core, {alone / theirs_alone:.2f} of C that polls, while it is idle;")
        print(f"with {way.idle} idle connections {part:.2%}, {part / theirs:.2f} of C that polls")
        for session in sessions:
            session.close()
        end(server)
        return part <= way.most_idle
    finally:
        server.kill()


def messages(program, way, folder):
    """How long messages take to an idle session."""
    server = served(program, way, folder, "messages")
    try:
        others = [Session(server.port, f"idle{number}").login() for number in range(way.idle - 2)]
        sender, listener = Session(server.port, "sender").login(), Session(server.port, "listener").login()
        listener.ask("80 1 { 12 }")
        times = []
        for number in range(MESSAGES):
            # (so that messages come at all moments of the pause)
            time.sleep((number * 37 % (2 * PAUSE_MILLISECONDS)) / 1_000)
            begun = time.monotonic()
            reference = sender.send(f"53 {ADMINISTRATOR} {string(str(number))}")
            listener.message()
            times.append(time.monotonic() - begun)
            sender.reply(reference)
        times.sort()
        median, late = statistics.median(times), times[MESSAGES * 99 // 100 - 1]
        print(f"of {MESSAGES} messages to an idle session of {way.idle} the median takes {median * 1e3:.1f} ms, 99 of 100 at most "
              f"{late * 1e3:.1f} ms")
        for session in [*others, sender, listener]:
            session.close()
        end(server)
        return median <= way.most_median and late <= way.most_99
    finally:
        server.kill()


PARTS = {"memory": memory, "idle": idle, "messages": messages}


def main(words):
    path, _, word = (words[0] if words else "").partition(":")
    program, way = program_of([path] if path else []), {"": SERVE, "hub": HUB}[word]
    parts = words[1:] or list(PARTS)
    hard = resource.getrlimit(resource.RLIMIT_NOFILE)[1]
    resource.setrlimit(resource.RLIMIT_NOFILE, (hard, hard))
    limit_seconds(LIMIT_SECONDS)
    print(f"load {os.getloadavg()[0]:.1f} on {os.cpu_count()} processors", flush=True)
    good = True
    with tempfile.TemporaryDirectory(dir=folder_in_memory()) as folder:
        for part in parts:
            good = PARTS[part](program, way, pathlib.Path(folder)) and good
            sys.stdout.flush()
    print(f"load {os.getloadavg()[0]:.1f}")
    return 0 if good else 1


if __name__ == "__main__":
    script(main, __doc__)
