#!/usr/bin/env python3
"""Compares what the built program `komd` answers in a second, by its word `serve` or `hub`, with a small C server at the same load:
ratios_of_serve.py [PROGRAM[:hub[:WORKERS]] [SECONDS [FOLDER [NAME..] [SHAPE..]]]]

The C server (fixed_replies.c) answers each line with the reply that `komd` gave to such a line once. The load (load_generator.c)
comes over loopback from so many connections with so many calls under way at each: 1 and 1, 16 and 1, 64 and 1, 64 and 16, and with `hub`
1,000 and 1. The calls: who-am-i, get-time, get-text, get-text-stat, local-to-global of 100 texts, create-text, and nine get-text to one
create-text; of 1,000 texts of 500 bytes. Both servers take turns, three times for each row, SECONDS (1) each time; the medians of the three
are compared. Calls that `komd` stores before it answers them, get-text among them since it counts what was fetched, are compared once
more with the C server where that makes the same two writes and two syncs, in the same folder.

It prints a row for each: the calls a second, the median and the 99th of 100 of the times, all three by the C server's; the microseconds of
processor time that each server took for a call; and which part of a core each of the generator's threads took beside `komd` and beside the
C server: near 1 it is the limit, and the ratio is nearer to 1 than it should be. Last it compares `komd` at 64 and 16 with itself at 1 and 1.
It takes ten minutes, and says nothing unless the machine does nothing else. Stores lie in FOLDER, or in a folder of its own for a while; a
folder in memory syncs nothing. With names of calls only these are compared, and with shapes, as 64x16, only these loads. It needs a C
compiler. The servers end with it.

PROGRAM is the built `komd` unless it is named. It serves by 64 workers, or with `:hub` behind its name by one worker for all connections, or as
many as are named. With several programs, a comma between two, each has its rows, of the same minutes.
"""
import pathlib
import statistics
import subprocess
import sys
import tempfile
import time

sys.path.insert(0, str(pathlib.Path(__file__).resolve().parents[1] / "common"))
from built import Wrong, compile_c, make_store, program_of, script
from protocol import string
from served import Server, Session, limit_seconds, stop

WORKERS = 64
TEXTS, BODY = 1_000, 500
TURNS = 3
MOST_CONNECTIONS = 1_024
LIMIT_SECONDS = 1_800
# Connections, calls under way at each, threads of the generator.
SHAPES = ((1, 1, 1), (16, 1, 1), (64, 1, 2), (64, 16, 2), (1000, 1, 2))
# The generator loads for so many seconds more, before those in which it counts the calls.
BEFORE = 0.2
GET_TEXT = f"25 ~{TEXTS}~ 0 4294967295"
CREATE_TEXT = f"86 {string('x' * BODY)} 1 {{ 0 6 }} 0 {{ }}"
MANY = SHAPES[3]
# The calls with their weights, and whether `komd` stores one of them.
LOADS = {
    "who-am-i": ([(1, "56")], False),
    "get-time": ([(1, "35")], False),
    "get-text": ([(1, GET_TEXT)], True),
    "get-text-stat": ([(1, f"90 ~{TEXTS}~")], False),
    "local-to-global": ([(1, f"103 6 ~{TEXTS - 100}~ 100")], False),
    "create-text": ([(1, CREATE_TEXT)], True),
    "9 get-text, 1 create-text": ([(9, GET_TEXT), (1, CREATE_TEXT)], True),
}
STORED = ("25", "86")


def built(folder, name):
    """A program of C that lies beside this script."""
    return compile_c(pathlib.Path(__file__).with_name(f"{name}.c"), folder / name)


def fill(port):
    """Makes the texts, and returns a reply to each call by its number."""
    session = Session(port, "filler").login()
    session.ask("88 4HOpen 0000 0 { }")
    for begun in range(0, TEXTS, 100):
        session.ask_all([CREATE_TEXT] * min(100, TEXTS - begun))
    replies = {}
    for calls, _ in LOADS.values():
        for _, call in calls:
            number = call.split(" ", 1)[0]
            result = session.ask(call.replace(f"~{TEXTS}~", str(TEXTS // 2)).replace(f"~{TEXTS - 100}~", str(TEXTS // 2)))
            replies[number] = f" {result}" if result else ""
    session.end()
    return replies


def serve(word, folder):
    """A store that is served by a program, and by which word and how many workers it is told to."""
    path, way, workers = (word.split(":") + ["", ""])[:3]
    program = program_of([path] if path else [])
    server = Server(program, make_store(program, folder), int(workers or (1 if way else WORKERS)), word=way or "serve")
    server.places = MOST_CONNECTIONS if way else WORKERS
    server.name = pathlib.Path(program).name + (f", {way} of {workers or 1}" if way else "")
    return server


class Fixed:
    """The C server, which stores calls if a store is named."""

    places = MOST_CONNECTIONS
    processor_seconds = Server.processor_seconds

    def __init__(self, program, port, replies, store=""):
        words = [word for number, reply in replies.items()
                 for word in (number, ("+" if store and number in STORED else "") + reply)]
        self.port = port
        self.process = subprocess.Popen([program, str(port), str(LIMIT_SECONDS), store, *words])
        for _ in range(500):
            try:
                Session(port).close()
                return
            except OSError:
                time.sleep(0.02)
        raise Wrong("the C server does not listen")

    def kill(self):
        self.process.kill()
        self.process.wait()


def measured(generator, server, shape, seconds, calls):
    """The calls a second, the median and the 99th of 100 of the times, how busy the generator was, and the server's microseconds a call."""
    connections, under_way, threads = shape
    words = [str(word) for pair in calls for word in pair]
    used = server.processor_seconds()
    done = subprocess.run([generator, str(server.port), str(threads), str(connections), str(under_way), str(seconds), *words],
                          capture_output=True, text=True, timeout=seconds + 60, check=False)
    if done.returncode != 0:
        raise Wrong(f"the generator ends with status {done.returncode}: {done.stderr:.200}")
    told = [float(word) for word in done.stdout.split()]
    return [*told, (server.processor_seconds() - used) * 1_000_000 / max(told[0] * seconds * (1 + BEFORE), 1)]


def compare(generator, servers, shape, seconds, calls):
    """The medians of what was measured of each server."""
    told = [[] for _ in servers]
    for _ in range(TURNS):
        for server, found in zip(servers, told):
            found.append(measured(generator, server, shape, seconds, calls))
    return [[statistics.median(column) for column in zip(*found)] for found in told]


def row(name, shape, against, ours, theirs):
    """Prints what one server makes of what the C server makes."""
    calls, median, late, busy, used = ours
    if calls == 0 or 0 in theirs[:3]:
        raise Wrong(f"{name}: nothing is answered")
    print(f"| {name} | {shape[0]} x {shape[1]} | {against} | {calls / theirs[0]:.2f} | {median / theirs[1]:.1f} "
          f"| {late / theirs[2]:.1f} | {used:.2f}, {theirs[4]:.2f} | {busy:.2f}, {theirs[3]:.2f} |", flush=True)


def main(words):
    programs = words[0].split(",") if words else [""]
    seconds = float(words[1]) if len(words) > 1 else 1.0
    names = [word for word in words[3:] if word in LOADS] or list(LOADS)
    shapes = [shape for shape in SHAPES if f"{shape[0]}x{shape[1]}" in words[3:]] or SHAPES
    limit_seconds(LIMIT_SECONDS)
    with tempfile.TemporaryDirectory(dir=words[2] if len(words) > 2 else None) as name:
        folder = pathlib.Path(name)
        generator, fixed = built(folder, "load_generator"), built(folder, "fixed_replies")
        servers, others = [], []
        try:
            for number, program in enumerate(programs):
                servers.append(serve(program, folder / f"store{number}"))
                replies = fill(servers[-1].port)
            port = servers[-1].port
            others.append(Fixed(fixed, port + 1, replies))
            others.append(Fixed(fixed, port + 2, replies, str(folder / "other")))
            print("| calls | connections x under way | against C that | calls a second | median | 99 of 100 | µs a call | generator busy |")
            print("|---|---|---|---|---|---|---|---|")
            rises = compare_all(generator, servers, others, seconds, names, shapes)
            if rises:
                print(f"calls a second at {MANY[0]} x {MANY[1]} by those at 1 x 1: {', '.join(rises)}")
            for server in servers:
                stop(server).rest()
                if (status := server.wait()) != 0:
                    raise Wrong(f"the server ends with status {status}")
        finally:
            for server in [*servers, *others]:
                server.kill()
    return 0


def compare_all(generator, servers, others, seconds, names, shapes):
    """Prints the rows of these calls at these loads; how the calls a second rise with the load is returned."""
    rises = []
    for load in names:
        calls, is_stored = LOADS[load]
        found = {}
        for shape in shapes:
            able = [server for server in servers if shape[0] <= server.places]
            told = compare(generator, [*able, *others[: 1 + is_stored]], shape, seconds, calls)
            ours, (answers, *stores) = told[: len(able)], told[len(able) :]
            for server, one in zip(able, ours):
                called = load if len(servers) == 1 else f"{load}, {server.name}"
                found[called, shape] = one
                row(called, shape, "answers", one, answers)
                if is_stored:
                    row(called, shape, "stores and answers", one, stores[0])
        rises += [f"{called}: {found[called, MANY][0] / one[0]:.2f}" for (called, shape), one in found.items()
                  if shape == SHAPES[0] and (called, MANY) in found]
    return rises


if __name__ == "__main__":
    script(main, __doc__)
