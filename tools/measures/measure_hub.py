#!/usr/bin/env python3
"""Measures the built program `komd` with its word `hub` and one worker over loopback: measure_hub.py [PROGRAM [PART..]]

Each part makes a store and has it served:
- syncs: how many create-texts of 500 bytes one pair of syncs stores, by so many connections with so many calls under way at each, 64 and
  16, and 64 and 1 (`strace -f -c`, which counts syncs alone and leaves other calls of the system as fast as they are). The store lies in
  the usual folder, which TMPDIR names and which has to be on a disk; those of the other parts lie in memory;
- busy: the processor time of a who-am-i of ten connections with one call under way at each, beside 990 idle ones and alone, in turn;
- room: what is resident for each of 1,000 connections that asked once, and once each of them has made 20,000 calls, 16 at a time.

It prints a line for each. All parts are measured unless some are named; they take a minute or two together. It ends with 1 where a pair
of syncs stores less than 128 and 20, a call beside idle connections takes more than 1.2 times what it takes alone, or a connection has more
than 8 and 16 KiB, else with 0. It ends each server that it starts, and needs a C compiler; for syncs strace too.
"""
import pathlib
import resource
import statistics
import subprocess
import sys
import tempfile
import time

sys.path.insert(0, str(pathlib.Path(__file__).resolve().parents[1] / "common"))
from built import Wrong, make_store, program_of, script
from ratios_of_serve import CREATE_TEXT, built, measured
from served import Server, Session, folder_in_memory, limit_seconds, stop

# Connections, calls under way at each, threads of the generator, and how many calls a pair of syncs has to store at least.
STORED = (((64, 16, 2), 128), ((64, 1, 2), 20))
STORED_SECONDS = 3.0
BUSY, IDLE = (10, 1, 1), 990
BUSY_SECONDS, BUSY_TURNS, MOST_BESIDE_IDLE = 1.0, 3, 1.2
MANY, MANY_UNDER_WAY, MANY_CALLS = 1_000, 16, 20_000
MOST_KIB, MOST_KIB_LATER = 8, 16
LONGEST_SECONDS = 60
LIMIT_SECONDS = 300
ASKS = [(1, "56")]


def end(server):
    stop(server).rest()
    if (status := server.wait()) != 0:
        raise Wrong(f"the server ends with status {status}")


def traced(program, folder):
    """A script that runs the program under strace, and the file in which that counts its syncs."""
    told, wrapper = folder / "syncs", folder / "traced"
    counts = f"strace -f -c --seccomp-bpf -e trace=fsync,fdatasync -o {told}"
    wrapper.write_text(f'#!/bin/sh\nexec {counts} {program} "$@"\n', encoding="ascii")
    wrapper.chmod(0o755)
    return str(wrapper), told


def syncs(program, folder):
    """How many texts a pair of syncs stores."""
    generator = built(folder, "load_generator")
    good = True
    for shape, least in STORED:
        with tempfile.TemporaryDirectory() as place:
            wrapper, told = traced(program, folder)
            server = Server(wrapper, make_store(program, pathlib.Path(place) / "store"), 1, word="hub")
            try:
                maker = Session(server.port, "maker").login()
                maker.ask("88 4HOpen 0000 0 { }")
                first = int(maker.ask("115"))
                measured(generator, server, shape, STORED_SECONDS, [(1, CREATE_TEXT)])
                texts = int(maker.ask("115")) - first
                maker.end()
                end(server)
            finally:
                server.kill()
            rows = [line.split() for line in told.read_text(encoding="ascii").splitlines()]
            found = sum(int(row[3]) for row in rows if row and row[-1] in ("fsync", "fdatasync"))
        stored = 2 * texts / max(found, 1)
        print(f"create-text at {shape[0]} x {shape[1]}: {texts} texts and {found} syncs, {stored:.0f} for each pair", flush=True)
        good = good and stored >= least
    return good


def busy(program, folder):
    """What a call takes beside idle connections, and alone."""
    generator = built(folder, "load_generator")
    server = Server(program, make_store(program, folder / "busy"), 1, word="hub")
    try:
        alone, beside = [], []
        for _ in range(BUSY_TURNS):
            alone.append(measured(generator, server, BUSY, BUSY_SECONDS, ASKS)[-1])
            idle = [Session(server.port, f"idle{number}") for number in range(IDLE)]
            beside.append(measured(generator, server, BUSY, BUSY_SECONDS, ASKS)[-1])
            for session in idle:
                session.close()
            time.sleep(0.5)
        end(server)
    finally:
        server.kill()
    one, other = statistics.median(alone), statistics.median(beside)
    print(f"who-am-i of {BUSY[0]} connections beside {IDLE} idle ones: {other:.2f} µs a call, {other / one:.2f} of {one:.2f} alone", flush=True)
    return other <= MOST_BESIDE_IDLE * one


def room(program, folder):
    """What a connection has resident."""
    generator = built(folder, "load_generator")
    server = Server(program, make_store(program, folder / "room"), 1, word="hub")
    try:
        before = server.resident()
        sessions = [Session(server.port, f"user{number}") for number in range(MANY)]
        for session in sessions:
            session.ask("56")
        first = (server.resident() - before) / MANY
        for session in sessions:
            session.close()
        time.sleep(1)
        shape = (MANY, MANY_UNDER_WAY, 2)
        a_second = measured(generator, server, shape, 1.0, ASKS)[0]
        # (a longer turn may answer fewer in a second)
        seconds = min(1.1 * MANY * MANY_CALLS / a_second, LONGEST_SECONDS)
        later, words = 0, [str(word) for word in (server.port, shape[2], *shape[:2], seconds, 1, "56")]
        with subprocess.Popen([generator, *words], stdout=subprocess.PIPE, text=True) as load:
            while load.poll() is None:
                later = max(later, (server.resident() - before) / MANY)
                time.sleep(0.1)
            made = float(load.stdout.read().split()[0]) * seconds / MANY
        end(server)
    finally:
        server.kill()
    print(f"{MANY} connections have {first:.1f} KiB resident each after a call, and {later:.1f} after {made:.0f} calls each, "
          f"{MANY_UNDER_WAY} at a time", flush=True)
    return first <= MOST_KIB and later <= MOST_KIB_LATER


PARTS = {"syncs": syncs, "busy": busy, "room": room}


def main(words):
    program = program_of(words)
    hard = resource.getrlimit(resource.RLIMIT_NOFILE)[1]
    resource.setrlimit(resource.RLIMIT_NOFILE, (hard, hard))
    limit_seconds(LIMIT_SECONDS)
    good = True
    with tempfile.TemporaryDirectory(dir=folder_in_memory()) as folder:
        for part in words[1:] or list(PARTS):
            good = PARTS[part](program, pathlib.Path(folder)) and good
    return 0 if good else 1


if __name__ == "__main__":
    script(main, __doc__)
