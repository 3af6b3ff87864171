#!/usr/bin/env python3
"""Measures contrib/komd-sweep and `komd sweep` over a club of ten years of which half is due: sweep.py [PROGRAM [TEXTS]]

It serves a store in memory by a clock that is told the time, and has so many texts made (100,000) over ten years, in ten conferences that
keep them for five, four of five of them comments. Then the texts are listed, and then swept, and of both the processor time that a text
takes is printed, of the tool and of the server, with the load of the machine; and what the sweep leaves of memory and of the file.

Of two copies, of a time when the conferences kept all and of the time before the sweep, `komd sweep` makes its walk, and its walk and the
deletions. Of these the processor time and the memory are printed, less what it takes to open the store, which is what a sweep takes
that is refused; and, where there is strace, how many syncs a deletion makes. PROGRAM is the built `komd` unless it is named.
"""
import os
import pathlib
import random
import re
import shutil
import subprocess
import sys
import tempfile
import time

sys.path.insert(0, str(pathlib.Path(__file__).resolve().parents[1] / "common"))
from built import ROOT, Wrong, make_store, program_of, script
from clock import DAY, Clock
from protocol import string
from served import Server, Session, folder_in_memory

SWEEP = str(ROOT / "contrib" / "komd-sweep")
TEXTS, YEARS, CONFERENCES, TOGETHER = 100_000, 10, 10, 500
FIRST_MOMENT, FIRST_CONFERENCE = 1_400_000_000, 6
BODY = "a subject\n" + "letters of a text. " * 15
# How far back the text may lie that is commented.
NEAR = 100


def make_club(session, clock, texts):
    """The texts, in the order of their moments. The conferences keep all."""
    seconds = YEARS * 365 * DAY
    session.ask("42 255")
    for number in range(CONFERENCES):
        session.ask(f"88 {string(f'Conference {number}')} 00000000 0 {{ }}")
    keep(session, YEARS * 365)
    for first in range(0, texts, TOGETHER):
        clock.set(FIRST_MOMENT + seconds * first // texts)
        write(session, first, min(first + TOGETHER, texts))
    clock.set(FIRST_MOMENT + seconds)


def keep(session, days):
    """Has the conferences keep texts for so many days."""
    for number in range(CONFERENCES):
        session.ask(f"22 {FIRST_CONFERENCE + number} {days}")


def write(session, first, end):
    """The texts whose numbers follow these, each of four of five a comment to one that is there."""
    draw, lines = random.Random(first), []
    for _ in range(first, end):
        misc = [f"0 {FIRST_CONFERENCE + draw.randrange(CONFERENCES)}"]
        if first and draw.random() < 0.8:
            misc.append(f"2 {draw.randrange(max(first - NEAR, 1), first + 1)}")
        lines.append(f"86 {string(BODY)} {len(misc)} {{ {' '.join(misc)} }} 0 {{ }}")
    session.ask_all(lines)


def timed(server, words):
    """The seconds of a komd-sweep, what the system tells that it used, the server's processor time for it, and the last lines that it prints."""
    served, begin = server.processor_seconds(), time.monotonic()
    used, said = ran(words)
    return time.monotonic() - begin, used, server.processor_seconds() - served, said[-2:]


def ran(words, status=0, environment=()):
    """What the system tells that a program used which ends so, and the lines that it prints."""
    process = subprocess.Popen(words, stdout=subprocess.PIPE, text=True, env={**os.environ, **dict(environment)})
    with process.stdout as lines:
        said = lines.read()
    _, ended, used = os.wait4(process.pid, 0)
    process.returncode = os.waitstatus_to_exitcode(ended)
    if process.returncode != status:
        raise Wrong(f"{words[0]} ends with {process.returncode}")
    return used, said.splitlines()


def try_alone(program, clock, texts, copies):
    """Prints what `komd sweep` takes of a copy of which nothing is due, and of one of which half is."""
    for what, copy in copies:
        traced = f"{copy} traced"
        shutil.copyfile(copy, traced)
        words = [program, "sweep", copy, "5"]
        opened, _ = ran([*words, "another password"], 8, clock.environment)
        used, said = ran([*words, ""], 0, clock.environment)
        gone = int(said[0].split()[1])
        spent = used.ru_utime + used.ru_stime - opened.ru_utime - opened.ru_stime
        print(f"komd sweep of {texts} texts, {what}, {', '.join(said)}: {spent / texts * 1e6:.2f} us of processor time a text, and "
              f"{(used.ru_maxrss - opened.ru_maxrss) * 1024 / texts:.1f} bytes, beside {opened.ru_utime + opened.ru_stime:.2f} s and "
              f"{opened.ru_maxrss} KiB to open it, at a load of {os.getloadavg()[0]:.1f}", flush=True)
        if gone and shutil.which("strace"):
            print(f"{syncs(program, clock, traced) / gone:.4f} syncs a deletion")
        os.unlink(traced)


def syncs(program, clock, store):
    """How many syncs a sweep makes."""
    told = f"{store} calls"
    environment = [f"-E{name}={value}" for name, value in clock.environment.items()]
    tracing = ["strace", "-f", "--seccomp-bpf", "-c", "-o", told, "-e", "trace=fsync,fdatasync,sync_file_range,msync", *environment]
    ran([*tracing, program, "sweep", store, "5", ""])
    return sum(int(calls) for calls in re.findall(r"^ *[\d.]+ +[\d.]+ +\d+ +(\d+) .*sync", pathlib.Path(told).read_text(), re.MULTILINE))


def main(words):
    program = program_of(words)
    texts = int(words[1]) if words[1:] else TEXTS
    with tempfile.TemporaryDirectory(dir=folder_in_memory()) as name:
        folder = pathlib.Path(name)
        clock = Clock(folder, FIRST_MOMENT)
        store = make_store(program, str(folder / "store"))
        password = folder / "password"
        password.write_text("\n")
        password.chmod(0o600)
        server = Server(program, store, 2, {**clock.environment, "MALLOC_ARENA_MAX": "1"})
        try:
            session = Session(server.port).login()
            make_club(session, clock, texts)
            copies = [("none due", shutil.copyfile(store, folder / "none due"))]
            keep(session, YEARS * 365 // 2)
            copies.append(("half due", shutil.copyfile(store, folder / "half due")))
            try_alone(program, clock, texts, copies)
            for what, more in (("listed", []), ("swept", ["--delete"])):
                before = server.resident(), os.stat(store).st_size
                took, used, served, said = timed(server, [SWEEP, "--port", str(server.port), *more, "5", str(password)])
                tool = used.ru_utime + used.ru_stime
                print(f"{texts} texts {what}, {', '.join(said)}: {took:.1f} s, {tool / texts * 1e6:.1f} us a text of the tool's processor time and "
                      f"{served / texts * 1e6:.1f} of the server's, at a load of {os.getloadavg()[0]:.1f}", flush=True)
                print(f"the tool had {used.ru_maxrss} KiB; the server {before[0]} before and {server.resident()} after; the store "
                      f"{before[1]} bytes and {os.stat(store).st_size}")
            for first in range(texts, texts + texts // 2, TOGETHER):
                write(session, first, first + TOGETHER)
            print(f"the server had {server.resident()} KiB once as many texts were written as went")
        finally:
            server.kill()
    return 0


if __name__ == "__main__":
    script(main, __doc__)
