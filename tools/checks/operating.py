#!/usr/bin/env python3
"""Tries what docs/operating.md tells an operator, with the built program: operating.py [PROGRAM]

The first day by contrib/komd-first-day; each exit status; contrib/komd-backup while four connections write, and putting a copy back; that
a copy which is read forward is whole wherever an append stands, and one that is read backward is not; contrib/rescue.py over the sample
stores of tests/stores, and for a lost administrator; contrib/komd-probe; stops by signals and by call 44.

It prints a line for each thing that is otherwise, and a count, and ends with 1 if there is one, else with 0. Each server is ended by it.
PROGRAM is the built `komd` unless it is named.
"""
import os
import pathlib
import random
import re
import resource
import shutil
import signal
import socket
import subprocess
import sys
import tempfile
import threading
import time

TOP = pathlib.Path(__file__).resolve().parents[2]
sys.path[:0] = [str(TOP / "tools" / "common"), str(TOP / "contrib")]
import rescue
from built import ROOT, Wrong, check_store, make_store, program_of, script
from protocol import string
from served import PATIENCE, Server, Session, folder_in_memory, has_ipv6, hear_signals
from tried import Tried

CONTRIB = ROOT / "contrib"
RESCUE = CONTRIB / "rescue.py"
SAMPLES = ROOT / "tests" / "stores"
FIRST, NAME, SECOND = "a first password", "Birgit Öberg", "a second password"
COPIES, READINGS = 20, 200
BETWEEN_TEXTS = 0.005


class Operator(Tried):
    """Does what an operator does, in a folder."""

    def run(self, *words, given=b"", **more):
        """The status of a run with these words, and what it prints."""
        given_in = {} if "stdin" in more else {"input": given}
        environment = {**os.environ, "KOMD": self.program}
        done = subprocess.run([str(word) for word in words], capture_output=True, timeout=PATIENCE, env=environment, **given_in, **more)
        return done.returncode, done.stdout.decode("latin-1")

    def counts(self, store):
        """What `check` counts in a copy of a store, or its status."""
        copy = self.folder / "counted"
        shutil.copyfile(store, copy)
        status, counts = check_store(self.program, copy)
        copy.unlink()
        return list(counts.values()) if status == 0 else status

    def made(self, name, password=""):
        """A new store."""
        store = self.folder / name
        store.unlink(missing_ok=True)
        make_store(self.program, store, password)
        return store


def find_all(port, answered):
    """Finds these texts, by their numbers, with the bodies that they were written with."""
    session = login(port, 5, "")
    for text, body in answered.items():
        if session.ask(f"25 {text} 0 4294967295") != string(body):
            raise Wrong(f"text {text} is not {body!r}")
    session.end()


def login(port, person, password):
    session = Session(port, "operator")
    session.ask(f"62 {person} {string(password)} 0")
    return session


def try_first_day(tried):
    """A store with two administrators, and no password in any word of a process."""
    store, words = tried.folder / "first", tried.folder / "words"
    wrapper = tried.folder / "wrapper"
    wrapper.write_text(f'#!/bin/bash\nprintf "%s\\n" "$@" >>{words}\nexec {tried.program} "$@"\n')
    wrapper.chmod(0o755)
    given = f"{FIRST}\n{NAME}\n{SECOND}\n".encode()
    real, tried.program = tried.program, str(wrapper)
    status, said = tried.run(CONTRIB / "komd-first-day", store, given=given)
    tried.program = real
    tried.same("the first day", (0, f"the store is made at {store}, and person 6 is the second administrator\n"), (status, said))
    tried.same("words that are no password", {"init", "once", f"{store}.first-day", ""}, set(words.read_text().splitlines()))
    lost = f"A1Ha\n1 62 6 {string(SECOND)} 0\n2 42 255\n3 8 5 0H {string(FIRST[::-1])}\n4 8 5 0H {string(FIRST)}\n"
    tried.same("a password that the other sets", 4, tried.run(tried.program, "once", store, given=lost.encode())[1].count("="))
    lines = "A1Ha\n1 62 5 0H 0\n"
    for reference, (person, password) in enumerate([(5, FIRST), (6, SECOND)], 2):
        lines += f"{reference} 62 {person} {string(password)} 0\n{reference} 42 255\n{reference} 43\n"
    answered = tried.run(tried.program, "once", store, given=lines.encode())
    tried.same("both passwords, and no empty one", (0, "LysKOM\n%1 4 5\n" + "=2\n" * 3 + "=3\n" * 3), answered)
    tried.same("another first day there", 4, tried.run(CONTRIB / "komd-first-day", store, given=given)[0])
    refused = tried.folder / "refused"
    for what, given in [("a short password", "short\n"), ("a name that is taken", f"{FIRST}\nnews\n{SECOND}\n"),
                        ("a long name", f"{FIRST}\n{'x' * 61}\n{SECOND}\n"), ("a name without words", f"{FIRST}\n(x)\n{SECOND}\n"),
                        ("a letter of no place", f"{FIRST}\nŠimon\n{SECOND}\n"), ("an input that ends", f"{FIRST}\n")]:
        status = tried.run(CONTRIB / "komd-first-day", refused, given=given.encode())[0]
        tried.same(what, (1, []), (status, list(tried.folder.glob("refused*"))))
    plain = tried.folder / "plain"
    given = f"{FIRST}\n{NAME}\n{SECOND}\n".encode()
    environment = {**os.environ, "KOMD": tried.program, "LC_ALL": "C"}
    done = subprocess.run([CONTRIB / "komd-first-day", plain], input=given, capture_output=True, env=environment, check=False)
    tried.same("the first day without a locale", (0, [6, 2, 0]), (done.returncode, tried.counts(plain)[1:]))
    tried.same("other words", 2, tried.run(CONTRIB / "komd-first-day")[0])


def try_statuses(tried):
    """Each status that an operator may see, but those of memory."""
    store, nothing = tried.made("statuses"), tried.folder / "nothing"
    komd = tried.program
    tried.same("more workers than there may be", 2, tried.run(komd, "serve", store, 4894, 65)[0])
    tried.same("no store", [4, 4], [tried.run(komd, "check", nothing)[0], tried.run(komd, "serve", nothing, 4894, 1)[0]])
    tried.same("a store where one is to be made", 4, tried.run(komd, "init", store, "")[0])
    tried.same("a folder", 3, tried.run(komd, "check", tried.folder)[0])
    with socket.create_server(("::", 0), family=socket.AF_INET6) as taken:
        tried.same("a port that is taken", 5, tried.run(komd, "serve", store, taken.getsockname()[1], 1)[0])
    with open("/dev/full", "wb") as full:
        done = subprocess.run([komd, "check", store], stdout=full, timeout=PATIENCE, check=False)
        tried.same("a report that cannot be written", 7, done.returncode)
    tried.same("a sweep with another password", 8, tried.run(komd, "sweep", store, 5, "another")[0])
    server = Server(komd, store, 1)
    try:
        tried.same("a store that is served", [3, 3], [tried.run(komd, word, store)[0] for word in ("check", "once")])
        tried.same("a sweep of it", 3, tried.run(komd, "sweep", store, 5, "")[0])
        tried.same("a backup put over it", 3, tried.run(CONTRIB / "komd-backup", "restore", store, store)[0])
        tried.same("a rescue in it", 3, tried.run(RESCUE, store, 5, given=b"new password\n")[0])
    finally:
        server.kill()
    length = store.stat().st_size
    limited = tried.run(
        komd, "once", store, given=b"A1Ha\n1 62 5 0H 0\n2 86 2000H" + bytes(2000) + b" 0 { } 0 { }\n",
        preexec_fn=lambda: resource.setrlimit(resource.RLIMIT_FSIZE, (length + 100, length + 100)),
    )
    tried.same("a limit on the length of files", -signal.SIGXFSZ, limited[0])
    tried.same("the store after it", [5, 1, 0], tried.counts(store)[1:])


def write_until(server, gone, answered):
    """Writes texts until it is told to stop."""
    number = threading.get_ident()
    session = login(server.port, 5, "")
    for place in range(1_000_000):
        if gone.is_set():
            return
        body = f"{number} writes {place} " + "x" * (place % 3000)
        answered[int(session.ask(f"86 {string(body)} 1 {{ 0 4 }} 0 {{ }}"))] = body
        # (a store that grows without end takes a busy machine longer and longer to copy)
        time.sleep(BETWEEN_TEXTS)


def try_backup(tried):
    """Copies that are made while four connections write, and putting the last one back."""
    store, copies = tried.made("written"), tried.folder / "copies"
    server, gone, answered = Server(tried.program, store, 8), threading.Event(), {}
    writers = [threading.Thread(target=write_until, args=(server, gone, answered)) for _ in range(4)]
    for writer in writers:
        writer.start()
    try:
        for number in range(COPIES):
            before = len(answered)
            status, said = tried.run(CONTRIB / "komd-backup", "save", store, copies, 3)
            texts = int(re.search(r"texts (\d+)$", said.strip()).group(1)) if status == 0 else 0
            # (each writer may have a text that is stored and not yet answered)
            tried.same(f"copy {number}", (0, True), (status, before <= texts <= len(answered) + len(writers)))
        last = dict(answered)
        tried.run(CONTRIB / "komd-backup", "save", store, copies, 3)
    finally:
        gone.set()
        for writer in writers:
            writer.join()
        server.kill()
    kept = sorted(copies.iterdir())
    tried.same("the copies that are kept", 3, len(kept))
    tried.same("who may read them", {0o600}, {copy.stat().st_mode & 0o777 for copy in kept})
    counts = tried.counts(kept[-1])
    status, said = tried.run(CONTRIB / "komd-backup", "restore", kept[-1], store)
    tried.same("putting it back", (0, 2), (status, len(said.splitlines())))
    tried.same("the store that was put back", counts, tried.counts(store))
    tried.same("the store that was there", 1, len(list(tried.folder.glob("written.*"))))
    # (each text that is read is counted in the store, which takes two syncs: in memory these take no time)
    with tempfile.TemporaryDirectory(dir=folder_in_memory()) as folder:
        server = Server(tried.program, shutil.copyfile(store, pathlib.Path(folder) / "store"), 1)
        try:
            find_all(server.port, last)
            tried.same("texts that were answered before the last copy", True, 0 < len(last) <= counts[3])
        finally:
            server.kill()
    broken = tried.folder / "broken"
    broken.write_bytes(store.read_bytes()[:-2])
    tried.same("putting back what is no store", 4, tried.run(CONTRIB / "komd-backup", "restore", broken, store)[0])
    tried.same("the store after that", counts, tried.counts(store))


def moments(held):
    """What stood in a store's file as its batches were appended: at each moment the whole file, and its number of batches."""
    gate, batches, files = len(rescue.HEADER), 0, []
    while True:
        files.append((held[:gate] + b"\x00", batches))
        if held[gate] == 0:
            return files
        end_of_batch = gate + 9 + rescue.number(held, gate + 1, 8)
        files.append((held[:gate] + b"\x00" + held[gate + 1 : end_of_batch] + b"\x00", batches))
        gate, batches = end_of_batch, batches + 1


def read_over(files, steps):
    """What is read, up to its end, of a file that stands as each of `files` in turn, where its next stretch begins at each of `steps`."""
    read = b""
    for held, start, end in zip(files, [0, *steps], [*steps, len(max(files, key=len))]):
        read += held[start:end]
        if len(read) < end:
            break
    return read


def try_order(tried):
    """Copies that are read forward, a stretch of any length at each moment, and backward."""
    held = moments((SAMPLES / "lived-3.store").read_bytes())[-40:]
    files, least, most = [file for file, _ in held], held[0][1], held[-1][1]
    length, draw = len(files[-1]), random.Random(1)
    copy, damaged = tried.folder / "read", 0
    for number in range(READINGS):
        steps = sorted(draw.randrange(length - 3000, length + 1) for _ in files[1:])
        copy.write_bytes(read_over(files, steps))
        counts = tried.counts(copy)
        tried.same(f"forward copy {number}", True, counts != 4 and least <= counts[0] <= most)
        copy.write_bytes(read_over(files[::-1], steps))
        damaged += tried.counts(copy) == 4
    tried.same("whether backward copies are damaged", True, damaged > 0)


def try_rescue(tried):
    """What rescue.py counts in the sample stores, and a store whose administrators are lost."""
    samples = sorted(SAMPLES.glob("*.store"))
    # (whether each effect fits is not for rescue.py to say)
    misfits = {"recipient-of-nobody", "text-twice"}
    copy = tried.folder / "sample"
    for sample in samples:
        shutil.copyfile(sample, copy)
        status, said = tried.run(RESCUE, copy)
        counts = [int(line.split()[1]) for line in said.splitlines()[:4]] if status == 0 else status
        if sample.stem not in misfits:
            tried.same(f"what stands in {sample.stem}", tried.counts(sample), counts)
        tried.same(f"{sample.stem} after it was read", sample.read_bytes(), copy.read_bytes())
        if status == 0 and counts[2] > 0 and sample.stem not in misfits:
            person = int(said.split("administrator ")[1].split()[0])
            tried.same(f"a rescue in {sample.stem}", 0, tried.run(RESCUE, copy, person, given=b"rescued\n")[0])
            tried.same(f"{sample.stem} after it", [counts[0] + 1, *counts[1:]], tried.counts(copy))
            lines = f"A1Ha\n1 62 {person} 7Hrescued 0\n2 42 255\n3 43\n".encode()
            tried.same(f"the person of {sample.stem}", "LysKOM\n=1\n=2\n=3\n", tried.run(tried.program, "once", copy, given=lines)[1])
    tried.same("whether there are samples", True, len(samples) > len(misfits))
    store = tried.made("lost", "forgotten")
    tried.run(tried.program, "once", store, given=b"A1Ha\n1 89 4HHans 4Hhans 00000000 0 { }\n")
    before = store.read_bytes()
    for what, person, given, status in [("a stranger", 7, b"new\n", 1), ("no password", 6, b"", 1), ("a long one", 6, b"x" * 129, 1)]:
        tried.same(f"a rescue with {what}", (status, before), (tried.run(RESCUE, store, person, given=given)[0], store.read_bytes()))
    with store.open("ab") as file:
        file.write(b"what a stop left")
    tried.same("a rescue of another person", 0, tried.run(RESCUE, store, 6, given=b"x" * 128 + b"\n")[0])
    tried.same("what it is", "administrator 6 Hans", tried.run(RESCUE, store)[1].splitlines()[-1])
    lines = f"A1Ha\n1 62 6 {string('x' * 128)} 0\n2 42 255\n3 8 5 0H 3Hnew\n4 49 6\n".encode()
    answered = tried.run(tried.program, "once", store, given=lines)[1].splitlines()
    tried.same("what it may do", ["LysKOM", "=1", "=2", "=3", "=4 1Ha 1111110000000000"], [*answered[:4], answered[4][:23]])


def try_probe(tried):
    """A server that serves, one whose workers are used up, and none."""
    store = tried.made("probed")
    server = Server(tried.program, store, 2)
    probe = [CONTRIB / "komd-probe", "127.0.0.1", server.port, 2]
    try:
        tried.same("a probe", 0, tried.run(*probe)[0])
        if has_ipv6():
            tried.same("a probe by IPv6", 0, tried.run(probe[0], "::1", *probe[2:])[0])
        one = Session(server.port, "one")
        tried.same("a probe where sessions are many", 1, tried.run(*probe, 2)[0])
        tried.same("a probe that knows the workers", 1, tried.run(*probe)[0])
        other = Session(server.port, "other")
        status, said = tried.run(*probe)
        tried.same("a probe where all workers have sessions", (2, "KOMD CRITICAL"), (status, said[:13]))
        tried.same("what probes leave", 327, store.stat().st_size)
        idle = one.ask("56")
        other.ask("62 5 0H 0")
        other.ask("42 255")
        other.ask(f"55 {idle}")
        one.rest()
        tried.same("a probe after an idle session was ended, which takes the last worker", 1, tried.run(*probe)[0])
    finally:
        server.kill()
    tried.same("a probe where nobody listens", 2, tried.run(*probe)[0])
    server = Server(tried.program, store, 1, word="hub")
    try:
        one, other = Session(server.port, "one"), Session(server.port, "other")
        tried.same("a probe of a worker that has many places", 0, tried.run(*probe[:2], server.port, 2)[0])
        tried.same("what follows their ends", ([], []), (one.end(), other.end()))
    finally:
        server.kill()
    tried.same("a probe with other words", 3, tried.run(probe[0], "a", "b")[0])


def try_stops(tried):
    """Signals after an answer, and call 44."""
    store = tried.made("stopped")
    answered = {}
    for number in [signal.SIGHUP, signal.SIGINT, signal.SIGTERM, signal.SIGKILL]:
        server = Server(tried.program, store, 2, begin=hear_signals)
        session = login(server.port, 5, "")
        answered[int(session.ask(f"86 {string(number.name)} 0 {{ }} 0 {{ }}"))] = number.name
        server.process.send_signal(number)
        tried.same(f"the status after {number.name}", -number, server.wait())
    server = Server(tried.program, store, 2)
    try:
        find_all(server.port, answered)
        tried.same("texts that were answered before signals", 4, len(answered))
        waits = login(server.port, 5, "")
        waits.ask("80 1 { 12 }")
        session = login(server.port, 5, "")
        session.ask("42 255")
        session.ask("53 0 3Hend")
        session.ask("44 0")
        tried.same("a message before the end", True, waits.message().endswith("3Hend"))
        waits.rest()
        tried.same("the status after call 44", 0, server.wait())
    finally:
        server.kill()


def main(words):
    program = program_of(words)
    with tempfile.TemporaryDirectory() as folder:
        tried = Operator(program, pathlib.Path(folder))
        for part in [try_first_day, try_statuses, try_backup, try_order, try_rescue, try_probe, try_stops]:
            start = time.monotonic()
            try:
                part(tried)
            except (Wrong, OSError, subprocess.TimeoutExpired) as fault:
                tried.same(part.__name__, "no fault", repr(fault))
            print(f"{part.__name__[4:]}: {time.monotonic() - start:.0f} s")
    print(f"{tried.count} things looked at, {tried.failed} are otherwise")
    return 1 if tried.failed else 0


if __name__ == "__main__":
    script(main, __doc__)
