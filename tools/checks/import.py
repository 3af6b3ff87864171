#!/usr/bin/env python3
"""Tries contrib/komd-import with the built program: import.py [PROGRAM [TEXTS]]

A club that has lived a while is served, brought to a new store, and served from there: each number is asked for at both, and all that
is answered has to be the same. Then the same with a reading that is killed and interrupted again and again, with a connection that
breaks after so many bytes, and on a disk that gets full (as root); with words that are to be refused; with a server that changes
meanwhile; and with a club that has more of everything than komd takes.

With TEXTS a club of so many texts is brought over instead, and the time and the memory that this takes are told.

It prints a line for each thing that is otherwise, and a count, and ends with 1 if there is one, else with 0. Each server is ended by it.
PROGRAM is the built `komd` unless it is named.
"""
import collections
import contextlib
import os
import pathlib
import random
import re
import shutil
import signal
import socket
import sqlite3
import struct
import subprocess
import sys
import tempfile
import threading
import time

TOP = pathlib.Path(__file__).resolve().parents[2]
sys.path[:0] = [str(TOP / "tools" / "common"), str(TOP / "contrib")]
from built import Wrong, check_store, make_store, program_of, script
from club import PERSONS, Club, different, told, told_marks
from importing.limits import LIMITS, leave_out
from importing.store import write_club
from importing.work import Work
from served import PATIENCE, Server, Session, folder_in_memory
from tried import Tried

IMPORT = TOP / "contrib" / "komd-import"
CHANGES, KILLS, CUT = 3000, 8, 40_000


class Importing(Tried):
    """An old server, and what its club was brought to."""

    def begin(self, given, port, store, passwords="passwords", *more, program=None):
        """A komd-import that has read its password."""
        words = [IMPORT, *more, port, 5, store, self.folder / passwords]
        process = subprocess.Popen([str(word) for word in words], stdin=subprocess.PIPE, stdout=subprocess.PIPE, stderr=subprocess.PIPE,
                                   env={**os.environ, "KOMD": program or self.program})
        with contextlib.suppress(BrokenPipeError):
            process.stdin.write(given)
            process.stdin.close()
        process.stdin = None
        return process

    def bring(self, port, store, passwords="passwords", *more, given=b"\n", program=None):
        """The status of a komd-import, and what it printed."""
        process = self.begin(given, port, store, passwords, *more, program=program)
        said, complained = process.communicate(timeout=PATIENCE * 10)
        return process.returncode, (said + complained).decode()

    def path(self, name):
        return self.folder / name

    def files(self):
        return sorted(path.name for path in self.folder.iterdir())

    def same_club(self, what, store, wanted):
        """What a store tells once it is served."""
        server = Server(self.program, store, 4)
        try:
            found = different(wanted, {**told(server.port), **told_marks(server.port)})
        finally:
            server.kill()
        self.same(what, [], found[:3])


def try_same(tried, old, wanted):
    """The whole way, once."""
    store = tried.path("new")
    status, said = tried.bring(old.port, store)
    tried.same("bringing over", (0, True), (status, "left behind" not in said and said.startswith("conferences ")))
    tried.same("what it leaves", ["new", "old", "passwords"], tried.files())
    tried.same("who may read it", {0o600}, {tried.path(name).stat().st_mode & 0o777 for name in ("new", "passwords")})
    tried.same_club("the new club", store, wanted)
    lines = [line.split("\t") for line in tried.path("passwords").read_text().splitlines()]
    tried.same("whose passwords there are", PERSONS - 1, len(lines))
    server = Server(tried.program, store, 4)
    try:
        for person, password in lines[:3]:
            Session(server.port).login(int(person), password).close()
        tried.same("another password", "%4", Session(server.port).try_to(f"62 {lines[0][0]} 4Helse 0")[:2])
    finally:
        server.kill()
    held = store.read_bytes()
    tried.same("a store that is there", (1, held), (tried.bring(old.port, store, "others")[0], store.read_bytes()))
    tried.same("a file of passwords that is there", (1, False), (tried.bring(old.port, tried.path("second"))[0], tried.path("second").exists()))


def try_refusals(tried, old, _wanted):
    """Words, persons and servers with which nothing is made."""
    store = tried.path("refused")
    with socket.create_server(("127.0.0.1", 0)) as free:
        quiet = free.getsockname()[1]
    for what, port, given, program, path in [
        ("a wrong password", old.port, b"wrong\n", None, store),
        ("a password that breaks off", old.port, b"wrong", None, store),
        ("a port where nobody listens", quiet, b"\n", None, store),
        ("a program that is not there", old.port, b"\n", "/nowhere/komd", store),
        ("a folder that is not there", old.port, b"\n", None, tried.path("nowhere") / "store"),
    ]:
        status, said = tried.bring(port, path, given=given, program=program)
        tried.same(what, (1, True, False), (status, said.startswith("komd-import: ") and said.count("\n") == 1, path.exists()))
    done = subprocess.run([IMPORT, str(old.port), "5", store], capture_output=True, check=False)
    tried.same("other words", 2, done.returncode)
    done = subprocess.run([IMPORT, "--help"], capture_output=True, check=False)
    tried.same("its usage", (0, True), (done.returncode, done.stdout.startswith(b"usage: komd-import")))
    member = int(Session(old.port).login().ask("76 4HAnna 1 0").split(" ")[-2])
    done = subprocess.run([IMPORT, str(old.port), str(member), store, tried.path("p")], input=b"password 0\n", capture_output=True, check=False)
    tried.same("a member that is no administrator", (1, False), (done.returncode, store.exists()))
    tried.same("what is left of it all", ["refused.import"], [name for name in tried.files() if name.startswith(("refused", "p"))])


def try_interrupts(tried, old, wanted):
    """Signals at random moments, each later than the one before, after each of which the same words go on. A signal may come when the store
    is there already."""
    store, draw = tried.path("interrupted"), random.Random(2)
    for number in range(KILLS):
        process, killed = tried.begin(b"\n", old.port, store), number % 2 == 1
        time.sleep(draw.uniform(0.04, 0.06) * (number + 1))
        process.send_signal(signal.SIGKILL if killed else signal.SIGINT)
        process.communicate(timeout=PATIENCE)
        if store.exists():
            tried.same(f"interrupt {number} of a store that is there", True, killed or process.returncode == 0)
            break
        tried.same(f"interrupt {number}", True, process.returncode != 0)
    found = store.exists()
    if not found:
        tried.same("bringing over after interrupts", 0, tried.bring(old.port, store)[0])
    left = [name for name in tried.files() if name.startswith("interrupted")]
    tried.same("what is left after interrupts", [], [name for name in left if not (name == store.name or found and ".import" in name)])
    tried.same_club("the club after interrupts", store, wanted)


class Cutting:
    """A relay to a port that breaks each connection after so many bytes of the server."""

    def __init__(self, port, cut):
        self.port_behind, self.cut, self.connections = port, cut, 0
        self.socket = socket.create_server(("127.0.0.1", 0))
        self.port = self.socket.getsockname()[1]
        threading.Thread(target=self.serve, daemon=True).start()

    def serve(self):
        with contextlib.suppress(OSError):
            while True:
                near, _ = self.socket.accept()
                self.connections += 1
                far = socket.create_connection(("127.0.0.1", self.port_behind))
                threading.Thread(target=self.carry, args=(near, far, None), daemon=True).start()
                threading.Thread(target=self.carry, args=(far, near, self.cut), daemon=True).start()

    def carry(self, here, there, cut):
        """What comes here goes there, up to the cut."""
        with contextlib.suppress(OSError):
            while data := here.recv(10_000):
                there.sendall(data)
                if cut is not None and (cut := cut - len(data)) <= 0:
                    break
        for end in (here, there):
            with contextlib.suppress(OSError):
                end.shutdown(socket.SHUT_RDWR)


def try_cuts(tried, old, wanted):
    """Connections that break."""
    relay, store = Cutting(old.port, CUT), tried.path("cut")
    tried.same("bringing over by broken connections", 0, tried.bring(relay.port, store)[0])
    tried.same("whether connections broke", True, relay.connections > 3)
    tried.same_club("the club after broken connections", store, wanted)


def room_of(folder, size):
    """Makes the folder a file system in memory of so many KiB, or lets it have so many; whether that is allowed here."""
    option = f"size={size}k,remount" if folder.is_mount() else f"size={size}k"
    return subprocess.run(["mount", "-t", "tmpfs", "-o", option, "tmpfs", folder], capture_output=True, check=False).returncode == 0


def try_full_disk(tried, old, wanted):
    """A file system that is full while the club is read, and while it is written."""
    room, measured = tried.path("room"), tried.path("measured")
    store, ample = room / "store", 40_000
    room.mkdir()
    tried.bring(old.port, measured, program="/bin/false")
    read = tried.path("measured.import").stat().st_size >> 10
    for size in (read // 4, read // 2, None):
        wanted = {**told(old.port), **{call: wanted[call] for call in wanted if call.startswith("marks")}}
        if not room_of(room, size or ample):
            print("no small file system can be made here, so none was filled")
            break
        try:
            if size is None:
                tried.bring(old.port, store, program="/bin/false")
                room_of(room, (shutil.disk_usage(room).used >> 10) + 20)
            status, said = tried.bring(old.port, store)
            tried.same(f"a disk of {size} KiB", (1, True, False), (status, "full" in said or "space" in said, store.exists()))
            tried.same(f"what else is there of {size}", [], [path.name for path in room.iterdir() if not path.name.startswith("store.import")])
            tried.same(f"a store half written of {size}", False, (room / "store.import.new").exists())
            room_of(room, ample)
            tried.same(f"with room again after {size}", (0, ["store"]), (tried.bring(old.port, store)[0], [path.name for path in room.iterdir()]))
            tried.same_club(f"the club after a disk of {size} KiB", store, wanted)
        finally:
            subprocess.run(["umount", room], check=True)
        tried.path("passwords").unlink(missing_ok=True)
    room.rmdir()


def try_changes(tried, old, _wanted):
    """Something is made on the old server before the same words are said again."""
    store = tried.path("changed")
    tried.same("a check that fails", 1, tried.bring(old.port, store, program="/bin/false")[0])
    Session(old.port).login().ask("86 4Hmore 0 { } 0 { }")
    status, said = tried.bring(old.port, store)
    tried.same("a server that changed", (1, True, False), (status, "begin anew" in said, store.exists()))


def over_limits(rows):
    """Makes rows that are more, or longer, than komd takes; each limit is passed by one or two."""
    persons = [number for (number,) in rows.execute("SELECT number FROM person ORDER BY number")]
    last = rows.execute("SELECT max(number) FROM text").fetchone()[0]
    rows.execute("UPDATE person SET user = zeroblob(1025) WHERE number = ?", (persons[0],))
    rows.execute("UPDATE conference SET name = CAST(printf('%.61c', 'x') AS BLOB) WHERE number = 1")
    rows.execute("UPDATE conference SET name = CAST('TWICE' AS BLOB) WHERE number = 2")
    rows.execute("UPDATE conference SET name = CAST('twice' AS BLOB) WHERE number = 3")
    rows.execute("UPDATE conference SET kind = 32 WHERE number = 4")
    for number in range(last + 1, last + 2102):
        rows.execute("INSERT INTO text VALUES (?, 0, 0, x'')", (number,))
    for number in range(5000, 7001):
        rows.execute("INSERT INTO conference SELECT ?, CAST(? AS BLOB), 0, 0, 0, 0, 0, 0, 0, 0, 0, 77, 77, 0, 101", (number, f"number {number}"))
        rows.execute("INSERT INTO membership VALUES (?, ?, ?, 1, 5, 0, 0, 0, x'')", (persons[0], number, number))
        rows.execute("INSERT INTO member VALUES (?, 0, ?)", (number, persons[0]))
    rows.execute("DELETE FROM membership WHERE person = ? AND conference < 5000", (persons[0],))
    rows.execute("UPDATE membership SET place = place - 5000 WHERE person = ?", (persons[0],))
    for place in range(101):
        rows.execute("INSERT INTO recipient VALUES (?, ?, ?, 0, 1, 0, 0)", (last + 1, place, 5000 + place))
        rows.execute("INSERT INTO parent VALUES (?, 1, ?, ?, 0, 0)", (last + 1, place, last + 2 + place))
        rows.execute("INSERT INTO child VALUES (?, 1, ?, 0)", (last + 2 + place, last + 1))
        rows.execute("INSERT INTO item VALUES (0, ?, ?, 2, 5, 0, 0, 0, x'')", (last + 2, place + 1))
    for place in range(1001):
        rows.execute("INSERT INTO parent VALUES (?, 0, 0, ?, 0, 0)", (last + 10 + place, last + 3))
        rows.execute("INSERT INTO child VALUES (?, 0, ?, ?)", (last + 3, last + 10 + place, place))
    rows.execute("INSERT INTO item VALUES (1, 5000, 1, 14, 5, 0, 0, 0, zeroblob(16385))")
    for number in range(2001):
        rows.execute("INSERT INTO mark VALUES (?, ?, 1)", (persons[1], last + 1 + number))
    rows.execute("UPDATE state SET value = 7001 WHERE name = 'next conference'")
    rows.execute("UPDATE state SET value = ? WHERE name = 'next text'", (last + 2102,))


def try_limits(tried, old, _wanted):
    """A club with more of everything than komd takes: told by number and reason, and left out if that was said."""
    store, work_file = tried.path("long"), tried.path("long.import")
    tried.bring(old.port, store, program="/bin/false")
    with contextlib.closing(sqlite3.connect(work_file)) as rows:
        number = rows.execute("SELECT min(number) FROM text").fetchone()[0]
        rows.execute("UPDATE text SET body = zeroblob(1048577) WHERE number = ?", (number,))
        rows.commit()
    shutil.copyfile(work_file, tried.path("over.import"))
    told_of = f"over a limit: text {number} has 1048577 bytes, and may have 1048576: its end"
    status, said = tried.bring(old.port, store)
    tried.same("a text that is too long", (3, told_of, False), (status, said.splitlines()[0], store.exists()))
    status, said = tried.bring(old.port, store, "passwords", "--leave-out")
    tried.same("its end left out", (0, told_of + " is left out", 0), (status, said.splitlines()[0], check_store(tried.program, store)[0]))
    with contextlib.closing(sqlite3.connect(tried.path("over.import"))) as rows:
        over_limits(rows)
        rows.commit()
    work = Work(tried.path("over.import"))
    problems = list(leave_out(work))
    for words, *_ in LIMITS:
        told_of = [problem for problem in problems if like(words).fullmatch(problem)]
        tried.same(f"how often it is told that {words}", True, 1 <= len(told_of) <= 2)
    passwords = {number: b"" for (number,) in work.select("SELECT number FROM person")}
    with open(tried.path("over"), "wb") as file:
        write_club(work, file, passwords)
    counts = [work.one(f"SELECT count(*) FROM {table}") for table in ("conference", "person", "text")]
    status, found = check_store(tried.program, tried.path("over"))
    tried.same("what is not too much", (0, counts), (status, [found.get(name) for name in ("conferences", "persons", "texts")]))
    tried.same("nothing is over a limit then", [], list(leave_out(work)))
    work.remove()


def like(words):
    """What such words are once the numbers stand in them."""
    return re.compile("(\\w+)".join(map(re.escape, words.split("{}"))))


def many_texts(work, texts):
    """A work file of a club in which 200 persons have written so many texts to 100 conferences."""
    draw, bodies = random.Random(3), [os.urandom(350).hex().encode() for _ in range(1000)]
    for number in range(1, 301):
        kind = 152 if number > 100 else 0
        work.add("conference", (number, b"number %d" % number, kind, 0, 0, 5, 0, number, 0, 0, 0, 77, 77, 0, 0))
        if number > 100:
            work.add("person", (number, b"user", 0, 0, 0, 0, 0, 1, 0, 0, 0, 0, 0, 0, 0, 0, b""))
            for place, conference in enumerate(draw.sample(range(1, 101), 50)):
                ranges = b"".join(struct.pack("<II", first, first + 5) for first in range(1, 2000, 20))
                work.add("membership", (number, conference, place, 1, 5, 0, 0, 0, ranges))
                work.add("member", (conference, number, number))
    work.select("UPDATE person SET privileges = 0xfc00 WHERE number = 101")
    locals_of, comments = collections.Counter(), collections.Counter()
    for number in range(1, texts + 1):
        author, parent = draw.randrange(101, 301), max(1, number - draw.randrange(1, 50))
        work.add("text", (number, author, number, draw.choice(bodies)))
        locals_of[author] += 1
        work.add("created", (author, locals_of[author], number))
        for place, conference in enumerate(draw.sample(range(1, 101), draw.choice((1, 1, 2)))):
            locals_of[conference] += 1
            work.add("recipient", (number, place, conference, 0, locals_of[conference], 0, number))
        if number > 1 and draw.random() < 0.8:
            work.add("parent", (number, 0, 0, parent, 0, number))
            work.add("child", (parent, 0, number, comments[parent]))
            comments[parent] += 1
    for table, numbers in (("conference", range(1, 101)), ("person", range(101, 301))):
        for number in numbers:
            work.select(f"UPDATE {table} SET highest = ? WHERE number = ?", locals_of[number], number)
    work.set("next conference", 301)
    work.set("next text", texts + 1)


def try_texts(tried, texts):
    """A club of many texts: the time and the memory that it takes."""
    many, store = tried.path("many"), tried.path("brought")
    work = Work(tried.path("many.import"))
    with work.step():
        many_texts(work, texts)
    with open(many, "wb") as file:
        write_club(work, file, {number: b"" for number in range(101, 301)})
    work.remove()
    old = Server(tried.program, many, 4, patience=600)
    try:
        start = time.monotonic()
        words = [IMPORT, old.port, 101, store, tried.path("many.passwords")]
        process = subprocess.Popen(list(map(str, words)), stdin=subprocess.DEVNULL, env={**os.environ, "KOMD": tried.program})
        while process.poll() is None:
            with contextlib.suppress(OSError, TypeError):
                most = int(re.search(r"VmHWM:\s+(\d+)", pathlib.Path(f"/proc/{process.pid}/status").read_text())[1]) * 1024
            time.sleep(0.1)
        took = time.monotonic() - start
    finally:
        old.kill()
    tried.same(f"bringing over {texts} texts", 0, process.returncode)
    tried.same("how many there are", texts, check_store(tried.program, store)[1].get("texts"))
    print(f"{texts} texts: {took:.0f} s, {texts / took:.0f} a second, with {most / 1e6:.0f} MB")
    tried.same("whether 500 MB were enough", True, most <= 500_000_000)


def try_club(tried):
    """A club that has lived a while, brought over in each way."""
    old = Server(tried.program, make_store(tried.program, tried.path("old")), 16)
    try:
        club = Club(old.port)
        club.live(CHANGES)
        club.close()
        marks = told_marks(old.port)
        for part in [try_same, try_refusals, try_interrupts, try_cuts, try_full_disk, try_changes, try_limits]:
            start = time.monotonic()
            try:
                # (told anew: a reading logs persons in, which have then logged in once more)
                part(tried, old, {**told(old.port), **marks})
            except (Wrong, OSError, subprocess.TimeoutExpired) as fault:
                tried.same(part.__name__, "no fault", repr(fault))
            tried.path("passwords").unlink(missing_ok=True)
            print(f"{part.__name__[4:]}: {time.monotonic() - start:.0f} s")
    finally:
        old.kill()


def main(given):
    program = program_of(given)
    # (a club of many texts lies on a disk, since memory is what is measured)
    with tempfile.TemporaryDirectory(dir=None if given[1:] else folder_in_memory()) as folder:
        tried = Importing(program, pathlib.Path(folder))
        if given[1:]:
            try_texts(tried, int(given[1]))
        else:
            try_club(tried)
    print(f"{tried.count} things looked at, {tried.failed} are otherwise")
    return 1 if tried.failed else 0


if __name__ == "__main__":
    script(main, __doc__)
