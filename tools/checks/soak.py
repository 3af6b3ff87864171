#!/usr/bin/env python3
"""Has the built program `komd` serve 64 connections over loopback for a while, and kills it again and again:
soak.py [PROGRAM [hub] [SECONDS [SEED [FOLDER]]]]

They are served by the word `serve` with a worker for each, or by `hub` with two workers; there 936 members more are idle beside them, one
of whom asks something a few times a second, so that 1,000 are connected.

Beside two connections of its own it has
- 44 persons, each of whom makes random good calls on what is its own, knows what each reply has to be, and looks at some;
- 8 hostile clients: random bytes, lines cut or changed, lines that are too long, random calls of others' things, resets;
- 4 slow clients, which send a byte at a time;
- 6 dead ones: two send nothing, two never read, two leave a line half sent.

After each tenth of the time (600 seconds, unless SECONDS are named) the server is killed by signal 9 and started again, but for
the last two tenths, after which it is stopped by call 44 while a client is there that does not read, which takes a minute more.
At each start, and after the last one, each person compares all that the server tells of what it owns (texts with their links,
recipients and aux-items, conferences, memberships with what was read, marks, mappings) with what it was answered: a call that was
under way may be made or not, and nothing else may differ. Each session has to end as it should: a hostile one with what it sent,
or with the line of a fault; a silent one half a minute after it came; one that never reads a minute after its connection was
full, if it is given the time; the others not before they want to.

It prints a line for each start with what the server had resident before, after some seconds in which no hostile stream began, and
counts at the end. It ends with 1 if something was otherwise, or if what is resident without hostile clients has grown by more than
8 MiB since the second start, whatever was made and deleted meanwhile; else with 0. Its server is ended either way.
SEED (1) chooses the calls; how threads take turns chooses too. The store lies in FOLDER, or in a folder of its own for a while.
PROGRAM is the built `komd` unless it is named.
"""
import collections
import pathlib
import random
import re
import resource
import select
import signal
import socket
import struct
import sys
import tempfile
import threading
import time

sys.path.insert(0, str(pathlib.Path(__file__).resolve().parents[1] / "common"))
from built import ROOT, Wrong, check_store, make_store, program_of, script
from known_person import Known, observed, random_call
from protocol import string
from served import ADMINISTRATOR, Server, Session, limit_seconds, stop

WORKERS, IDLE = {"serve": 64, "hub": 2}, {"serve": 0, "hub": 936}
# A pause of the idle ones between two calls of one of them.
IDLE_PAUSE = 0.2
PERSONS, HOSTILE, SLOW, SILENT, UNREAD, HALF = 44, 8, 4, 2, 2, 2
ROUNDS = 10
SILENCE_SECONDS, STALL_SECONDS = 30, 60
# How long a busy server may take to write as much as a connection holds.
FULL_SECONDS = 45
# How much later than it should an end may come on a busy machine.
LATE_SECONDS = 15
# For so long no hostile stream begins before a kill, since a long line takes memory while it is there.
CALM_SECONDS = 5
# By how much the resident memory may grow.
MOST_GROWN_KIB = 8_192
# So that the C library keeps no large blocks for later, in each thread by itself: what it keeps is not what the program has.
MEMORY = {"MALLOC_MMAP_THRESHOLD_": "131072", "MALLOC_TRIM_THRESHOLD_": "131072"}
# Numbers up to this one belong to nobody, so that lines of calls that name small numbers find something.
NOBODYS = 40
LONGEST_LINE = 2_097_152
# Of the administrator, as whom hostile clients try to log in.
PASSWORD = "kept from them"
# Of these calls a changed number could reach into what persons own: by them anybody may send texts there, and make members of all.
NOT_CHANGED = (b"86", b"87", b"30", b"100")
STOPS = b"44"


class Soak:
    """What the threads have in common."""

    def __init__(self, program, store, seed, word):
        self.program, self.store, self.seed, self.word = program, store, seed, word
        self.changed = threading.Condition()
        self.server = None
        self.killed = True
        self.is_over = self.is_calm = False
        self.faults = []
        self.counts = collections.Counter()

    def start(self):
        server = Server(self.program, self.store, WORKERS[self.word], MEMORY, word=self.word)
        with self.changed:
            self.server, self.killed = server, False
            self.changed.notify_all()

    def kill(self):
        with self.changed:
            self.killed = True
        self.server.process.send_signal(signal.SIGKILL)
        if (status := self.server.wait()) != -signal.SIGKILL:
            self.fault("the server", f"it ended with status {status} before it was killed")
        self.counts["kills"] += 1

    def running(self):
        """A server that was not killed yet, or None when all is over."""
        with self.changed:
            self.changed.wait_for(lambda: not self.killed or self.is_over)
            return None if self.is_over else self.server

    def is_alive(self, server):
        """Whether this is the server, and was not killed yet."""
        with self.changed:
            return self.server is server and not self.killed

    def is_running(self, server):
        return self.is_alive(server) and not self.is_over

    def fault(self, who, what):
        self.faults.append((who, what))
        print(f"{who}: {what}", flush=True)

    def repeat(self, who, one):
        """Does one thing again and again, with a generator of random numbers and a server, and forgives what a kill breaks off."""
        chosen = random.Random(f"{self.seed} {who}")
        while server := self.running():
            try:
                one(server, chosen)
            except (Wrong, OSError) as fault:
                if self.is_alive(server):
                    self.fault(who, repr(fault)[:2_000])
                    return
            self.counts[who.split()[0]] += 1


class Person:
    """A person who makes random calls."""

    def __init__(self, soak, number, known):
        self.soak, self.name, self.known = soak, f"person {number}", known
        # What a call changes that was under way when the server was killed, or None.
        self.pending = None

    def come_back(self, server):
        """A session that is logged in; whether the pending change was made is told by the server."""
        session = Session(server.port, self.known.name)
        known, pending = self.known, self.pending
        answer = session.try_to(f"62 {known.person} {string(known.password)} 0")
        if answer.startswith("%4 ") and hasattr(pending, "password"):
            session.login(known.person, pending.password)
        elif answer != "=":
            raise Wrong(f"{known.name} is not logged in: {answer}")
        told, before = observed(session, known), known.expected()
        if hasattr(pending, "password") and answer != "=":
            pending(known, None)
        elif told != before:
            after = known.copy()
            if pending is not None:
                new = [key[1] for key in told if key not in before and key[0] in ("text", "conference")]
                pending(after, str(new[0]) if new else None)
            if told != after.expected():
                was = "with" if pending is not None else "without"
                raise Wrong(f"{known.name} finds, {was} a change under way, what was not answered: {difference(told, before)}")
            self.known = after
            self.soak.counts["changes under way that were made"] += 1
        elif pending is not None:
            self.soak.counts["changes under way that were not made"] += 1
        self.pending = None
        return session

    def talk(self, server, chosen):
        session = self.come_back(server)
        while self.soak.is_running(server):
            line, change = random_call(self.known, chosen)
            looks = hasattr(change, "looks")
            if not looks:
                self.pending = change
            answer = session.try_to(line)
            session.messages.clear()
            if answer.startswith("=") and change is not None:
                change(self.known, answer[1:])
                self.soak.counts["looks" if looks else "changes"] += 1
            elif not answer.startswith("=") and not (line.startswith("53 ") and answer.startswith("%53 ")):
                raise Wrong(f"{line!r:.200} is answered {answer!r:.200}")
            self.pending = None
            self.soak.counts["calls"] += 1
        if not self.soak.killed:
            rest = [line for line in session.end() if not line.startswith(":")]
            if rest:
                raise Wrong(f"after its end {rest[0]!r:.100} is read")


def difference(told, known):
    """The first part that is told otherwise than it is known."""
    for key in [*known, *told]:
        if told.get(key) != known.get(key):
            return f"{key} is {told.get(key)!r:.600}, not {known.get(key)!r:.600}"
    return "nothing"


class Hostile:
    """Clients that send what is no good stream, or good calls of what is not theirs."""

    def __init__(self, soak):
        self.soak = soak
        text = (ROOT / "tests" / "good_lines" / "good.txt").read_text("ascii")
        self.lines = [line[2:].encode("ascii") for line in text.split("\n") if line.startswith("> ") and "\\" not in line]
        self.lines = [line for line in self.lines if line.split()[1] != STOPS]

    def one(self, server, chosen):
        while self.soak.is_calm and self.soak.is_running(server):
            time.sleep(0.1)
        greeting = b"A7Hhostile\n"
        kind = chosen.randrange(8)
        if kind == 0:
            sent, greeting = chosen.randbytes(chosen.randrange(3_000)), b""
        elif kind == 1:
            sent = greeting + chosen.randbytes(chosen.randrange(3_000))
        elif kind == 2:
            sent = greeting + b"1 " + chosen.choice((b"56" + b" " * LONGEST_LINE, b"86 5000000H" + b"x" * LONGEST_LINE,
                                                     b"27 6 2048 {" + b" 1" * (LONGEST_LINE // 2)))
        elif kind == 3:
            sent = greeting + b"\n" * chosen.randrange(20_000) + b"1 56\n" * chosen.randrange(2_000)
        elif kind == 4:
            sent = b"A" + chosen.choice((b" 4Hhost\n", b"0H", b"1025H" + b"x" * 1_025, b"00005Hhost", b"5Ghosts", b"12"))
            greeting = b""
        else:
            sent = greeting + b"1 62 %d 0H 0\n1 80 3 { 9 13 15 }\n" % self.person
            sent += b"".join(self.line(chosen) for _ in range(chosen.randrange(200)))
        if chosen.random() < 0.1:
            sent = sent[: chosen.randrange(len(sent) + 1)]
        self.exchange(server, sent, bool(greeting), chosen.random() < 0.1)
        self.soak.counts["bytes of hostile streams"] += len(sent)

    def line(self, chosen):
        """A good line, of which some numbers were changed, or some bytes."""
        good = line = chosen.choice(self.lines)
        if chosen.random() < 0.9:
            numbers = (0, 1, 5, chosen.randrange(NOBODYS), chosen.randrange(500), chosen.randrange(2**32))
            line = re.sub(rb"(?<= )\d+(?= |$)", lambda m: m[0] if chosen.random() < 0.7 else b"%d" % chosen.choice(numbers), line)
        if chosen.random() < 0.02:
            place = chosen.randrange(len(line))
            line = line[:place] + chosen.randbytes(chosen.randrange(3)) + line[place + chosen.randrange(3) :]
        if line != good and any(words[1:2] == [call] for words in (line.split(), good.split()) for call in NOT_CHANGED):
            line = good
        return line + b"\n"

    def exchange(self, server, sent, is_greeted, is_reset):
        """Sends all, ends what it sends, and reads up to the end; or resets in between."""
        peer = socket.create_connection(("127.0.0.1", server.port), 30)
        peer.setblocking(False)
        place, read, end, last = 0, [], time.monotonic() + 60, b""
        stop_at = len(sent) // 2 if is_reset else None
        while True:
            if time.monotonic() > end:
                raise Wrong(f"a hostile stream has not ended: {sent[:60]!r}, {place} of {len(sent)} bytes sent")
            ready, free, _ = select.select([peer], [peer] if place < len(sent) else [], [], 1)
            if free:
                try:
                    place += peer.send(sent[place : place + 65_536])
                except (BrokenPipeError, ConnectionResetError):
                    place = len(sent)
                if stop_at is not None and place >= stop_at:
                    peer.setsockopt(socket.SOL_SOCKET, socket.SO_LINGER, struct.pack("ii", 1, 0))
                    peer.close()
                    return
                if place >= len(sent):
                    try:
                        peer.shutdown(socket.SHUT_WR)
                    except OSError:
                        pass
            if ready:
                try:
                    last = peer.recv(65_536)
                except ConnectionResetError:
                    last = b""
                if not last:
                    break
                read.append(last)
        peer.close()
        told = b"".join(read)
        if is_greeted and not b"LysKOM\n".startswith(told[:7]):
            raise Wrong(f"a hostile stream {sent[:60]!r} is answered {told[:60]!r}")
        before, fault, after = told.partition(b"%%Protocol error.\n")
        # (messages may come after it)
        if after and b"H" not in before and not after.startswith(b":"):
            raise Wrong(f"after a fault comes {after[:60]!r}")


def slow(soak):
    def one(server, chosen):
        session = Session(server.port, None)
        for byte in "A4Hslow\n" + "".join(f"{place} 56\n" for place in range(8)):
            session.write(byte)
            time.sleep(chosen.choice((0.05, 0.2, 1.0)))
            if not soak.is_running(server):
                return
        lines = session.end()
        if lines[:1] != ["LysKOM"] or [line.split()[0] for line in lines[1:]] != [f"={place}" for place in range(8)]:
            raise Wrong(f"a slow client reads {lines!r:.300}")

    return one


def pause(soak, server, seconds):
    """Whether the server is there for so long."""
    end = time.monotonic() + seconds
    while soak.is_running(server):
        if time.monotonic() > end:
            return True
        time.sleep(0.2)
    return False


def silent(soak):
    def one(server, _chosen):
        begun = time.monotonic()
        session = Session(server.port, None)
        session.socket.settimeout(SILENCE_SECONDS + LATE_SECONDS)
        rest = session.rest()
        took = time.monotonic() - begun
        if soak.is_running(server):
            if rest or took < SILENCE_SECONDS - 1:
                raise Wrong(f"a silent client is sent {rest!r}, and is let go after {took:.1f} s")
            soak.counts["silent clients that were let go"] += 1

    return one


def unread(soak):
    def one(server, _chosen):
        session = Session(server.port, "unread", receive=4_096)
        fill(session, lambda: soak.is_running(server))
        watch, end = select.poll(), time.monotonic() + FULL_SECONDS + STALL_SECONDS + LATE_SECONDS
        watch.register(session.socket, 0)
        while soak.is_running(server):
            if watch.poll(200):
                soak.counts["clients that never read and were let go"] += 1
                break
            if time.monotonic() > end:
                raise Wrong("a client that never read is served on")
        session.close()

    return one


def half(soak):
    def one(server, chosen):
        session = Session(server.port, "half")
        session.write("1 5")
        if pause(soak, server, SILENCE_SECONDS + chosen.randrange(30)):
            session.write("6\n")
            if not (line := session.line() or "").startswith("=1 "):
                raise Wrong(f"half a line is not remembered: {line!r}")
            soak.counts["lines that were half sent for long"] += 1
        session.close()

    return one


def idle(soak):
    """Connections that are idle, but for one of them at a time."""

    def one(server, chosen):
        sessions = []
        try:
            for number in range(IDLE[soak.word]):
                sessions.append(Session(server.port, f"idle {number}"))
            references = [session.send("56") for session in sessions]
            numbers = [session.reply(reference) for session, reference in zip(sessions, references)]
            while soak.is_running(server):
                place = chosen.randrange(len(sessions))
                if (told := sessions[place].ask("56")) != numbers[place]:
                    raise Wrong(f"session {numbers[place]}, which was idle, is told that it is {told}")
                soak.counts["calls of connections that were idle"] += 1
                time.sleep(IDLE_PAUSE)
        finally:
            for session in sessions:
                session.close()

    return one


def prepare(soak):
    """Makes what is needed, and returns the persons and the hostile clients."""
    server = soak.running()
    strong = Session(server.port, "maker").login(ADMINISTRATOR, PASSWORD)
    strong.ask("42 255")
    for number in range(6, NOBODYS):
        strong.ask(f"88 {string(f'Nobodys {number}')} 00001000 0 {{ }}")
    shared = int(strong.ask("88 6HShared 10001000 0 { }"))
    hostile = Hostile(soak)
    hostile.person = int(strong.ask("89 7HHostile 0H 00000000 0 { }"))
    persons = []
    for number in range(PERSONS):
        session = Session(server.port, "maker")
        name, password = f"S{number:03}", f"first {number}"
        person = int(session.ask(f"89 {string(f'{name} person')} {string(password)} 00000000 0 {{ }}"))
        strong.ask(f"100 {shared} {person} 100 4294967295 00000000")
        session.end()
        persons.append(Person(soak, number, Known(name, person, shared, password)))
    strong.end()
    return persons, hostile


def soak_for(soak, seconds):
    """All of it but the comparison at the end; the persons are returned."""
    soak.start()
    persons, hostile = prepare(soak)
    works = [(person.name, person.talk) for person in persons]
    works += [(f"hostile {number}", hostile.one) for number in range(HOSTILE)]
    for name, count, kind in (("slow", SLOW, slow), ("silent", SILENT, silent), ("unread", UNREAD, unread), ("half", HALF, half)):
        works += [(f"{name} {number}", kind(soak)) for number in range(count)]
    works += [("idle", idle(soak))] if IDLE[soak.word] else []
    threads = [threading.Thread(target=soak.repeat, args=work, daemon=True) for work in works]
    for thread in threads:
        thread.start()
    residents = []
    for turn in range(ROUNDS - 1):
        last = turn == ROUNDS - 2
        end = time.monotonic() + seconds / ROUNDS * (2 if last else 1)
        told, calm = [], []
        while time.monotonic() < end and not soak.faults:
            time.sleep(0.2)
            if soak.server.process.poll() is not None:
                soak.fault("the server", f"it ended with status {soak.server.process.returncode}")
                break
            soak.is_calm = time.monotonic() > end - min(CALM_SECONDS, seconds / ROUNDS / 2)
            (calm if soak.is_calm else told).append(soak.server.resident())
        if soak.faults:
            break
        residents.append((min(calm), soak.counts["changes"]))
        print(f"{residents[-1][0]} KiB are resident without hostile clients, at most {max(told)} with them, after "
              f"{soak.counts['calls']} calls and {soak.counts['changes']} changes", flush=True)
        soak.is_calm = False
        if not last:
            soak.kill()
            soak.start()
    with soak.changed:
        soak.is_over = True
        soak.changed.notify_all()
    for thread in threads:
        thread.join(SILENCE_SECONDS + LATE_SECONDS + 5)
        if thread.is_alive():
            soak.fault("the script", "a thread does not end")
            break
    return persons, residents


def compare(soak, persons):
    """Compares the store with what was answered."""
    soak.start()
    with soak.changed:
        soak.is_over = False
    texts = conferences = 0
    for person in persons:
        try:
            person.come_back(soak.server).end()
        except (Wrong, OSError) as fault:
            soak.fault(person.name, repr(fault)[:2_000])
        texts += len(person.known.texts)
        conferences += len(person.known.conferences)
    end(soak)
    status, told = check_store(soak.program, soak.store)
    if status != 0 or told["texts"] < texts or told["conferences"] < conferences:
        soak.fault("the store", f"its check ends with {status} and tells {told}, with {texts} texts of persons")
    print(f"at the end {len(persons)} persons have {texts} texts and {conferences} conferences; the store has {told}")


def end(soak, is_read=True):
    """Stops the server by call 44: at once if all read what they are sent, else when the time is over of one that does not."""
    session = Session(soak.server.port, "unread", receive=4_096)
    if not is_read:
        fill(session, lambda: True)
    begun = time.monotonic()
    stop(soak.server, PASSWORD).rest()
    status = soak.server.wait(STALL_SECONDS + LATE_SECONDS)
    took = time.monotonic() - begun
    session.close()
    if status != 0 or (is_read and took > LATE_SECONDS):
        soak.fault("the server", f"it ended with status {status}, {took:.1f} s after call 44")
    print(f"the server ended {took:.1f} s after call 44{'' if is_read else ', with a client that does not read'}")


def fill(session, goes_on):
    """Asks for long replies until the server takes no more."""
    session.socket.settimeout(0.5)
    try:
        while goes_on():
            session.write("1 85\n" * 10_000)
    except TimeoutError:
        pass


def main(words):
    program, word = program_of(words), "serve"
    if words[1:2] == ["hub"]:
        word = words.pop(1)
    seconds = int(words[1]) if len(words) > 1 else 600
    seed = words[2] if len(words) > 2 else "1"
    limit_seconds(seconds + 300)
    hard = resource.getrlimit(resource.RLIMIT_NOFILE)[1]
    resource.setrlimit(resource.RLIMIT_NOFILE, (hard, hard))
    with tempfile.TemporaryDirectory(dir=words[3] if len(words) > 3 else None) as folder:
        soak = Soak(program, make_store(program, pathlib.Path(folder) / "store", PASSWORD), seed, word)
        try:
            persons, residents = soak_for(soak, seconds)
            if not soak.faults:
                end(soak, is_read=False)
                compare(soak, persons)
        finally:
            if soak.server is not None:
                soak.server.kill()
    for name, count in sorted(soak.counts.items()):
        print(f"{name}: {count}")
    second, last = residents[min(1, len(residents) - 1)] if residents else (0, 0), residents[-1] if residents else (0, 0)
    grown, changes = last[0] - second[0], last[1] - second[1]
    print(f"{len(soak.faults)} faults; resident memory has grown by {grown} KiB with {changes} changes")
    return 1 if soak.faults or grown > MOST_GROWN_KIB else 0


if __name__ == "__main__":
    script(main, __doc__)
