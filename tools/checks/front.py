#!/usr/bin/python3 -B
"""Tries contrib/komd-front before a `komd serve`, for clients that speak Protocol A: front.py [PROGRAM]

1. Words that are refused, files that are missing, a port that is taken, and what a signal ends.
2. Streams cut at each byte pass unharmed, a byte at a time over TLS too, with line feeds in strings and references that come twice.
3. Call 89 is refused before a login, in its turn, and let through after; --open lets it through.
4. Six wrong passwords slow down their address, right ones of it too, and nobody else.
5. A ninth connection of an address is closed, and another address is not.
6. Whoever sends no handshake, no greeting, half of one or one that is none is closed; no place of the server is taken for that.
7. Of five places three are given, and this machine has the other two. Who has not logged in makes room, and nobody else.
8. A client that takes nothing is closed, beside others that are served; one that takes little gets each byte.
9. The server ends and comes back.
10. A certificate that is read anew.
11. Passwords come over from another server, once each.

It prints a line for each thing that is otherwise, and a count, and ends with 1 if there is one, else with 0. Times are shortened by the
door's own words. It takes some fifteen seconds, and ends all that it starts. PROGRAM is the built `komd` unless it is named.
"""
import contextlib
import io
import pathlib
import random
import select
import signal
import socket
import ssl
import subprocess
import sys
import tempfile
import time

sys.path.insert(0, str(pathlib.Path(__file__).resolve().parents[1] / "common"))
from built import ROOT, Wrong, make_store, program_of, script
from doors import FRONT, Again, Front, Guest, free_port, is_closed, kill_all, make_certificate
from protocol import string
from served import PATIENCE, Server, Session, folder_in_memory, limit_seconds
from tried import Tried

sys.path.insert(0, str(ROOT / "contrib"))
from komd_front.calls import Attempt, Calls, Stranger
from komd_front.replies import Replies, Reply
from komd_front.words import given

LIMIT_SECONDS = 300
ELSEWHERE, THIRD = "127.0.0.2", "127.0.0.3"
BODY = b"a line\n1 89 3Hfoo 1Hx 00000000 0 { }\n2 62 5 0H 0\nand 7H more"
NEW_PERSON = "89 {} 1Hx 00000000 0 {{ }}"
# Blanks, empty lines, leading zeros, counted strings with line feeds and heads of other calls in them, and no login.
HARMLESS = b"\n \t\n1 56\n 02\t035 \r\n3 4 " + string(BODY) + b"\n0000000004 0000000083 1 1 0\n5 76 9H62 5 0H \n 1 1\n6 999 { * } 2H89\n"

WRONG_WORDS = (
    "", "--port 0", "--port 65536", "--port x", "--web +80", "--port 4895 more", "--port 4895 --listen 0.0.0.0",
    "--port 4895 --listen nowhere", "--port 4895 --key file", "--port 4895 --places 2", "--port 4895 --old 4894",
    "--port 4895 --greeting 0", "--port 4895 --proxy nobody")


class Place:
    """What the parts have in common: a served store, its program and a certificate."""

    def __init__(self, program, folder):
        self.program, self.folder = program, folder
        self.tried = Tried(program, folder)
        self.certificate = make_certificate(folder)
        self.store = make_store(program, str(folder / "store"))
        self.servers = []
        self.server = self.serve(self.store, 16)

    def serve(self, store, workers):
        """A store that is served until all is tried."""
        self.servers.append(Server(self.program, store, workers))
        return self.servers[-1]

    def end(self):
        """Ends all that was begun."""
        kill_all()
        for server in self.servers:
            if server.process.poll() is None:
                server.kill()

    def front(self, *words, **more):
        """A door before the served store, over TLS."""
        return Front(self.folder, self.server.port, "--places", "16", *words, certificate=self.certificate, **more)


def status_of(words):
    """The status with which words end the door at once, or 0 if they do not."""
    with contextlib.redirect_stderr(io.StringIO()):
        try:
            given(words)
            return 0
        except SystemExit as end:
            return end.code


def try_words(place):
    """Part 1."""
    def status(*words):
        return subprocess.run([FRONT, *words], capture_output=True, timeout=PATIENCE, check=False).returncode

    tried = place.tried
    for line in WRONG_WORDS:
        tried.same(f"the status for {line}", 2, status_of(line.split()))
    for line in ("--port 4895", "--port 4895 --listen ::1", "--web 443 --cleartext", "--web 443 --cert file"):
        tried.same(f"the status for {line}", 0, status_of(line.split()))
    tried.same("the status without words", 2, status())
    port = str(free_port())
    other = make_certificate(place.folder, "other")[1]
    tried.same("the status with a key of another", 3, status("--port", port, "--cert", place.certificate[0], "--key", other))
    readable = place.folder / "readable"
    readable.write_bytes(b"6\tx\n")
    readable.chmod(0o644)
    tried.same("the status with passwords that others read", 3, status("--port", port, "--old", port, "--passwords", readable))
    with socket.create_server(("127.0.0.1", 0)) as taken:
        tried.same("the status with a port that is taken", 5, status("--port", str(taken.getsockname()[1])))
    front = Front(place.folder, place.server.port)
    tried.same("an answer without TLS", "=", Guest(front).try_to("35")[0])
    tried.same("the status after a signal", 0, front.end())


def cut(stream, *places):
    """A stream in pieces."""
    ends = [0, *places, len(stream)]
    return [stream[begin:end] for begin, end in zip(ends, ends[1:])]


def passed(pieces, anybody):
    """What of a client's stream goes on, the attempts, and how many strangers' calls there are."""
    calls, on, attempts, strangers = Calls(anybody), b"", [], 0
    for piece in pieces:
        for unit in calls.units(piece):
            if isinstance(unit, Attempt):
                attempts.append((unit.call, unit.person, unit.password))
                on += unit.line
            elif isinstance(unit, Stranger):
                strangers += 1
            else:
                on += unit
    return on, attempts, strangers, calls.sent


def returned(pieces, awaited):
    """What of a server's stream goes on, the replies that were awaited among it, and how many replies there are."""
    replies, on, found = Replies(), b"", []
    replies.awaited = awaited
    for piece in pieces:
        for unit in replies.units(piece):
            on += unit
            found += [bytes(unit)] if isinstance(unit, Reply) else []
    return on, found, replies.answered


def try_cuts(place):
    """Part 2, without sockets."""
    tried = place.tried
    made = NEW_PERSON.format(string("a\nb")).encode()
    stream = HARMLESS + b"7 62 5 " + string(b"pass\nword") + b" 0\n8 " + made + b"\n9 8 5 0H 3Hnew\n" + b"10 56\n"
    attempts = [(62, 5, b"pass\nword"), (8, 5, b"")]
    refused = stream.replace(made, b"43")
    places = range(len(stream))
    member, stranger = (stream, attempts, 0, 10), (refused, attempts, 1, 10)
    tried.same("where a cut stream is another", [], [at for at in places if passed(cut(stream, at), True) != member])
    tried.same("where a cut stranger's stream is", [], [at for at in places if passed(cut(stream, at), False) != stranger])
    tried.same("a stream byte by byte", stranger, passed(cut(stream, *places), False))
    answered = b"LysKOM\n=1 7\n:2 9 5 7\n%2 12 0\n=3 " + string(b"x\n=4\n%4 4 5\n") + b"\n=4\n:1 5\n=5\n"
    wrong = [at for at in range(len(answered)) if returned(cut(answered, at), 4) != (answered, [b"=4\n"], 5)]
    tried.same("where cut replies are others", [], wrong)


def try_bytes(place):
    """Part 2, over TLS."""
    tried, front = place.tried, place.front()
    bare = Session(place.server.port, None)
    bare.write(f"A 5Hguest{HARMLESS.decode()}")
    through = Guest(front, user=None)
    for byte in f"A 5Hguest{HARMLESS.decode()}":
        through.write(byte)
    for _ in range(7):
        ours, theirs = through.line(), bare.line()
        # Numbers of sessions and seconds differ.
        tried.same("an answer through the door", theirs.split()[0], ours.split()[0])
    bare.close()
    through.login()
    through.ask(f"88 {string('Texts')} 0000 0 {{ }}")
    text = through.ask(f"86 {string(BODY.decode())} 1 {{ 0 6 }} 0 {{ }}")
    tried.same("a body with line feeds", string(BODY.decode()), through.ask(f"25 {text} 0 99999"))
    longest = "".join(random.choices("aH1 \n9=%", k=1_048_576))
    text = through.ask(f"86 {string(longest)} 1 {{ 0 6 }} 0 {{ }}")
    tried.same("a longest body", string(longest), through.ask(f"25 {text} 0 9999999"))
    through.write(f"7 25 {text} 0 0\n7 62 5 1Hx 0\n7 62 5 0H 0\n7 25 {text} 0 1\n")
    replies = [through.line() for _ in range(4)]
    tried.same("replies of one reference", [f"=7 1H{longest[0]}", "%7 4 5", "=7", f"=7 2H{longest[:2]}"], replies)
    through.write("8 25 1 x\n")
    tried.same("a departure", ["%%Protocol error."], through.rest())
    late = Guest(front)
    late.write(" " * 5000)
    tried.same("blanks without end", ["%%Protocol error."], late.rest())
    front.end()


def try_strangers(place):
    """Part 3."""
    tried, front = place.tried, place.front()
    guest = Guest(front)
    tried.same("a person that a stranger makes", "%12 0", guest.try_to(NEW_PERSON.format(string("Olle"))))
    guest.write(f"70 62 5 4Hnone 0\n71 {NEW_PERSON.format(string('Olle'))}\n72 56\n")
    told = [guest.line().split()[0] for _ in range(3)]
    tried.same("one after a wrong password", ["%70", "%71", "=72"], told)
    guest.write(f"73 62 5 0H 0\n74 {NEW_PERSON.format(string('Olle'))}\n")
    tried.same("one after a login", ["=73", "=74"], [guest.line().split()[0] for _ in range(2)])
    guest.ask("1")
    tried.same("one after the logout", "=", guest.try_to(NEW_PERSON.format(string("Pelle")))[0])
    guest.end()
    log = set(front.told().splitlines())
    tried.same("what the log has of it", True, {"127.0.0.1 login of 5", "127.0.0.1 may not make a person"} <= log)
    front.end()
    front = place.front("--open")
    tried.same("a person that a stranger may make", "=", Guest(front).try_to(NEW_PERSON.format(string("Nisse")))[0])
    front.end()


def try_guesses(place):
    """Part 4."""
    tried, front = place.tried, place.front("--guess", "1.5")
    guesser, other, same = Guest(front, ELSEWHERE), Guest(front, THIRD), Guest(front, ELSEWHERE)
    for _ in range(5):
        tried.same("a wrong password", "%4 5", guesser.try_to("62 5 1Hx 0"))
    begun = time.monotonic()
    guesser.write("80 62 5 1Hx 0\n")
    same.write("80 62 5 0H 0\n")
    for _ in range(5):
        tried.same("another's wrong password meanwhile", "%4 5", other.try_to("62 5 1Hx 0"))
    Guest(front, "127.0.0.4").login().end()
    tried.same("what was answered meanwhile", [], select.select([guesser.socket, same.socket], [], [], 0)[0])
    tried.same("the answers at last", ["%80 4 5", "=80"], [guesser.line(), same.line()])
    tried.same("both waited, one after the other", True, time.monotonic() - begun >= 2.9)
    tried.same("a logged in session goes on", "=", same.try_to("35")[0])
    front.end()


def comes_in(front, source="127.0.0.1"):
    """Whether somebody is let in before long: the door may still be closing a connection."""
    end = time.monotonic() + PATIENCE
    while time.monotonic() < end:
        try:
            Guest(front, source).end()
            return True
        except (OSError, Wrong):
            time.sleep(0.05)
    return False


def try_crowds(place):
    """Part 5."""
    tried, front = place.tried, place.front()
    guests = [Guest(front, ELSEWHERE) for _ in range(8)]
    tried.same("a ninth connection is closed", True, is_closed(front.bare(ELSEWHERE)))
    Guest(front, THIRD).end()
    guests.pop().end()
    tried.same("another in the place of one", True, comes_in(front, ELSEWHERE))
    tried.same("the log of it", 1, front.told().count(f"{ELSEWHERE} has as many"))
    tried.same("those who are there", ["=35"] * 7, ["=35" if guest.try_to("35")[0] == "=" else "" for guest in guests])
    front.end()


def try_greetings(place):
    """Part 6."""
    tried, front = place.tried, place.front("--greeting", "1", "--places", "3", "--connections", "20")
    sent = [b"", b"A", b"A99Hab", b"A" + b" " * 100]
    waiting = [front.connect() for _ in sent]
    for connection, data in zip(waiting, sent):
        connection.sendall(data)
    silent = [front.bare() for _ in range(3)]
    guest = Guest(front)
    tried.same("connections that came to nothing", [True] * 7, [is_closed(connection) for connection in waiting + silent])
    tried.same("a session goes on", "=", guest.try_to("35")[0])
    guest.end()
    for data in (b"GET / HTTP/1.0\r\n\r\n", b"A1025H", b"A12345", b"A\n", b"B", b"A" + b"\t" * 4096):
        connection = front.connect()
        connection.sendall(data)
        tried.same(f"the answer to {data[:20]}", b"%%Protocol error.\n", connection.makefile("rb").read())
    bare = front.bare()
    bare.sendall(b"GET / HTTP/1.0\r\n\r\n")
    tried.same("no TLS", True, is_closed(bare) or is_closed(bare))
    Guest(front, user="x" * 1024).end()
    front.end()


def try_places(place):
    """Part 7."""
    store = make_store(place.program, str(place.folder / "small"))
    server = place.serve(store, 5)
    front = Front(place.folder, server.port, "--places", "5", certificate=place.certificate)
    guests = [Guest(front).login() for _ in range(3)]
    full = front.connect()
    full.sendall(b"A1Ha")
    place.tried.same("a fourth session is closed", True, is_closed(full))
    for session in [Session(server.port) for _ in range(2)]:
        session.end()
    guests.pop().end()
    place.tried.same("another in the place of one", True, comes_in(front))
    place.tried.same("the log of it", 1, front.told().count("all places are taken"))
    front.end()
    try_strangers_places(place, server)
    server.kill()


def try_strangers_places(place, server):
    """Part 7, where strangers have the places."""
    front = Front(place.folder, server.port, "--places", "5", "--stranger", "0.5", certificate=place.certificate)
    member, first, second = Guest(front).login(), Guest(front), Guest(front)
    second.ask("35")
    time.sleep(0.6)
    third = Guest(front)
    place.tried.same("the oldest stranger makes room", [], first.rest())
    third.login()
    place.tried.same("the others stay", ["=", "=", "="], [guest.try_to("35")[0] for guest in (member, second, third)])
    fourth = Guest(front).login()
    place.tried.same("the second one makes room", [], second.rest())
    time.sleep(0.6)
    full = front.connect()
    full.sendall(b"A1Ha")
    place.tried.same("members make none", (True, "="), (is_closed(full), fourth.try_to("35")[0]))
    place.tried.same("the log of it", 1, front.told().count("127.0.0.1 made room"))
    front.end()


def try_slow(place):
    """Part 8."""
    tried, front = place.tried, place.front("--silent", "1")
    guest = Guest(front).login()
    body = "".join(random.choices("xyz\n", k=1_000_000))
    text = guest.ask(f"86 {string(body)} 1 {{ 0 6 }} 0 {{ }}")
    before = front.resident()
    silent = Guest(front, receive=4096).login()
    silent.write("".join(f"{number} 25 {text} 0 9999999\n" for number in range(900, 940)))
    slow = Guest(front, receive=4096).login()
    slow.write(f"9 25 {text} 0 9999999\n" * 3)
    got = b""
    while len(got) < 3_000_000:
        got += slow.socket.recv(20_000)
        if len(got) < 400_000:
            time.sleep(0.01)
    tried.same("what a slow client got", True, got.startswith(f"=9 {string(body)}\n".encode() * 2))
    tried.same("another meanwhile", "=", guest.try_to("35")[0])
    tried.same("memory of the door, in MB more", 0, (front.resident() - before) // 1024 // 16)
    end = time.monotonic() + PATIENCE
    while front.told().count("end of 5") < 1 and time.monotonic() < end:
        time.sleep(0.05)
    tried.same("the end of the silent one", 1, front.told().count("end of 5"))
    front.end()


def try_return(place):
    """Part 9."""
    tried, store = place.tried, make_store(place.program, str(place.folder / "returning"))
    server = place.serve(store, 8)
    front = Front(place.folder, server.port, "--places", "8", certificate=place.certificate)
    guest = Guest(front).login()
    server.kill()
    tried.same("a session whose server is gone", [], guest.rest())
    gone = front.connect()
    gone.sendall(b"A1Ha")
    tried.same("one without a server", True, is_closed(gone))
    server = Again(place.program, store, server.port, 8)
    place.servers.append(server)
    Guest(front).login().end()
    tried.same("the log of it", 1, front.told().count("the server does not serve"))
    front.end()
    server.kill()


def try_certificate(place):
    """Part 10."""
    tried = place.tried
    certificate, key = make_certificate(place.folder, "renewed")
    front = Front(place.folder, place.server.port, certificate=(certificate, key))
    guest, first = Guest(front), certificate.read_text()
    make_certificate(place.folder, "renewed")
    front.process.send_signal(signal.SIGHUP)
    end = time.monotonic() + PATIENCE
    while "read anew" not in front.told() and time.monotonic() < end:
        time.sleep(0.02)
    told = ssl.get_server_certificate(("127.0.0.1", front.port))
    tried.same("the certificate", (certificate.read_text(), False), (told, told == first))
    key.write_text("none")
    front.process.send_signal(signal.SIGHUP)
    while "stays" not in front.told() and time.monotonic() < end:
        time.sleep(0.02)
    tried.same("the certificate that stays", told, ssl.get_server_certificate(("127.0.0.1", front.port)))
    tried.same("a session goes on", "=", guest.try_to("35")[0])
    front.end()


def with_persons(place, name, passwords):
    """A served store with persons from 6 on, who have these passwords."""
    server = place.serve(make_store(place.program, str(place.folder / name)), 8)
    session = Session(server.port).login()
    for number, password in enumerate(passwords, 6):
        session.ask(f"89 {string(f'Person {number}')} {string(password)} 00000000 0 {{ }}")
    session.end()
    return server


def try_moving(place):
    """Part 11."""
    tried = place.tried
    old = with_persons(place, "old", ["sesam", "öppna dig", "x y", "old"])
    new = with_persons(place, "new", ["random 6", "random 7", "random 8", "changed"])
    passwords = place.folder / "passwords"
    passwords.write_bytes(b"6\trandom 6\n7\trandom 7\n8\trandom 8\n9\trandom 9\n")
    passwords.chmod(0o600)
    front = Front(place.folder, new.port, "--places", "8", "--old", str(old.port), "--passwords", passwords, certificate=place.certificate)
    guest = Guest(front)
    tried.same("the old password", "=", guest.try_to(f"62 6 {string('sesam')} 0"))
    tried.same("it is the new one", "=", Session(new.port).try_to(f"62 6 {string('sesam')} 0"))
    tried.same("the random one is none", "%4 6", Session(new.port).try_to(f"62 6 {string('random 6')} 0"))
    guest.write(f"90 56\n91 62 7 {string('öppna dig')} 0\n92 56\n")
    tried.same("with other calls around it", ["=90", "=91", "=92"], [guest.line().split()[0] for _ in range(3)])
    tried.same("a password that neither takes", "%4 8", guest.try_to(f"62 8 {string('z')} 0"))
    tried.same("the random one", "=", guest.try_to(f"62 8 {string('random 8')} 0"))
    tried.same("one that was changed since", "%4 9", guest.try_to(f"62 9 {string('old')} 0"))
    tried.same("the file", (b"8\trandom 8\n", 0o600), (passwords.read_bytes(), passwords.stat().st_mode & 0o777))
    old.kill()
    tried.same("without the old server", "%4 8", guest.try_to(f"62 8 {string('x y')} 0"))
    tried.same("a person that moved", "=", guest.try_to(f"62 7 {string('öppna dig')} 0"))
    tried.same("no password in the log", [], [word for word in ("sesam", "öppna", "random 8", "x y") if word in front.told()])
    front.end()
    new.kill()


PARTS = (try_words, try_cuts, try_bytes, try_strangers, try_guesses, try_crowds, try_greetings, try_places, try_slow, try_return,
         try_certificate, try_moving)


def main(words):
    limit_seconds(LIMIT_SECONDS)
    with tempfile.TemporaryDirectory(dir=folder_in_memory()) as folder:
        place = Place(program_of(words), pathlib.Path(folder))
        try:
            for part in PARTS:
                part(place)
        finally:
            place.end()
    print(f"{place.tried.count} things looked at, {place.tried.failed} are otherwise")
    return 1 if place.tried.failed else 0


if __name__ == "__main__":
    script(main, __doc__)
