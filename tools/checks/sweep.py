#!/usr/bin/env python3
"""Tries contrib/komd-sweep, and `komd sweep`, over stores whose clock is told the time: sweep.py [PROGRAM [STORES]]

1. Each condition of the rule by itself, at the second before the day on which it lets a text go, and at the second of that: what
   conferences keep, comments, footnotes, no recipients, marks, items, each way in which a text is named. Rows worked out by hand.
   `komd sweep` says the same of a copy.
2. Stores of random calls (40, or STORES): what is listed, and then deleted, is what a second model of the rule tells, which reads the
   replies itself; and all else is as it was, but for links to what is gone. Of 20 of them a copy is swept by `komd sweep`, with the same.
3. What comes between: a text that changes, or is named, after it was judged stays; where a call of the walk over the names is refused, or
   the connection breaks, nothing is deleted, and where it breaks later the first ones are; 16 calls are under way at most.
4. A person who is not strong, other passwords and words; a store that is served is not copied, and of a copy nothing is left.
5. A disk that gets full in the middle: the first ones are gone, and with room again the rest goes (as root).
6. The statuses of `komd sweep`: other passwords and persons, a store that is served, what is no store, a report that cannot be written.
7. Numbers of which few are texts, or none, in runs of each length: what is listed and swept, and how many calls that makes. Texts that
   are told with strings in which there are line feeds and replies, in pieces of each size. What is split into words is read as what is
   read as a record, of 1,000 random texts and of each beginning of some; and so is what is found by a form, of 4,000 that have it or
   nearly so, from moments before and after a change of their age; and replies are taken by a form as they are line by line, whatever
   is between them. Texts that are there and not told.

It prints a line for each thing that is otherwise, and a count, and ends with 1 if there is one, else with 0. It takes some fifteen
seconds, and needs a C compiler; where there is none it says so, and ends with 0. PROGRAM is the built `komd` unless it is named.
"""
import collections
import contextlib
import datetime
import io
import itertools
import os
import pathlib
import random
import re
import shutil
import signal
import socket
import subprocess
import sys
import tempfile
import threading
import time
import types

TOP = pathlib.Path(__file__).resolve().parents[2]
sys.path[:0] = [str(TOP / "tools" / "common"), str(TOP / "contrib")]
from built import USAGE, make_store, program_of, script
from clock import DAY, Clock
import protocol_a
from protocol import string

from protocol_a import Broken, Refused, Reply, text
from served import PATIENCE, Server, Session, folder_in_memory, limit_seconds
from sweeping.plain import FORM, Plain
from sweeping.rule import is_held
from sweeping.seen import head_of, seen
from sweeping.walks import Due, is_as_judged
from tried import Tried

SWEEP = TOP / "contrib" / "komd-sweep"
LIMIT_SECONDS, STORES, COPIES, UNDER_WAY = 600, 40, 20, 16
FIRST = 1_500_000_000
FOR_EVER, PERSON = 1_000_000, 5
STORE_OPEN, UNFIT, UNWRITTEN, REFUSED = 3, 4, 7, 8
DONT_GARB, SECRET = "00001000", "00100000"


# The model: what replies tell, read here, and which texts are due.

WORD = re.compile(r" ?(?:(\d+)H|([^ ]+))")
Stat = collections.namedtuple("Stat", "made marks recipients parents replies items others")
Room = collections.namedtuple("Room", "letterbox presentation motd nice keep expire items")


class Told:
    """The words of a result, one after the other; a string is its letters."""

    def __init__(self, result):
        self.words, place = [], 0
        while place < len(result):
            found = WORD.match(result, place)
            place = found.end()
            if found[1]:
                self.words.append(result[place : place + int(found[1])])
                place += int(found[1])
            else:
                self.words.append(found[2])
        self.words.reverse()

    def some(self, count):
        return [self.words.pop() for _ in range(count)]

    def ints(self, count):
        return [int(word) for word in self.some(count)]

    def moment(self):
        second, minute, hour, day, month, year, *_ = self.ints(9)
        return int((datetime.datetime(1900 + year, month + 1, day, hour, minute, second) - datetime.datetime(1970, 1, 1)).total_seconds())

    def array(self, element):
        count, brace = self.some(2)
        found = [element() for _ in range(int(count))] if brace == "{" else []
        if brace == "{":
            self.words.pop()
        return found

    def item(self):
        """The tag, the flags and the contents of an aux-item."""
        _, tag, _ = self.ints(3)
        self.moment()
        flags, _, content = self.some(3)
        return tag, flags, content

    def stat(self):
        made, (author, lines, length, marks) = self.moment(), self.ints(4)
        misc = self.array(lambda: (tag := self.ints(1)[0], self.moment() if tag in (7, 9) else self.ints(1)[0]))
        kinds = {kind: [value for tag, value in misc if tag in kind] for kind in ((0, 1, 15), (2, 4), (3, 5))}
        return Stat(made, marks, *kinds.values(), self.array(self.item), (author, lines, length))

    def room(self):
        self.some(1)
        kind, _, _ = self.some(1)[0], self.moment(), self.moment()
        _, presentation, _, _, _, motd, nice, keep, _, _, _, expire = self.ints(12)
        return Room(kind[3] == "1", presentation, motd, nice, keep, expire, self.array(self.item))


def good(session, call, numbers):
    """The good results of a call for numbers."""
    answers = {number: session.try_to(f"{call} {number}") for number in numbers}
    return {number: Told(answer[1:]) for number, answer in answers.items() if answer.startswith("=")}


def stats(session):
    return {number: told.stat() for number, told in good(session, 90, range(1, int(session.ask("115")))).items()}


def model(session, now):
    """The texts that are due, of all that a server has."""
    texts, rooms = stats(session), {}
    for number, told in good(session, 91, range(1, int(session.ask("114")))).items():
        rooms[number] = told.room()
    spoken_of = {text for room in rooms.values() for text in (room.presentation, room.motd)}
    faq = {content.lstrip("0") for room in rooms.values() for tag, _, content in room.items if tag == 14 and re.fullmatch("[0-9]+", content)}
    spoken_of |= {int(told.some(13)[-1]) for told in good(session, 49, [number for number, room in rooms.items() if room.letterbox]).values()}

    def older(text, days):
        return now - texts[text].made >= (days + 1) * DAY

    def kept_by(room, text):
        if room.expire and older(text, room.expire):
            return False
        return not older(text, room.nice) or any(not older(reply, room.keep) for reply in texts[text].replies)

    nobody = Room(False, 0, 0, 77, 77, 0, [])
    return [number for number, text in sorted(texts.items())
            if not (text.marks or number in spoken_of or str(number) in faq or any(flags[4] == "1" for _, flags, _ in text.items)
                    or any(kept_by(rooms[to], number) for to in text.recipients) or (not text.recipients and kept_by(nobody, number)))]


def without(texts, gone):
    """What is to be left of texts."""
    return {number: text._replace(parents=[one for one in text.parents if one not in gone], replies=[one for one in text.replies if one not in gone])
            for number, text in texts.items() if number not in gone}


# What has it at work.

class Sweeping(Tried):
    """A folder with a clock and a password, and the tool."""

    def __init__(self, program, folder):
        super().__init__(program, folder)
        self.clock = Clock(folder, FIRST)
        self.password = folder / "password"
        self.password.write_text("\n")
        self.password.chmod(0o600)
        self.names = itertools.count()
        self.tool = types.ModuleType("komd_sweep")
        exec(compile(SWEEP.read_text(), SWEEP, "exec"), vars(self.tool))

    @contextlib.contextmanager
    def served(self, store=None, moment=FIRST, workers=6):
        """A server, of a new store if none is named, from a moment on, and a strong session."""
        store = store or make_store(self.program, str(self.folder / f"store {next(self.names)}"))
        self.clock.set(moment)
        server = Server(self.program, store, workers, self.clock.environment)
        server.store = store
        try:
            session = Session(server.port).login()
            session.ask("42 255")
            yield server, session
        finally:
            server.kill()

    def said(self, *words):
        """What the tool prints, run in this process: the texts that it lists, and its last two lines."""
        out = io.StringIO()
        with contextlib.redirect_stdout(out):
            given, sys.argv = sys.argv, ["komd-sweep", *map(str, words), str(PERSON), str(self.password)]
            try:
                self.tool.main()
            finally:
                sys.argv = given
        *lines, first, second = out.getvalue().splitlines()
        return [int(line.split()[1]) for line in lines], f"{first} {second}"

    def copied(self, store):
        """A copy of a store as it is now: what was answered is durable."""
        return shutil.copyfile(store, f"{store} copied")

    def swept(self, store, person=PERSON, password="", out=subprocess.PIPE):
        """The status of `komd sweep` at the moment that it is now, and what it prints."""
        done = subprocess.run([self.program, "sweep", store, str(person), password], stdout=out, stderr=subprocess.PIPE, text=True,
                              timeout=PATIENCE * 4, env={**os.environ, **self.clock.environment}, check=False)
        return done.returncode, (done.stdout or "") + done.stderr

    def begin(self, *words, environment=(), **more):
        given = {**os.environ, "KOMD": self.program, **dict(environment)}
        return subprocess.Popen([str(word) for word in (SWEEP, *words)], stdout=subprocess.PIPE, stderr=subprocess.PIPE, text=True, env=given, **more)

    def ask(self, *words, environment=()):
        """The status of the tool, what it prints, and what it complains of."""
        process = self.begin(*words, environment=environment)
        said, complained = process.communicate(timeout=PATIENCE * 4)
        return process.returncode, said, complained

    def broken_off(self, what, port):
        """How many texts a sweep deleted that breaks off, as it says itself, or -1 where it says nothing of that."""
        status, said, complained = self.ask("--port", port, "--delete", PERSON, self.password)
        self.same(what, (1, "", True), (status, said, "ended the connection" in complained or "reset" in complained))
        found = re.match(rf"komd-sweep: (\d+) texts were deleted, and up to {UNDER_WAY} more may be\n", complained)
        return int(found[1]) if found else -1

    def refused(self, what, wanted, *words, status=1, environment=()):
        returned, said, complained = self.ask(*words, environment=environment)
        self.same(what, (status, "", True), (returned, said, wanted in complained))

    def refused_at(self, relay, what, wanted, person=PERSON):
        """A sweep by a relay that is to end so, and to say so."""
        self.refused(what, wanted, "--port", relay.number(), "--delete", person, self.password)


def write(session, *recipients, parents=(), items="0 { }", body="a text"):
    """The number of a new text, to conferences, and a comment to texts."""
    misc = [f"0 {number}" for number in recipients] + [f"2 {number}" for number in parents]
    return int(session.ask(f"86 {string(body)} {len(misc)} {{ {' '.join(misc)} }} {items}"))


def conference(session, name, nice=77, keep=77, expire=0):
    number = int(session.ask(f"88 {string(name)} 00000000 0 {{ }}"))
    days_of(session, number, nice, keep, expire)
    return number


def days_of(session, number, nice, keep, expire):
    for call, days in ((22, nice), (105, keep), (97, expire)):
        session.ask(f"{call} {number} {days}")


def a_person(session, port, name="Anna"):
    """A person who is not strong, and a session of it."""
    number = int(session.ask(f"89 {string(name)} 2Hpw 00000000 0 {{ }}"))
    return number, Session(port, "anna").login(number, "pw")


def item(tag, flags, content):
    return f"1 {{ {tag} {flags} 0 {string(content)} }}"


# Part 1.

def make_conditions(tried, session, port):
    """Texts each of which one condition lets go or keeps: its name, its number, and the day from which on it is due, or none."""
    ten, thirty, keeps = conference(session, "ten", 10, 20), conference(session, "thirty", 30, 40), conference(session, "keeps", FOR_EVER, FOR_EVER)
    none, expires = conference(session, "none", 0, 0), conference(session, "expires", FOR_EVER, 77, 15)
    other, others = a_person(session, port)
    made, later = [], []

    def text(name, day, *recipients, **more):
        made.append((name, write(session, *recipients, **more), day))
        return made[-1][1]

    text("a conference that keeps 10 days", 11, ten)
    later.append(lambda: text("one that keeps none", 6, none))
    text("two, one of which keeps 30", 31, ten, thirty)
    text("one that keeps for ever", None, ten, keeps)
    text("a letterbox", 78, other)
    text("no recipients", 78)
    text("one that expires", 16, expires)
    text("one that expires, and one that keeps 30", 31, expires, thirty)
    write(session, keeps, parents=[text("a comment as old as it, which another conference keeps longer", 21, ten)])
    late = text("a comment that is linked later", 21, ten), write(session, keeps)
    later.append(lambda: session.ask(f"32 {late[1]} {late[0]}"))
    commented = [text("a later comment in a conference that keeps longer", 26, ten), text("a later comment, no recipients", 83),
                 text("a later comment, and a conference that expires", 16, expires), text("a later comment to two, one keeps 30", 46, ten, thirty)]
    later.append(lambda: [write(session, keeps, parents=[one]) for one in commented])
    noted = text("a later footnote in a conference that keeps longer", 26, ten)
    later.append(lambda: session.ask(f"86 4Hnote 2 {{ 0 {keeps} 4 {noted} }} 0 {{ }}"))
    added = text("a recipient that is added later", 11, ten)
    later.append(lambda: session.ask(f"30 {added} {none} 0"))
    others.ask(f"72 {text('the mark of another', None, ten)} 1")
    session.ask(f"72 {text('the mark of oneself', None, ten)} 1")
    gone = text("a mark that is gone", 11, ten)
    session.ask(f"72 {gone} 1"), session.ask(f"73 {gone}")
    text("an item that keeps it", None, ten, items=item(2, DONT_GARB, "x"))
    text("an item that is secret", 11, ten, items=item(2, SECRET, "x"))
    session.ask(f"57 {other} {text('a user area', None)}")
    for number, what in ((ten, "a conference"), (other, "a letterbox")):
        session.ask(f"16 {number} {text(f'the presentation of {what}', None, ten)}")
        session.ask(f"17 {number} {text(f'the message of the day of {what}', None, ten)}")
        session.ask(f"93 {number} 0 {{ }} {item(14, SECRET, str(text(f'the faq-text of {what}', None, ten)))}")
        for spelled, day in (("000{}", None), ("{}x", 11), (" {}", 11), ("-{}", 11), ("{}" + "0" * 5000, 11), ("0" * 5000 + "{}", None)):
            session.ask(f"93 {number} 0 {{ }} {item(14, '00000000', spelled.format(text(f'a faq-text {spelled:.9} of {what}', day, ten)))}")
    session.ask(f"93 {ten} 0 {{ }} {item(10, '00000000', str(text('an item that names it and is no faq-text', 11, ten)))}")
    tried.clock.go_on(5 * DAY)
    for work in later:
        work()
    return made


def try_conditions(tried):
    """Part 1."""
    with tried.served() as (server, session):
        made = make_conditions(tried, session, server.port)
        for day in sorted({day for _, _, day in made if day}):
            for moment in (FIRST + day * DAY - 1, FIRST + day * DAY):
                tried.clock.set(moment)
                listed, _ = tried.said("--port", server.port)
                for name, number, due in made:
                    tried.same(f"whether {name} lets a text go after {(moment - FIRST) / DAY:.3f} days",
                               due is not None and FIRST + due * DAY <= moment, number in listed)
        wanted, texts = [number for _, number, day in made if day], stats(session)
        tried.same("all that are due", (wanted, f"due {len(wanted)} kept {len(texts) - len(wanted)}"), tried.said("--port", server.port))
        tried.same("what the model tells", wanted, model(session, tried.clock.moment))
        left = len(texts) - len(wanted)
        tried.same("what `komd sweep` says of a copy", (0, f"swept {len(wanted)}\nkept {left}\n"), tried.swept(tried.copied(server.store)))
        said = f"swept {len(wanted)} kept {left}"
        tried.same("what is said of the sweep", ([], said), tried.said("--port", server.port, "--delete"))
        tried.same("what is left", without(texts, wanted), stats(session))
        tried.same("a second sweep", ([], f"swept 0 kept {len(texts) - len(wanted)}"), tried.said("--port", server.port, "--delete"))


def try_worked(tried):
    """Part 1: three texts that were worked out by hand, of which the last comments the first on the day before it would be due."""
    for what, change, first, left in (("as it is", None, "swept 1 kept 2", [1, 3]), ("an expire of 10 days", "97 6 10", "swept 2 kept 1", [3]),
                                      ("a mark", "72 2 1", "swept 0 kept 3", [1, 2, 3])):
        with tried.served() as (server, session):
            room = conference(session, "Open")
            write(session, room), write(session, room)
            if change:
                session.ask(change)
            tried.clock.go_on(77 * DAY)
            write(session, room, parents=[1])
            tried.clock.go_on(DAY)
            lines = (0, first.replace(" kept", "\nkept") + "\n")
            tried.same(f"what `komd sweep` says of three texts, {what}", lines, tried.swept(tried.copied(server.store)))
            tried.same(f"what is swept of three texts, {what}", ([], first), tried.said("--port", server.port, "--delete"))
            tried.same(f"what is left of three texts, {what}", left, sorted(stats(session)))
            if not change:
                tried.clock.go_on(77 * DAY)
                tried.same("what `komd sweep` says 77 days later", (0, "swept 2\nkept 0\n"), tried.swept(tried.copied(server.store)))
                tried.same("what is swept 77 days later", ([], "swept 2 kept 0"), tried.said("--port", server.port, "--delete"))


# Part 2.

class Chance:
    """Random calls over a small store."""

    def __init__(self, tried, seed, server, session):
        self.draw, self.clock, self.session = random.Random(seed), tried.clock, session
        draw = self.draw
        self.rooms = [conference(session, f"room {place}", *(draw.choice((0, 1, 2, 5, 9)) for _ in range(2)), draw.choice((0, 0, 1, 6)))
                      for place in range(3)]
        self.person, self.other = a_person(session, server.port)
        self.rooms.append(self.person)
        days_of(session, self.person, 3, 3, 0)
        self.last = 0

    def text(self):
        return self.draw.randint(1, max(self.last, 1))

    def room(self):
        return self.draw.choice(self.rooms)

    def new_text(self):
        draw = self.draw
        misc = [f"{draw.choice((0, 0, 1, 15))} {room}" for room in draw.sample(self.rooms, draw.choice((0, 1, 1, 1, 2, 3)))]
        misc += [f"{draw.choice((2, 2, 4))} {text}" for text in {self.text() for _ in range(draw.choice((0, 0, 1, 1, 2)))}]
        flags = draw.choice(("00000000", SECRET, DONT_GARB, "01000000"))
        return f"86 4Htext {len(misc)} {{ {' '.join(misc)} }} {item(2, flags, 'x') if draw.random() < 0.15 else '0 { }'}"

    def call(self):
        draw, text, room = self.draw, self.text(), self.room()
        return draw.choices((
            self.new_text(), f"30 {text} {room} 0", f"32 {text} {self.text()}", f"37 {text} {self.text()}", f"33 {text} {self.text()}",
            f"31 {text} {room}", f"72 {text} 1", f"73 {text}", f"16 {room} {text}", f"17 {room} {text}", f"57 {self.person} {text}",
            f"93 {room} 0 {{ }} {item(14, '00000000', draw.choice(('{}', '0{}', '{}x', '')).format(text))}", f"29 {text}",
            f"11 {self.rooms[0]}", f"{draw.choice((22, 105, 97))} {room} {draw.randrange(8)}",
        ), (50, 6, 6, 6, 3, 3, 4, 3, 1, 1, 1, 2, 2, 0.2, 2))[0]

    def live(self, count):
        for _ in range(count):
            self.clock.go_on(self.draw.choice((0, 1, 3600, DAY - 1, DAY, DAY + 1)))
            session = self.other if self.draw.random() < 0.3 else self.session
            call = self.call()
            answer = session.try_to(call)
            if call.startswith("86 ") and answer.startswith("="):
                self.last = int(answer[1:])
        self.clock.go_on(self.draw.randrange(15 * DAY))


def try_random(tried, stores):
    """Part 2."""
    swept = kept = 0
    for seed in range(stores):
        with tried.served() as (server, session):
            Chance(tried, seed, server, session).live(60)
            texts, due = stats(session), model(session, tried.clock.moment)
            rest = len(texts) - len(due)
            tried.same(f"what is listed of store {seed}", (due, f"due {len(due)} kept {rest}"), tried.said("--port", server.port))
            tried.same(f"what listing changes of store {seed}", texts, stats(session))
            copy = tried.copied(server.store) if seed < COPIES else None
            tried.same(f"what is swept of store {seed}", ([], f"swept {len(due)} kept {rest}"), tried.said("--port", server.port, "--delete"))
            tried.same(f"what is left of store {seed}", without(texts, due), stats(session))
            swept, kept = swept + len(due), kept + rest
            store = server.store
        if seed < COPIES:
            moment = tried.clock.moment
            tried.same(f"what `komd sweep` says of a copy of store {seed}", (0, f"swept {len(due)}\nkept {rest}\n"), tried.swept(copy))
            with tried.served(copy, moment) as (_, session):
                tried.same(f"what it leaves of the copy of store {seed}", without(texts, due), stats(session))
            os.unlink(copy)
        os.unlink(store)
    print(f"{stores} random stores, {swept} texts of them swept and {kept} kept")
    tried.same("whether much was swept, and much kept", True, min(swept, kept) > 3 * stores)


# Part 3.

class Relay:
    """A port that leads to a server. Each line that comes from the client is told to `hook` before it goes on; where that says False, the
    connection ends. What comes back is what `answer` makes of each line, in pieces of so many bytes if there is a `size`. `most` is how
    many calls were under way at a time."""

    def __init__(self, port, hook, answer=None, size=None):
        self.port, self.hook, self.answer, self.size, self.under_way, self.most = port, hook, answer or bytes, size, 0, 0
        self.lock = threading.Lock()
        self.door = socket.create_server(("127.0.0.1", 0))
        self.thread = threading.Thread(target=self.work, daemon=True)

    def __enter__(self):
        self.thread.start()
        return self

    def __exit__(self, *_):
        self.thread.join(PATIENCE)
        self.door.close()

    def number(self):
        return self.door.getsockname()[1]

    def count(self, more):
        with self.lock:
            self.under_way += more
            self.most = max(self.most, self.under_way)

    def work(self):
        client, server = self.door.accept()[0], socket.create_connection(("127.0.0.1", self.port))
        server.setsockopt(socket.IPPROTO_TCP, socket.TCP_NODELAY, 1)
        back = threading.Thread(target=self.back, args=(server, client), daemon=True)
        back.start()
        with client.makefile("rb") as lines:
            for line in lines:
                if self.hook(line.decode()) is False:
                    break
                self.count(1)
                server.sendall(line)
        for end in (server, client):
            with contextlib.suppress(OSError):
                end.shutdown(socket.SHUT_RDWR)
        back.join(PATIENCE)
        server.close()
        client.close()

    def back(self, server, client):
        with contextlib.suppress(OSError), server.makefile("rb") as lines:
            client.setsockopt(socket.IPPROTO_TCP, socket.TCP_NODELAY, 1)
            for line in lines:
                self.count(-1)
                line = self.answer(line)
                for place in range(0, len(line), self.size or len(line)):
                    client.sendall(line[place : place + (self.size or len(line))])


def at(number, call, work):
    """A hook that does its work before the line of this number, from 1 on, that begins with a call."""
    seen = itertools.count(1)

    def hook(line):
        words = line.split(" ", 1)
        return work() if words[1:] and f"{words[1].strip()} ".startswith(f"{call} ") and next(seen) == number else None

    return hook


def both(one, other):
    def hook(line):
        told = [one(line), other(line)]
        return False if False in told else None

    return hook


def old_texts(tried, session, count):
    """A conference that keeps its texts for a day, and so many texts in it that are older."""
    room = conference(session, "short", 1, 1)
    made = [write(session, room) for _ in range(count)]
    tried.clock.go_on(5 * DAY)
    return room, made


def try_changes(tried):
    """Part 3: what changes meanwhile."""
    with tried.served() as (server, session):
        raised = conference(session, "raised", 1, 1)
        kept = write(session, raised)
        room, made = old_texts(tried, session, 40)
        named, marked, commented, held, added, vanished = made[:6]
        # (links to what goes before, of each kind, are no change)
        session.ask(f"32 {made[10]} {made[39]}"), session.ask(f"32 {made[38]} {made[11]}")
        _, other = a_person(session, server.port)

        def change():
            session.ask(f"16 {room} {named}")
            session.ask(f"22 {raised} 100")

        def change_texts():
            other.ask(f"72 {marked} 1")
            write(session, room, parents=[commented])
            session.ask(f"92 {held} 0 {{ }} {item(2, DONT_GARB, 'x')}")
            session.ask(f"30 {added} {raised} 0")
            session.ask(f"29 {vanished}")

        # (the walk over the texts asks for each once; what follows is the second look)
        with Relay(server.port, both(at(2, "116 0", change), at(len(made) + 2, "90", change_texts))) as relay:
            status, said, complained = tried.ask("--port", relay.number(), "--delete", PERSON, tried.password)
        tried.same("a sweep beside others", (0, ""), (status, complained))
        tried.same("what is said to be left", [*(f"text {number} was left: it changed meanwhile" for number in made[1:5]),
                                               f"text {vanished} was left: call 90 was refused with error 14, status {vanished}",
                                               f"swept {len(made) - 6}", "kept 7"], said.splitlines())
        tried.same("what is there then", [kept, *(number for number in made[:6] if number != vanished), made[-1] + 1], sorted(stats(session)))
        tried.same("whether too many calls were under way", False, relay.most > UNDER_WAY)
    with tried.served() as (server, session):
        room, made = old_texts(tried, session, 40)
        session.ask(f"32 {made[25]} {made[0]}")
        with Relay(server.port, at(20, "90", lambda: [session.ask(f"29 {number}") for number in made[19:30]] and None)) as relay:
            listed = tried.said("--port", relay.number())
        tried.same("texts that go in the middle of the walk, one a comment", (made[1:19] + made[30:], "due 28 kept 1"), listed)
        for expire, wanted in ((0, made[:19] + made[30:-1]), (1, made[:19] + made[30:])):
            days_of(session, room, 1, 1, expire)
            with Relay(server.port, at(1, f"90 {made[-1]}", lambda: write(session, room, parents=[made[-1]]) and None)) as relay:
                listed = tried.said("--port", relay.number())
            tried.same(f"a comment to the last text at the end of the walk, with expire {expire}",
                       (wanted, f"due {len(wanted)} kept {29 - len(wanted)}"), listed)
            session.ask(f"29 {max(stats(session))}")


def try_breaks(tried):
    """Part 3: what breaks."""
    with tried.served() as (server, session):
        _, made = old_texts(tried, session, 40)
        gone = iter([conference(session, "gone", 1, 1), conference(session, "gone too", 1, 1)])
        for number, what in ((1, "the walk over the names"), (2, "the second walk over them")):
            victim = next(gone)
            with Relay(server.port, at(number, f"91 {victim}", lambda: session.ask(f"11 {victim}") and None)) as relay:
                tried.refused_at(relay, f"a refusal in {what}", "nothing is due")
        for call, number in (("116 0", 1), ("49", 1), ("91", 3), ("60 0", 1), ("90", 30), ("116 0", 2), ("49", 2), ("90", 50)):
            with Relay(server.port, at(number, call, lambda: False)) as relay:
                tried.refused_at(relay, f"an end at call {call}, time {number}", "ended the connection")
        for what, call, change in (("a person that is gone", "116 0", "11 {}"), ("a person that is gone", "60 0", "11 {}"),
                                   ("a person who is strong no more", "60 0", "7 {} 0000000000000000")):
            person, _ = a_person(session, server.port, f"{what} at {call}")
            session.ask(f"8 {person} 0H 0H"), session.ask(f"7 {person} 1111110000000000")
            with Relay(server.port, at(1, call, lambda: session.ask(change.format(person)) and None)) as relay:
                tried.refused_at(relay, f"{what} before call {call}", "nothing is due", person)
        tried.same("what all these leave", made, sorted(stats(session)))
        with Relay(server.port, at(20, "29", lambda: False)) as relay:
            told = tried.broken_off("an end in the middle of the deletions", relay.number())
        left = sorted(stats(session))
        tried.same("how much was said to be gone, and was", True, UNDER_WAY <= told <= len(made) - len(left) < 20)
        tried.same("what that leaves", made[len(made) - len(left):], left)
        tried.same("the rest", ([], f"swept {len(left)} kept 0"), tried.said("--port", server.port, "--delete"))


# Part 4.

def try_words(tried):
    """Part 4: who is let in, and words."""
    with tried.served() as (server, session):
        room, made = old_texts(tried, session, 3)
        person, _ = a_person(session, server.port)
        tried.password.write_text("pw\n")
        where = ("--port", server.port, "--delete")
        tried.refused("a person who is not strong", f"person {person} is no administrator", *where, person, tried.password)
        tried.refused("a password that is another", "cannot log in with this password", *where, PERSON, tried.password)
        session.ask(f"8 {PERSON} 0H 2Hpw")
        status, said, _ = tried.ask(*where[:2], PERSON, tried.password)
        tried.same("a password with a line feed", (0, ["due 3", "kept 0"]), (status, said.splitlines()[-2:]))
        tried.refused("a person that is not there", "cannot log in", *where, 77, tried.password)
        tried.refused("no file of a password", "No such file", *where, PERSON, tried.folder / "none")
        tried.password.chmod(0o604)
        tried.refused("a file that all may read", "may be read by all", *where, PERSON, tried.password)
        tried.password.chmod(0o600)
        for words in ((), (5,), ("five", tried.password), ("--store", "x", "--delete", 5, tried.password), ("--what", 5, tried.password)):
            tried.refused(f"the words {words}", "usage: komd-sweep", *words, status=2)
        tried.same("what they all leave", made, sorted(stats(session)))
        status, said, _ = tried.ask(*where[:2], PERSON, tried.password)
        day = time.strftime("%F", time.gmtime(FIRST))
        tried.same("a line of the list", (0, f"text 1 of {day}, 6 bytes, by 5 Administrator, to {room} short"), (status, said.splitlines()[0]))
        session.ask(f"8 {PERSON} 2Hpw 0H")
        tried.password.write_text("")
        write(session)
        tried.clock.go_on(80 * DAY)
        tried.same("a text to nobody", f"text 4 of {time.strftime('%F', time.gmtime(FIRST + 5 * DAY))}, 6 bytes, by 5 Administrator, to nobody",
                   tried.ask(*where[:2], PERSON, tried.password)[1].splitlines()[3])
        store = server.store
    tried.refused("no server", "refused", *where, PERSON, tried.password)
    return store, made + [4]


def try_copies(tried, store, made):
    """Part 4: a store that nobody serves."""
    room = tried.folder / "copies"
    room.mkdir()
    given, before = {**tried.clock.environment, "TMPDIR": str(room)}, pathlib.Path(store).read_bytes()
    words = ("--store", store, PERSON, tried.password)
    status, said, complained = tried.ask(*words, environment=given)
    tried.same("a store that nobody serves", (0, made, ""), (status, [int(line.split()[1]) for line in said.splitlines()[:-2]], complained))
    with tried.served(store):
        tried.refused("one that is served", f"a komd has {store} open", *words, status=STORE_OPEN, environment=given)
    broken = tried.folder / "broken"
    broken.write_bytes(before[:30] + b"\xff" * 30 + before[60:])
    broken.chmod(0o600)
    for path, what, status in ((broken, "no whole store", UNFIT), (tried.folder / "none", "no store", 1), (room, "a folder", 1)):
        tried.refused(what, "komd-sweep: ", "--store", path, *words[2:], status=status, environment=given)
    tried.refused("another password for a store", "cannot log in", *words[:3], broken, environment=given)
    for number, pause in itertools.product((signal.SIGINT, signal.SIGTERM, signal.SIGHUP), (0.1, 0.15, 0.2, 0.25)):
        process = tried.begin(*words, environment=given)
        time.sleep(pause)
        process.send_signal(number)
        process.communicate(timeout=PATIENCE)
    tried.same("the copies that are left", [], list(room.iterdir()))
    serving = [line for line in pathlib.Path("/proc").glob("[0-9]*/cmdline") if str(room).encode() in read(line)]
    tried.same("the servers that are left", [], serving)
    room.rmdir()


def read(path):
    with contextlib.suppress(OSError):
        return path.read_bytes()
    return b""


# Part 5.

def try_full_disk(tried):
    """Part 5."""
    room = tried.folder / "room"
    room.mkdir()
    if subprocess.run(["mount", "-t", "tmpfs", "-o", "size=256k", "tmpfs", room], capture_output=True, check=False).returncode:
        print("no small file system can be made here, so none was filled")
        return
    try:
        store = make_store(tried.program, str(room / "store"))
        with tried.served(store) as (server, session):
            _, made = old_texts(tried, session, 1500)
            with open(room / "filler", "wb", buffering=0) as filler, contextlib.suppress(OSError):
                while filler.write(bytes(4096)) == 4096:
                    pass
            told = tried.broken_off("a sweep on a full disk", server.port)
            tried.same("the server's end", STORE_OPEN, server.process.wait(PATIENCE))
        os.unlink(room / "filler")
        with tried.served(store, tried.clock.moment) as (server, session):
            left = sorted(stats(session))
            tried.same("what a full disk leaves", made[len(made) - len(left):], left)
            tried.same("whether as many are gone as were answered", True, 0 < told <= len(made) - len(left) <= told + UNDER_WAY < len(made))
            tried.same("the rest", ([], f"swept {len(left)} kept 0"), tried.said("--port", server.port, "--delete"))
    finally:
        subprocess.run(["umount", room], check=True)
        room.rmdir()


def try_own_full_disk(tried):
    """Part 5, by `komd sweep`."""
    room = tried.folder / "own room"
    room.mkdir()
    if subprocess.run(["mount", "-t", "tmpfs", "-o", "size=256k", "tmpfs", room], capture_output=True, check=False).returncode:
        return
    try:
        store = make_store(tried.program, str(room / "store"))
        with tried.served(store) as (_, session):
            _, made = old_texts(tried, session, 1500)
            moment = tried.clock.moment
        with open(room / "filler", "wb", buffering=0) as filler, contextlib.suppress(OSError):
            while filler.write(bytes(4096)) == 4096:
                pass
        tried.same("`komd sweep` on a full disk", (STORE_OPEN, ""), tried.swept(store))
        os.unlink(room / "filler")
        with tried.served(store, moment) as (_, session):
            left = sorted(stats(session))
            tried.same("what a full disk leaves of `komd sweep`", made[len(made) - len(left):], left)
            tried.same("whether some were left", True, 0 < len(left) < len(made))
        tried.same("`komd sweep` with room again", (0, f"swept {len(left)}\nkept 0\n"), tried.swept(store))
    finally:
        subprocess.run(["umount", room], check=True)
        room.rmdir()


# Part 6.

def try_statuses(tried):
    """Part 6."""
    with tried.served() as (server, session):
        _, made = old_texts(tried, session, 3)
        person, _ = a_person(session, server.port)
        moment, store = tried.clock.moment, server.store
        tried.same("a store that is served", (STORE_OPEN, ""), tried.swept(store))
    for what, who, password in (("another password", PERSON, "pw"), ("a person who is not strong", person, "pw"), ("person 0", 0, ""),
                                ("a person that is not there", 77, "")):
        tried.same(f"the status of `komd sweep` with {what}", (REFUSED, ""), tried.swept(store, who, password))
    for what, words in (("no number", (store, "five")), ("a long number", (store, "0000005")), ("no store", ("",)),
                        ("a long password", (store, PERSON, "p" * 129))):
        status, said = tried.swept(*words)
        tried.same(f"the status of `komd sweep` with {what}", (2, USAGE.decode()), (status, said))
    nothing = tried.folder / "no store"
    tried.same("a store that is not there", (UNFIT, ""), tried.swept(str(nothing)))
    tried.same("whether it is there then", False, nothing.exists())
    with tried.served(store, moment) as (server, session):
        tried.same("what they all leave", made, sorted(stats(session)))
    with open("/dev/full", "w", encoding="ascii") as full:
        tried.same("a report that cannot be written", (UNWRITTEN, ""), tried.swept(store, out=full))
    tried.same("a second sweep by `komd sweep`", (0, "swept 0\nkept 0\n"), tried.swept(store))


# Part 7.

# Runs of numbers, each of which are texts or are not, and the most calls that a walk over them makes.
RUNS = {
    "no numbers": ([], 0),
    "no text": ([(False, 100)], 1),
    "the first text alone": ([(True, 1), (False, 500)], 4),
    "the last text alone": ([(False, 500), (True, 1)], 4),
    "all texts": ([(True, 600)], 610),
    "full parts, and more or less than that": ([(True, 31), (False, 1), (True, 15), (False, 2), (True, 17), (False, 16)], 95),
    "each second one": ([(True, 1), (False, 1)] * 100, 210),
    "each fifth one": ([(True, 1), (False, 4)] * 40, 165),
    "each hundredth one": ([(False, 99), (True, 1)] * 8, 34),
    "few, then many, then few": ([(False, 300), (True, 2), (False, 50), (True, 200), (False, 400), (True, 3), (False, 7)], 250),
}


def random_runs(draw):
    """Runs of some 400 numbers."""
    lengths = [draw.randint(1, draw.choice((1, 3, 20, 60))) for _ in range(30)]
    return [(bool(place % 2), length) for place, length in enumerate(lengths)], sum(lengths) + 60


def try_numbers(tried):
    """Part 7: numbers of which few are texts."""
    draw = random.Random(1)
    for what, (runs, most) in {**RUNS, **{f"runs {seed}": random_runs(draw) for seed in range(6)}}.items():
        with tried.served() as (server, session):
            kept, short = conference(session, "kept", FOR_EVER, FOR_EVER), conference(session, "short", 1, 1)
            are = [is_text for is_text, length in runs for _ in range(length)]
            session.ask_all([f"86 1Hx 1 {{ 0 {draw.choice((kept, short, short))} }} 0 {{ }}" for _ in are])
            session.ask_all([f"29 {number}" for number, is_text in enumerate(are, 1) if not is_text])
            tried.clock.go_on(5 * DAY)
            due, texts = model(session, tried.clock.moment), stats(session)
            calls = collections.Counter()
            with Relay(server.port, lambda line: calls.update(line.split()[1:2])) as relay:
                tried.same(f"what is listed of {what}", (due, f"due {len(due)} kept {sum(are) - len(due)}"), tried.said("--port", relay.number()))
            tried.same(f"whether the walk over {what} makes too many calls", (False, False),
                       (calls["60"] + calls["90"] > most, relay.most > UNDER_WAY))
            said = f"swept {len(due)} kept {sum(are) - len(due)}"
            tried.same(f"what is swept of {what}", ([], said), tried.said("--port", server.port, "--delete"))
            tried.same(f"what is left of {what}", without(texts, due), stats(session))


def try_strings(tried):
    """Part 7: texts that are told with strings."""
    draw = random.Random(2)
    pieces = ("\n", "H", "9H", "12H", " } 0 *\n", "=1 2 3\n", "%3 14 1\n", ":1 5", "ordinary", " ")
    with tried.served() as (server, session):
        short = conference(session, "short", 1, 1)
        for number in range(120):
            content = "".join(draw.choices(pieces, k=draw.randint(0, 6)))
            write(session, short, items=item(2, draw.choice((SECRET, DONT_GARB)), content) if number % 3 else "0 { }",
                  parents=[number] if number % 5 == 4 else [])
        tried.clock.go_on(5 * DAY)
        due, texts = model(session, tried.clock.moment), stats(session)
        tried.same("whether some texts with strings are due, and some are not", True, 40 < len(due) < 110)
        for size in (1, 2, 7, 100, 5000):
            with Relay(server.port, lambda line: None, size=size) as relay:
                tried.same(f"what is listed in pieces of {size} bytes", (due, f"due {len(due)} kept {120 - len(due)}"),
                           tried.said("--port", relay.number()))
        with Relay(server.port, lambda line: None, size=3) as relay:
            tried.same("what is swept in pieces", ([], f"swept {len(due)} kept {120 - len(due)}"), tried.said("--port", relay.number(), "--delete"))
        tried.same("what that leaves", without(texts, due), stats(session))


def random_told(draw):
    """What may be told of a text."""

    def moment():
        year = draw.choice((0, 69, 70, 70, 100, 124, 124, 124))
        return f"{draw.randrange(60)} {draw.randrange(60)} {draw.randrange(24)} {draw.randint(1, 28)} {draw.randrange(12)} {year} 1 2 0"

    def array(rows):
        return f"{len(rows)} {{ {' '.join(rows)} }}" if rows else "0 *"

    misc, is_later = [], draw.random() < 0.2
    for _ in range(draw.choice((0, 1, 1, 1, 2))):
        misc += [f"{draw.choice((0, 0, 1, 15))} {draw.randint(1, 9)}", f"6 {draw.randint(1, 99)}"]
        misc += [f"7 {moment()}", f"8 {draw.randint(1, 9)}", f"9 {moment()}"] if is_later and draw.random() < 0.5 else []
    for _ in range(draw.choice((0, 0, 1, 2))):
        misc.append(f"{draw.choice((2, 2, 4))} {draw.randint(1, 9)}")
        misc += [f"8 {draw.randint(1, 9)}", f"9 {moment()}"][: draw.randint(0, 2)] if is_later else []
    misc += [f"{draw.choice((3, 3, 5))} {draw.randint(1, 9)}" for _ in range(draw.choice((0, 0, 1, 3)))]
    items = [f"{number} 2 5 {moment()} {draw.choice((DONT_GARB, SECRET))} 0 {string(draw.choice(('x', ' } 0 *', '3H', '')))}"
             for number in range(draw.choice((0, 0, 0, 1, 2)))]
    return f"{moment()} 5 1 {draw.randrange(99)} {draw.choice((0, 0, 0, 1))} {array(misc)} {array(items)}\n".encode()


def outcome(work, *given):
    """What a work comes to, or that it finds a fault."""
    try:
        return work(*given)
    except (Broken, ValueError, IndexError):
        return "a fault"


def seen_in_record(told):
    """What is seen of a text, and its head, as it is read as a record."""
    row = text(Reply(told))
    return (row.made, is_held(row), [to.conference for to in row.recipients], [child for _, child in row.children]), (row.made, row.author, row.length)


def try_seen(tried):
    """Part 7: what is split into words, and what is read as a record."""
    draw = random.Random(3)
    for _ in range(1000):
        told, gone = random_told(draw), set(draw.sample(range(1, 10), 3))
        tried.same(f"what is seen of {told}", seen_in_record(told), (seen(told), head_of(told)))
        row, words = text(Reply(told)), told.decode().split()
        # (a number of another text now and then, so that many differ in that alone)
        other = " ".join(draw.choice((word, "7")) if word.isdigit() and draw.random() < 0.05 else word for word in words).encode() + b"\n"
        for now in (told, other, random_told(draw), told_without(told, gone)):
            wanted = outcome(lambda line: text(Reply(line)) == row._replace(
                parents=[one for one in row.parents if one.text not in gone], children=[one for one in row.children if one[1] not in gone]), now)
            tried.same(f"whether {told} is told as {now} without {gone}", wanted or now == told, outcome(is_as_judged, Due(1, told, [], [], 0), now, gone))
    for _ in range(20):
        told = random_told(draw)
        for end in range(len(told)):
            tried.same(f"what is seen of {told[:end]}", outcome(lambda line: seen_in_record(line)[0], told[:end]), outcome(seen, told[:end]))


def plain_told(draw, now):
    """What is told of a text as nearly all are, made some days before a moment or near that, or long ago; now and then with a fault."""
    made = max(now - draw.choice((0, 1, 2, 77, 1000)) * DAY + draw.choice((0, -1, 1, -3600, 3600, draw.randint(-DAY, DAY))), 0)
    clock = time.gmtime(draw.choice((made, made, made, made % DAY)))
    words = [clock.tm_sec, clock.tm_min, clock.tm_hour, clock.tm_mday, clock.tm_mon - 1, clock.tm_year - 1900, 1, 2, 0, 5, 1, 20, 0]
    misc = [(0, draw.randint(1, 9)), (6, draw.randint(1, 99)), *((draw.choice((2, 2, 4)), draw.randint(1, 9)) for _ in range(draw.choice((0, 1, 2))))]
    misc += [(draw.choice((3, 3, 5)), draw.randint(1, 9)) for _ in range(draw.choice((0, 0, 1, 3)))]
    words += [len(misc), "{", *(word for pair in misc for word in pair), "}", 0, "*"]
    place = draw.randrange(len(words))
    if draw.random() < 0.5:
        change = draw.choice(("", 0, 1, 3, 7, 14, 23, 24, 59, 60, 69, 70, "01", "x", "{", "-1", "5 5", "+3", "1_0", "9" * 12))
        words[draw.choice((place, draw.randrange(6), 13))] = change
    return " ".join(map(str, words)).encode() + draw.choice((b"\n",) * 8 + (b" \n",))


def try_plain(tried):
    """Part 7: what is found by a form, and what is read as a record."""
    draw, plain = random.Random(5), 0
    for _ in range(4000):
        now = draw.choice((FIRST, FIRST - FIRST % DAY, FIRST - FIRST % 3600 - 1, draw.randrange(FIRST), draw.randrange(DAY)))
        told = plain_told(draw, now)
        found = FORM.findall(b"=7 " + told)
        judged = Plain(now).judged(found[0]) if found[0][0] else None
        if judged is None:
            continue
        (made, held, recipients, children), _ = seen_in_record(told)
        tried.same(f"what is judged of {told} at {now}", (told, held, recipients, children, max(now - made, 0) // DAY),
                   (found[0][1], judged[0], [*judged[1]], [*judged[2]], judged[3]))
        plain += 1
    tried.same("whether some were found so, and some were not", True, 1500 < plain < 3500)


def random_replies(draw, count):
    """What may be told of the first texts, with what is no reply to that between, and what departs."""
    for reference in range(1, count + 1):
        told = plain_told(draw, FIRST)
        after = b"".join(b"\n=%d %b" % (reference + more, plain_told(draw, FIRST)) for more in range(draw.randint(0, 4)))
        item = b"50 4 5 1 1 100 1 2 0 5 1 20 0 0 * 1 { 1 2 5 50 4 5 1 1 100 1 2 0 00000000 0 %dH%b }" % (len(after), after)
        if draw.random() < 0.1:
            yield b":2 9 5 %dH%b\n" % (len(after), after)
        yield b"=%d %b" % (reference if draw.random() < 0.98 else draw.randint(1, count), told if draw.random() < 0.7 else item + b"\n")
        if draw.random() < 0.1:
            yield b"%%%d 14 %d\n" % (reference, reference)


def told_by(form, data, count, block):
    """What a session makes of bytes as the replies to calls, how many messages it keeps, and the bytes that it leaves."""
    session = protocol_a.Session.__new__(protocol_a.Session)
    session.socket, server = socket.socketpair()
    with session.socket, server, session.socket.makefile("rb", block) as session.file:
        session.reference, session.messages, told = 0, [], []
        server.sendall(data)
        server.shutdown(socket.SHUT_WR)
        with contextlib.suppress(Broken):
            for reply in session.told([(90, number) for number in range(count)], form):
                told.append(reply[1] if isinstance(reply, tuple) else str(reply) if isinstance(reply, Refused) else reply)
        return told, len(session.messages), server.recv(1 << 16), session.file.read() if len(told) == count else b""


def try_replies(tried):
    """Part 7: replies that are taken by a form, and line by line."""
    draw = random.Random(6)
    for _ in range(300):
        data = b"".join(random_replies(draw, 16))
        data = data[: draw.choice((len(data), len(data), draw.randrange(len(data))))]
        block = draw.choice((8, 100, 1000, 1 << 16))
        tried.same(f"what is told of {data} in blocks of {block}", told_by(None, data, 16, block), told_by(FORM, data, 16, block))


def told_without(told, gone):
    """What is told of a text once its links to texts are gone, if these are told by numbers alone."""
    head, brace, rest = told.partition(b" { ")
    head, count = head.rsplit(b" ", 1)
    misc, brace_too, rest = rest.partition(b" }")
    words = misc.split()
    pairs = [pair for pair in zip(words[::2], words[1::2]) if pair[0] not in (b"2", b"3", b"4", b"5") or int(pair[1]) not in gone]
    if not brace or 2 * int(count) != len(words):
        return told
    array = b"%d { %b }" % (len(pairs), b" ".join(b" ".join(pair) for pair in pairs)) if pairs else b"0 *"
    return b"%b %b%b" % (head, array, rest)


def refusing(numbers, code, calls=("90",)):
    """A hook and an answer by which calls for these numbers are refused."""
    references = set()

    def hook(line):
        words = line.split()
        if words[1:] and words[1] in calls and words[2] in numbers:
            references.add(words[0].encode())

    def answer(line):
        reference = line[1:].split()[0] if line[1:].split() else b""
        return b"%%%b %d 0\n" % (reference, code) if line.startswith(b"=") and reference in references else line

    return hook, answer


def try_untold(tried):
    """Part 7: texts that are there and not told."""
    with tried.served() as (server, session):
        room, made = old_texts(tried, session, 40)
        write(session, room, parents=[made[4]])
        session.ask(f"29 {made[20]}")
        hook, answer = refusing({"7", "20", "41"}, 46)
        wanted = [number for number in made if number not in (5, 7, 20, 21)]
        with Relay(server.port, hook, answer) as relay:
            tried.same("what is listed where three texts are not told, one a comment", (wanted, f"due {len(wanted)} kept 4"),
                       tried.said("--port", relay.number()))
        left = stats(session)
        for what, given in (("a refusal of a text and of its number", refusing({"7", "6"}, 6, ("90", "60"))),
                            ("a refusal of all texts", refusing(set(map(str, range(99))), 6, ("90", "60"))),
                            ("a refusal of the number after a gap", refusing({"0"}, 6, ("60",)))):
            with Relay(server.port, *given) as relay:
                tried.refused_at(relay, what, "nothing is due")
        tried.same("what these leave", left, stats(session))


def main(words):
    program = program_of(words)
    stores = int(words[1]) if words[1:] else STORES
    if shutil.which("cc") is None:
        print("there is no C compiler, so no clock was told the time")
        return 0
    limit_seconds(LIMIT_SECONDS)
    with tempfile.TemporaryDirectory(dir=folder_in_memory()) as folder:
        tried = Sweeping(program, pathlib.Path(folder))
        try_conditions(tried)
        try_worked(tried)
        try_random(tried, stores)
        try_changes(tried)
        try_breaks(tried)
        try_copies(tried, *try_words(tried))
        try_full_disk(tried)
        try_own_full_disk(tried)
        try_statuses(tried)
        try_numbers(tried)
        try_strings(tried)
        try_seen(tried)
        try_plain(tried)
        try_replies(tried)
        try_untold(tried)
    print(f"{tried.count} things looked at, {tried.failed} are otherwise")
    return 1 if tried.failed else 0


if __name__ == "__main__":
    script(main, __doc__)
