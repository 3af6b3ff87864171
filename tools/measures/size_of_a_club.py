#!/usr/bin/env python3
"""Measures what a club needs, in bytes: size_of_a_club.py [PROGRAM]

Memory: for each kind of row it makes two stores, by docs/store.md, one with more such rows than the other; it has each of them served,
and prints by how much more is resident, for each row. Disk: it makes calls of each kind, one at a time, and prints by how much the store
is longer after each. Workers: how much more is resident for each, idle, with a session, and after that has written and read a text of
1,000,000 bytes. PROGRAM is the built `komd` unless it is named.
"""
import pathlib
import sys
import tempfile
import time

sys.path.insert(0, str(pathlib.Path(__file__).resolve().parents[1] / "common"))
from built import make_store, program_of, script
from protocol import string
from served import Server, Session

PERSON_BITS, LETTERBOX, OPEN = b"\x1c\x00", 0x98, 0x08
INITIAL_LENGTH = 327
MOMENT = (1).to_bytes(8, "little")


def number(value):
    return value.to_bytes(4, "little")


def numbers(*values):
    return b"".join(map(number, values))


def counted(text):
    return number(len(text)) + text


def conference(place, name, kind, owner):
    return b"\x01" + number(place) + counted(name.encode()) + bytes([kind]) + MOMENT + numbers(owner, owner)


def member(person, place, position):
    return b"\x11" + numbers(person, place, position, 100, person) + MOMENT + b"\x00"


def person(place):
    """A person with a name of 20 bytes, a password and a letterbox of which it is a member."""
    made = b"\x05" + number(place) + PERSON_BITS + b"\x00" + MOMENT + b"\x08" + number(place) + bytes(32)
    return conference(place, f"Person with no. {place:4}", LETTERBOX, place) + made + member(place, place, 0)


def text(place, body):
    """A text of person 5 with one recipient."""
    made = b"\x0b" + numbers(place, 5) + MOMENT + counted(bytes(body))
    return made + b"\x0d" + numbers(place, 4, 0, place, 0) + MOMENT + b"\x18" + numbers(5, place, place)


def persons(count):
    return [person(6 + place) for place in range(count)]


def conferences(count):
    return [conference(6 + place, f"Conference of no. {place:4}", OPEN, 5) for place in range(count)]


def texts(count, body=0):
    return [text(1 + place, body) for place in range(count)]


def recipients(count):
    """A second one of each text."""
    return texts(100000) + [b"\x0d" + numbers(1 + place, 3, 0, 1 + place, 0) + MOMENT for place in range(count)]


def comments(count):
    return texts(count) + [b"\x0f" + numbers(2 + place, 1 + place) + b"\x00" + number(0) + MOMENT for place in range(count - 1)]


def memberships(count):
    """Fifty of each person, whose rows the lesser store has too."""
    made = persons(2000) + [conference(2006 + place, f"Conference {place}", OPEN, 5) for place in range(50)]
    return made + [member(6 + place // 50, 2006 + place % 50, 1 + place % 50) for place in range(count)]


def ranges(count):
    """So many ranges, among 2,000 persons."""
    each = count // 2000
    read = [number(each) + b"".join(numbers(2 * place + 1, 2 * place + 1) for place in range(each))] if each else []
    made = texts(2000) + persons(2000) + [member(6 + place, 4, 1) for place in range(2000)]
    return made + [b"\x13" + numbers(6 + place, 4) + MOMENT + some for place in range(2000) for some in read]


def marks(count):
    return texts(2000) + persons(100) + [b"\x14" + numbers(6 + place // 1000, 1 + place % 1000, 100) for place in range(count)]


def aux_items(count):
    item = number(5) + MOMENT + b"\x00" + number(0) + counted(bytes(20))
    return texts(100000) + [b"\x16\x00" + numbers(1 + place, 1, 3) + item for place in range(count)]


class Club:
    def __init__(self, program, folder):
        self.program, self.store = program, folder / "store"

    def make(self, effects):
        """A store of a new server and then these effects, in one batch."""
        self.store.unlink(missing_ok=True)
        make_store(self.program, self.store)
        body = b"".join(effects)
        with self.store.open("r+b") as file:
            file.seek(INITIAL_LENGTH - 1)
            file.write(b"\x01" + len(body).to_bytes(8, "little") + body + b"\x00")

    def resident(self, effects):
        """The bytes that are resident while a store with these effects is served."""
        self.make(effects)
        server = Server(self.program, self.store, 1)
        try:
            Session(server.port, "size").ask("56")
            return resident(server)
        finally:
            server.kill()


def resident(server):
    return 1024 * server.resident()


def tell_memory(club, alone):
    print(f"memory of a new server with one worker and its session: {alone}")
    for what, made, less, more in [
        ("text of no bytes with one recipient", texts, 100000, 200000),
        ("recipient more", recipients, 0, 100000),
        ("text of 1000 bytes with one recipient", lambda count: texts(count, 1000), 50000, 100000),
        ("link of a comment", lambda count: comments(count) if count else texts(200000), 0, 200000),
        ("person with a letterbox", persons, 30000, 60000),
        ("conference", conferences, 30000, 60000),
        ("membership", memberships, 0, 100000),
        ("range of read texts", ranges, 0, 2000000),
        ("mark", marks, 0, 100000),
        ("aux-item of 20 bytes", aux_items, 0, 100000),
    ]:
        least, most = club.resident(made(less)), club.resident(made(more))
        print(f"memory of each {what}: {(most - least) / (more - less):.0f}")


def tell_disk(club):
    club.make([])
    server = Server(club.program, club.store, 2)
    try:
        session = Session(server.port, "hanna")
        session.ask("62 5 0H 0")
        session.ask("88 4HOpen 00000000 0 { }")
        session.ask("100 6 5 100 0 00000000")
        hundred = string("x" * 100)
        for what, call in [
            ("login of a user of 5 bytes", "62 5 0H 0"),
            ("person with a name and a password of 10 bytes", "89 10HPerson one 10H0123456789 00000000 0 { }"),
            ("conference with a name of 10 bytes", "88 10HConference 00000000 0 { }"),
            ("membership", "100 8 5 100 0 00000000"),
            ("text of 100 bytes, to one conference", f"86 {hundred} 1 {{ 0 6 }} 0 {{ }}"),
            ("text of 200 bytes, to one conference", f"86 {hundred.replace('100H', '200H')}{'x' * 100} 1 {{ 0 6 }} 0 {{ }}"),
            ("text of 100 bytes, to two conferences", f"86 {hundred} 2 {{ 0 6 0 4 }} 0 {{ }}"),
            ("comment of 100 bytes, to one conference", f"86 {hundred} 2 {{ 0 6 2 1 }} 0 {{ }}"),
            ("text that is fetched", "25 1 0 99"),
            ("text that is marked as read, after which there is one range", "27 6 1 { 1 }"),
            ("text that is marked as read, after which there are two ranges", "27 6 1 { 3 }"),
            ("mark", "72 1 100"),
            ("aux-item of 20 bytes", f"92 1 0 {{ }} 1 {{ 3 00000000 0 {string('x' * 20)} }}"),
        ]:
            before = club.store.stat().st_size
            session.ask(call)
            print(f"disk for each {what}: {club.store.stat().st_size - before}")
        session.ask("62 5 0H 0")
        before = club.store.stat().st_size
        time.sleep(1.5)
        session.ask("1")
        print(f"disk for each logout after a second or more: {club.store.stat().st_size - before}")
    finally:
        server.kill()


def tell_workers(club, alone):
    workers = 64
    club.make([])
    server = Server(club.program, club.store, workers)
    try:
        Session(server.port, "size").socket.close()
        idle = resident(server)
        print(f"memory of each worker: {(idle - alone) / (workers - 1):.0f}")
        sessions = [Session(server.port, "size") for _ in range(workers - 1)]
        for session in sessions:
            session.ask("62 5 0H 0")
        with_sessions = resident(server)
        print(f"memory of each session: {(with_sessions - idle) / (workers - 1):.0f}")
        body = string("x" * 1000000)
        for session in sessions:
            place = session.ask(f"86 {body} 0 {{ }} 0 {{ }}")
            session.ask(f"25 {place} 0 1000000")
        more = (resident(server) - with_sessions) / (workers - 1) - 1000000
        print(f"memory of each worker that has written and read a text of 1000000 bytes, beside it: {more:.0f}")
    finally:
        server.kill()


def main(words):
    program = program_of(words)
    with tempfile.TemporaryDirectory() as folder:
        club = Club(program, pathlib.Path(folder))
        alone = club.resident([])
        tell_memory(club, alone)
        tell_disk(club)
        tell_workers(club, alone)


if __name__ == "__main__":
    script(main, __doc__)
