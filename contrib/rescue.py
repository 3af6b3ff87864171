#!/usr/bin/env python3
"""Makes a person of a store an administrator with a new password, while no server has the store open:

    rescue.py STORE           tells what the store holds, and which persons have the privilege wheel or admin; it changes nothing
    rescue.py STORE PERSON    reads a password of 1 to 128 bytes from the terminal, where it is not shown, or a line of standard input,
                              and appends a batch that sets it and gives the person all privileges of a new server's person 5

It knows the store by docs/store.md alone. It repairs an end that a stop left, as an opening does, and refuses a file that is no
store or breaks off inside; whether each effect fits is for `komd check` to say, which should be run before and after. Keep a copy of
the store first. On the terminal the password is taken as ISO 8859-1, as clients send it; from elsewhere as the bytes that come.

The status is 0, 2 for other words, 3 if the file failed or another process has it open, 4 if it is no store or a damaged one, and 1
if the person is not there or what was given is no password.
"""
import fcntl
import getpass
import hashlib
import mmap
import os
import sys

HEADER = b"KOMSTORE" + (1).to_bytes(4, "little") + bytes(4)
LONGEST_FILE = 2**40
LONGEST_PASSWORD = 128
LAST_MOMENT = 253402300799
WHEEL, ADMIN = 0x8000, 0x4000
ALL_PRIVILEGES = 0xFC00

# The greatest value of each part, from part 1 on.
LAST_NUMBER, LAST_AMOUNT = 2**32 - 1, 2**64 - 1
CONFERENCE_PARTS = (*[LAST_NUMBER] * 5, 255, *[LAST_NUMBER] * 3, LAST_MOMENT)
PERSON_PARTS = (0xFFFF, 255, LAST_NUMBER)
COUNTERS = (LAST_AMOUNT,) * 7

# The kinds of effects by the table of docs/store.md, with their fields in order.
KINDS = {
    1: ("number", "name", "byte", "moment", "number", "number"),
    2: ("number",),
    3: ("number", "name"),
    4: ("number", CONFERENCE_PARTS),
    5: ("number", "privileges", "byte", "moment"),
    6: ("number",),
    7: ("number", PERSON_PARTS),
    8: ("number", "hash"),
    9: ("number", "moment", "user"),
    10: ("number", COUNTERS),
    11: ("number", "number", "moment", "body"),
    12: ("number",),
    13: ("number", "number", "small", "number", "number", "moment"),
    14: ("number", "number"),
    15: ("number", "number", "flag", "number", "moment"),
    16: ("number", "number", "flag"),
    17: ("number", "number", "number", "small", "number", "moment", "byte"),
    18: ("number", "number"),
    19: ("number", "number", "moment", "ranges"),
    20: ("number", "number", "small"),
    21: ("number", "number"),
    22: ("flag", "number", "number", "number", "number", "moment", "byte", "number", "contents"),
    23: ("flag", "number", "number"),
    24: ("number", "number", "number"),
}
LENGTHS = {"number": 4, "small": 4, "byte": 1, "flag": 1, "privileges": 2, "moment": 8, "hash": 32}
LONGEST = {"name": 60, "user": 1024, "body": 1048576, "contents": 16384}


class Unfit(Exception):
    """The file is no store, or a damaged one."""


def number(held, at, length):
    return int.from_bytes(held[at : at + length], "little")


def field_end(held, at, end, kind):
    """Where a field ends that begins at a place."""
    if kind in LENGTHS:
        after = at + LENGTHS[kind]
    elif kind in LONGEST:
        if at + 4 > end or number(held, at, 4) > LONGEST[kind]:
            raise Unfit
        after = at + 4 + number(held, at, 4)
    elif kind == "ranges":
        after = at + 4 + 8 * number(held, at, 4)
    else:
        after = at + 9
    if after > end:
        raise Unfit
    greatest = {"flag": 1, "small": 255, "moment": LAST_MOMENT}.get(kind)
    if greatest is not None and number(held, at, LENGTHS[kind]) > greatest:
        raise Unfit
    if isinstance(kind, tuple) and not (1 <= held[at] <= len(kind) and number(held, at + 1, 8) <= kind[held[at] - 1]):
        raise Unfit
    return after


class Rows:
    """What a store holds, as far as is needed here."""

    def __init__(self):
        self.batches, self.conferences, self.persons, self.texts = 0, {}, {}, 0

    def read_batch(self, held, at, end):
        """Reads the effects from one place to another."""
        while at < end:
            kind = held[at]
            if kind not in KINDS:
                raise Unfit
            places = [at + 1]
            for field in KINDS[kind]:
                places.append(field_end(held, places[-1], end, field))
            self.note(kind, held, places)
            at = places[-1]
        self.batches += 1

    def note(self, kind, held, places):
        """Takes an effect in, whose fields begin at these places."""
        first = number(held, places[0], 4)
        if kind in (1, 3):
            self.conferences[first] = bytes(held[places[1] + 4 : places[2]])
        elif kind == 2:
            del self.conferences[first]
        elif kind == 5:
            self.persons[first] = int.from_bytes(held[places[1] : places[2]], "big")
        elif kind == 6:
            del self.persons[first]
        elif kind == 7 and held[places[1]] == 1:
            self.persons[first] = number(held, places[1] + 1, 8)
        elif kind == 11:
            self.texts += 1
        elif kind == 12:
            self.texts -= 1

    def print(self):
        print(f"batches {self.batches}\nconferences {len(self.conferences)}\npersons {len(self.persons)}\ntexts {self.texts}")
        for person, privileges in sorted(self.persons.items()):
            if privileges & (WHEEL | ADMIN):
                name = self.conferences.get(person, b"").decode("latin-1")
                print(f"administrator {person} {name}")


def read_store(held):
    """The rows of a store, and the place of the gate that ends its batches."""
    if len(held) <= len(HEADER) or held[: len(HEADER)] != HEADER:
        raise Unfit("no store")
    rows, gate = Rows(), len(HEADER)
    while held[gate] == 1:
        body = gate + 9
        end = body + number(held, gate + 1, 8)
        if end >= len(held):
            raise Unfit(f"a batch without an end at {gate}")
        try:
            rows.read_batch(held, body, end)
        except (Unfit, KeyError):
            raise Unfit(f"no effect in the batch at {gate}") from None
        gate = end
    return rows, gate


def write(file, at, data):
    while data:
        count = os.pwrite(file, data, at)
        data, at = data[count:], at + count
    os.fsync(file)


def repair(file, gate, is_closed):
    """Leaves the file with a closed gate as its last byte."""
    if not is_closed:
        write(file, gate, b"\x00")
    if os.fstat(file).st_size > gate + 1:
        os.ftruncate(file, gate + 1)
        os.fsync(file)


def append(file, gate, body):
    """Appends a batch after a closed gate: first all but its open gate, and when that is stored the gate."""
    if gate + 9 + len(body) + 1 > LONGEST_FILE:
        raise OSError("the store would be too long")
    write(file, gate + 1, len(body).to_bytes(8, "little") + body + b"\x00")
    write(file, gate, b"\x01")


def new_rights(person, password):
    """The effects that set a password and give all privileges."""
    name = person.to_bytes(4, "little")
    hashed = hashlib.sha256(person.to_bytes(4, "big") + password).digest()
    return b"\x08" + name + hashed + b"\x07" + name + b"\x01" + ALL_PRIVILEGES.to_bytes(8, "little")


def read_password():
    if not sys.stdin.isatty():
        return sys.stdin.buffer.readline().rstrip(b"\n")
    once = getpass.getpass("New password: ")
    if getpass.getpass("Again: ") != once:
        sys.exit("the two are different")
    try:
        return once.encode("latin-1")
    except UnicodeEncodeError:
        sys.exit("a password has letters of ISO 8859-1 alone")


def rescue(file, person):
    """Tells what the store holds, or makes a person of it an administrator."""
    try:
        fcntl.flock(file, fcntl.LOCK_EX | fcntl.LOCK_NB)
    except BlockingIOError:
        raise OSError("a server, or another program, has the store open: systemctl stop komd") from None
    os.fsync(file)
    if os.fstat(file).st_size == 0:
        raise Unfit("no store")
    with mmap.mmap(file, 0, access=mmap.ACCESS_READ) as held:
        rows, gate = read_store(held)
        is_closed = held[gate] == 0
    if person is None:
        rows.print()
        return
    if person not in rows.persons:
        sys.exit(f"no person {person} in this store")
    password = read_password()
    if not 1 <= len(password) <= LONGEST_PASSWORD:
        sys.exit(f"a password has 1 to {LONGEST_PASSWORD} bytes")
    repair(file, gate, is_closed)
    append(file, gate, new_rights(person, password))
    print(f"person {person} is an administrator")


def main(words):
    if words == ["--help"]:
        print(__doc__.strip())
        return 0
    if not 1 <= len(words) <= 2 or not all(word.isascii() and word.isdigit() for word in words[1:]):
        print(f"usage: {os.path.basename(sys.argv[0])} STORE [PERSON]", file=sys.stderr)
        return 2
    try:
        file = os.open(words[0], os.O_RDWR | os.O_CLOEXEC)
        try:
            rescue(file, int(words[1]) if len(words) == 2 else None)
        finally:
            os.close(file)
    except FileNotFoundError as fault:
        print(fault, file=sys.stderr)
        return 4
    except OSError as fault:
        print(f"{words[0]}: {fault}" if fault.filename is None else fault, file=sys.stderr)
        return 3
    except Unfit as fault:
        print(f"{words[0]}: {fault}", file=sys.stderr)
        return 4
    return 0


if __name__ == "__main__":
    sys.exit(main(sys.argv[1:]))
