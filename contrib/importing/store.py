"""Writes the club of a work file as a store of version 1 (docs/store.md), in an order in which each effect fits."""
import bisect
import collections
import hashlib
import heapq
import itertools
import struct
from array import array

from importing.limits import MOST_RECIPIENTS
from tool import Progress

HEADER = b"KOMSTORE" + struct.pack("<II", 1, 0)
BATCH = 1 << 20
# The parts of a conference that are set by an effect of their own, with the values that a new one has.
CONFERENCE_PARTS = {"presentation": (1, 0), "motd": (2, 0), "submitters": (4, 0), "super_conference": (5, 0), "nice": (7, 77),
                    "keep": (8, 77), "expire": (9, 0)}
LAST_WRITTEN, USER_AREA = 10, 3
COUNTERS = ("present", "lines", "bytes", "read", "fetched", "persons", "conferences")

CONFERENCES = """SELECT conference.number, name, kind, made, creator, supervisor, privileges, flags, login
    FROM conference LEFT JOIN person USING (number) ORDER BY number"""
# Recipients with their places among those of their conference, and links with theirs among those of their parent.
RECIPIENTS = """SELECT text, conference, tag, local, sender, at, row_number() OVER (PARTITION BY conference ORDER BY local) - 1
    FROM recipient ORDER BY text, place"""
LINKS = """SELECT child, parent, footnote, sender, at, row_number() OVER (PARTITION BY parent, footnote ORDER BY child.place) - 1
    FROM parent JOIN child USING (child, parent, footnote) ORDER BY child, footnote, parent.place"""
CREATED = """SELECT person, local, text FROM created JOIN text ON text = number AND person = author ORDER BY person, local"""
MEMBERSHIPS = """SELECT person, conference, membership.place, priority, added_by, added_at, kind, read_at, ranges
    FROM member JOIN membership USING (person, conference) ORDER BY conference, member.place"""
# The last numbers that were drawn, where what they were drawn for is gone.
LAST_CREATED = f"""SELECT number, highest FROM person LEFT JOIN (SELECT person, max(local) AS top FROM ({CREATED}) GROUP BY person)
    ON person = number WHERE highest > ifnull(top, 0) ORDER BY number"""
LAST_LOCALS = """SELECT number, highest FROM conference
    LEFT JOIN (SELECT conference, max(local) AS top FROM recipient GROUP BY conference) ON conference = number
    WHERE highest > ifnull(top, 0) ORDER BY number"""
# A text that may have a conference as its recipient.
OTHER_TEXT = f"""SELECT number FROM text WHERE number NOT IN (SELECT text FROM recipient WHERE conference = ?)
    AND (SELECT count(*) FROM recipient WHERE text = number) < {MOST_RECIPIENTS} LIMIT 1"""


class Store:
    """The file: batches of effects, each of about a million bytes."""

    def __init__(self, file):
        self.file, self.effects, self.size = file, [], 0
        file.write(HEADER)

    def add(self, kind, form, *fields, text=None, data=b""):
        """An effect, whose fields have this form, and after them a text, or data."""
        effect = struct.pack("<B" + form, kind, *fields) + data
        if text is not None:
            effect += struct.pack("<I", len(text)) + text
        self.effects.append(effect)
        self.size += len(effect)
        if self.size > BATCH:
            self.end_batch()

    def end_batch(self):
        if self.effects:
            self.file.write(b"\1" + struct.pack("<Q", self.size))
            self.file.writelines(self.effects)
            self.effects, self.size = [], 0

    def end(self):
        self.end_batch()
        self.file.write(b"\0")


def write_club(work, file, password_of):
    """All of the club, with the passwords that persons have by their numbers."""
    store = Store(file)
    write_conferences(work, store)
    drawn = Drawn(work)
    write_texts(work, store, drawn)
    write_recipients(work, store)
    write_links(work, store)
    write_last_locals(work, store, drawn)
    write_created(work, store, drawn)
    for number in drawn.numbers:
        store.add(12, "I", number)
    write_memberships(work, store)
    for row in work.select("SELECT person, text, kind FROM mark JOIN text ON text = number ORDER BY person, text"):
        store.add(20, "III", *row)
    for *fields, content in work.select("SELECT * FROM item ORDER BY on_conference, object, number"):
        store.add(22, "BIIIIQBI", *fields, text=content)
    write_parts(work, store)
    write_persons(work, store, password_of)
    store.end()


def write_conferences(work, store):
    """Conferences and persons, and the last number that was drawn, where its conference is gone."""
    number = 0
    for number, name, kind, made, creator, supervisor, privileges, flags, login in work.select(CONFERENCES):
        store.add(1, f"II{len(name)}sBQII", number, len(name), name, kind, made, creator, supervisor)
        if privileges is not None:
            store.add(5, "I2sBQ", number, privileges.to_bytes(2, "big"), flags, login)
    last = work.get("next conference") - 1
    if last > number:
        store.add(1, "IIBQII", last, 0, 0, 0, 0, 0)
        store.add(2, "I", last)


class Drawn:
    """Texts that are gone, and are made and taken away again so that numbers which were drawn for them are given to no other one: the
    last number of a text; the last local number of a conference; the last one among the texts of a person."""

    def __init__(self, work):
        self.lasts = work.select(LAST_CREATED).fetchall()
        # (a server that tells of no text that is gone has no such person)
        self.numbers = list(itertools.islice(numbers_gone(work), max(len(self.lasts), 1)))

    def texts(self):
        """These texts by rising numbers, each with the author whose last number it takes."""
        authors = itertools.chain((person for person, _ in self.lasts), itertools.repeat(0))
        return sorted((number, author, 0, b"") for number, author in zip(self.numbers, authors))


def numbers_gone(work):
    """The numbers of texts that are gone, from the last one on downwards."""
    after = work.get("next text")
    for (number,) in work.select("SELECT number FROM text ORDER BY number DESC"):
        yield from range(after - 1, number, -1)
        after = number
    yield from range(after - 1, 0, -1)


def write_texts(work, store, drawn):
    progress = Progress("writing texts")
    texts = heapq.merge(work.select("SELECT * FROM text ORDER BY number"), drawn.texts(), key=lambda row: row[0])
    for number, author, made, body in progress.over(texts, work.one("SELECT count(*) FROM text")):
        store.add(11, "IIQ", number, author, made, text=body)


def in_one_order(rows, groups):
    """All rows in an order in which those of each chain, and those of each group, have the order of their own. A row is its chain, its
    group, a number below `groups`, its place there, from 0 on, and what is yielded; chain by chain, in order. A chain waits where the
    next of its rows has others of its group before it; what waits is all that is held here."""
    reached, waiting = array("I", bytes(4 * groups)), {}
    for _, chain in itertools.groupby(rows, key=lambda row: row[0]):
        ready = [list(chain)[::-1]]
        while ready:
            left = ready.pop()
            while left and reached[left[-1][1]] == left[-1][2]:
                _, group, place, row = left.pop()
                yield row
                reached[group] = place + 1
                if (group, place + 1) in waiting:
                    ready.append(waiting.pop((group, place + 1)))
            if left:
                waiting[left[-1][1:3]] = left
    # (where the two orders contradict each other that of the groups is kept)
    for *_, row in sorted((row for left in waiting.values() for row in left), key=lambda row: row[1:3]):
        yield row


def write_recipients(work, store):
    rows = ((row[0], row[1], row[-1], row[:-1]) for row in work.select(RECIPIENTS))
    progress = Progress("writing recipients")
    ordered = in_one_order(rows, work.get("next conference"))
    for row in progress.over(ordered, work.one("SELECT count(*) FROM recipient")):
        store.add(13, "IIIIIQ", *row)


def write_links(work, store):
    rows = ((row[0] * 2 + row[2], row[1] * 2 + row[2], row[-1], row[:-1]) for row in work.select(LINKS))
    for row in in_one_order(rows, 2 * work.get("next text")):
        store.add(15, "IIBIQ", *row)


def write_last_locals(work, store, drawn):
    for number, last in work.select(LAST_LOCALS).fetchall():
        # (the text of that local number is gone, or it is no recipient any more)
        found = drawn.numbers[:1] or work.select(OTHER_TEXT, number).fetchone()
        store.add(13, "IIIIIQ", found[0], number, 0, last, 0, 0)
        store.add(14, "II", found[0], number)


def write_created(work, store, drawn):
    for row in work.select(CREATED):
        store.add(24, "III", *row)
    for (person, last), number in zip(drawn.lasts, drawn.numbers):
        store.add(24, "III", person, last, number)


def write_memberships(work, store):
    """Each at its place among those of its person that stand already, by the order of joining in each conference."""
    places = collections.defaultdict(list)
    for person, conference, place, priority, added_by, added_at, kind, read_at, ranges in work.select(MEMBERSHIPS):
        position = bisect.bisect(places[person], place)
        places[person].insert(position, place)
        store.add(17, "IIIIIQB", person, conference, position, priority, added_by, added_at, kind)
        if ranges or read_at != added_at:
            store.add(19, "IIQI", person, conference, read_at, len(ranges) // 8, data=ranges)


def write_parts(work, store):
    columns = ", ".join(CONFERENCE_PARTS)
    for number, made, last, *values in work.select(f"SELECT number, made, last, {columns} FROM conference ORDER BY number"):
        for (part, usual), value in zip(CONFERENCE_PARTS.values(), values):
            if value != usual:
                store.add(4, "IBQ", number, part, value)
        if last != made:
            store.add(4, "IBQ", number, LAST_WRITTEN, last)


def write_persons(work, store, password_of):
    query = f"SELECT number, user, login, area, sessions, {', '.join(COUNTERS)} FROM person ORDER BY number"
    for number, user, login, area, sessions, *counters in work.select(query):
        hashed = hashlib.sha256(number.to_bytes(4, "big") + password_of[number]).digest()
        store.add(8, "I32s", number, hashed)
        if area:
            store.add(7, "IBQ", number, USER_AREA, area)
        for _ in range(sessions - 1):
            store.add(9, "IQ", number, login, text=b"")
        if sessions:
            store.add(9, "IQ", number, login, text=user)
        for part, count in enumerate(counters, 1):
            if count:
                store.add(10, "IBQ", number, part, count)
