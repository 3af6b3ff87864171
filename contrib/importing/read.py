"""Reads a club from its server, by calls of an administrator, into the work file of komd-import.

Numbers are asked for from the lowest on, some of them together. With what they answer it is stored how far that is, so a reading that
was interrupted goes on from there, and one whose connection broke connects again and asks for the same numbers once more."""
import time

from protocol_a import (
    INDEX_OUT_OF_RANGE, LONG_ARRAY, NO_SUCH_LOCAL_TEXT, NO_SUCH_TEXT, UNDEFINED_CONFERENCE, UNDEFINED_PERSON, Refused, Session,
    conference, mapping, mark, member, membership, person, string, text,
)
from tool import Progress, Trouble

USER = b"komd-import"
# How many numbers are asked for together; how many elements of a list.
TOGETHER, PAGE = 64, 200
# After how many seconds a broken connection is tried again, and by how many the two clocks may differ.
PAUSES, CLOCKS = (0, 1, 2, 5, 10, 20), 600
LETTERBOX, STRONG = 16, 255
TAGS = {1, 2, 3, 4, 5, 6, 7, 8, 10, 13, 14, 15}
DELETED, FLAGS = 0x80, 0xF8
EVERYTHING = (0, 2**32 - 1)


class Old:
    """The old server, asked by an administrator."""

    def __init__(self, host, port, administrator, password):
        self.host, self.port, self.administrator, self.password = host, port, administrator, password
        self.session, self.was_reached = None, False

    def connect(self):
        session = Session(self.host, self.port, USER)
        try:
            for call in self.entrance():
                session.ask(*call)
        except BaseException:
            session.close()
            raise
        self.session, self.was_reached = session, True

    def entrance(self):
        """The calls by which the administrator comes in."""
        return [(62, self.administrator, string(self.password), 1), (42, STRONG)]

    def ask_all(self, calls):
        """Replies and refusals; where the connection breaks all is asked once more on a new one."""
        for place, pause in enumerate(PAUSES):
            try:
                if self.session is None:
                    time.sleep(pause)
                    self.connect()
                return self.session.ask_all(calls)
            except Refused as refusal:
                raise Trouble(f"person {self.administrator} cannot come in with this password: {refusal}") from None
            except OSError as fault:
                if self.session is not None:
                    self.session.close()
                    self.session = None
                if not self.was_reached or place + 1 == len(PAUSES):
                    raise Trouble(f"the old server is not reached: {fault}") from None

    def ask(self, call, *arguments, but=()):
        """A reply, or None where the call is refused with one of these codes."""
        return good(self.ask_all([(call, *arguments)])[0], but)

    def close(self):
        if self.session is not None:
            self.session.close()


def good(reply, but=()):
    """A reply, or None for a refusal with one of these codes."""
    if isinstance(reply, Refused):
        if reply.code in but:
            return None
        raise Trouble(f"the old server does not tell everything: {reply}; is the person an administrator there?")
    return reply


def read_club(old, work):
    """Reads all that is not in the work file yet."""
    ends = tuple(old.ask(call).number() for call in (114, 115))
    source = f"{old.host} {old.port} {old.administrator} {ends}"
    if work.get("source", source) != source:
        raise Trouble(f"{work.path} is of another server, or something was made on that one since: remove it and begin anew")
    away = abs(old.ask(35).moment() - time.time())
    if away > CLOCKS:
        raise Trouble(f"the old server tells a time that is {away:.0f} seconds away, so its moments would be wrong: start it with TZ=UTC")
    with work.step():
        work.set("source", source)
        work.set("next conference", ends[0])
        work.set("next text", ends[1])
    for_all(work, "conferences", range(1, ends[0]), lambda numbers: read_conferences(old, work, numbers))
    persons = [row[0] for row in work.select("SELECT number FROM person ORDER BY number")]
    conferences = [row[0] for row in work.select("SELECT number FROM conference ORDER BY number")]
    for_each(work, "lists of texts", persons, lambda number: read_created(old, work, number))
    for_each(work, "lists of memberships", persons, lambda number: read_memberships(old, work, number))
    for_each(work, "lists of members", conferences, lambda number: read_members(old, work, number))
    known = set(conferences)
    for_all(work, "texts", range(1, ends[1]), lambda numbers: read_texts(old, work, numbers, known))
    # (last, since each person is logged in for its marks: before that the moments of the last logins were read)
    marking = [row[0] for row in work.select("SELECT number FROM person WHERE marks > 0 ORDER BY number")]
    for_each(work, "lists of marks", marking, lambda number: read_marks(old, work, number))
    if tuple(old.ask(call).number() for call in (114, 115)) != ends:
        raise Trouble(f"something was made on the old server meanwhile: remove {work.path} and begin anew")


def for_all(work, what, numbers, read):
    """Reads these numbers, some together."""
    progress = Progress(what)
    while (done := work.get(what, 0)) < len(numbers):
        part = numbers[done : done + TOGETHER]
        with work.step():
            read(part)
            work.set(what, done + len(part))
        progress.tell(done + len(part), len(numbers))
    progress.end()


def for_each(work, what, numbers, read):
    """The same one by one."""
    for_all(work, what, numbers, lambda part: [read(number) for number in part])


def read_conferences(old, work, numbers):
    """Conferences, and the persons whose letterboxes they are."""
    replies = old.ask_all([(call, number) for number in numbers for call in (91, 78, 49)])
    for number, told, brief, owner in zip(numbers, replies[0::3], replies[1::3], replies[2::3]):
        if (told := good(told, [UNDEFINED_CONFERENCE])) is None:
            continue
        row, brief = conference(told), good(brief)
        brief.word(), brief.bits(8)
        work.add("conference", (
            number, row.name, row.kind, row.made, row.last, row.creator, row.presentation,
            row.supervisor, row.submitters, row.super_conference, row.motd, row.nice, row.keep, row.expire, brief.number()))
        add_items(work, True, number, row.items)
        if row.kind & LETTERBOX and (owner := good(owner, [UNDEFINED_PERSON])) is not None:
            row = person(owner)
            work.add("person", (number, *row[:13], row.first_created + row.created - 1, row.marks, None))


def add_items(work, on_conference, number, items):
    """The aux-items whose tags komd knows, without the bits of their flags that mean nothing."""
    for item in items:
        if item.tag not in TAGS:
            work.tell(f"aux-items of tag {item.tag}")
        elif item.flags & DELETED:
            work.tell("aux-items that are marked as deleted")
        else:
            work.add("item", (on_conference, number, *item._replace(flags=item.flags & FLAGS)))


def read_created(old, work, number):
    """The texts that a person made, by their numbers among them."""
    first, later = 1, True
    while later:
        reply = old.ask(104, number, first, 255, but=[INDEX_OUT_OF_RANGE, NO_SUCH_LOCAL_TEXT])
        if reply is None:
            break
        pairs, first, later = mapping(reply)
        for local, made in pairs:
            if made:
                work.add("created", (number, local, made))


def pages(old, call, number, element, *more):
    """The elements of a list, of which parts are asked for; smaller parts where a reply would be too long."""
    first, count = 0, PAGE
    while True:
        reply = old.ask_all([(call, number, first, count, *more)])[0]
        if isinstance(reply, Refused) and reply.code == LONG_ARRAY and count > 1:
            count //= 2
            continue
        reply = good(reply, [INDEX_OUT_OF_RANGE])
        found = reply.many(element) if reply else []
        yield from found
        if len(found) < count:
            return
        first += count


def read_memberships(old, work, number):
    for place, row in enumerate(pages(old, 108, number, membership, 1, 0)):
        ranges = b"".join(first.to_bytes(4, "little") + last.to_bytes(4, "little") for first, last in rising(row.ranges))
        work.add("membership", (
            number, row.conference, place, row.priority, row.added_by, row.added_at, row.kind, row.read_at, ranges))


def rising(ranges):
    """The same numbers in ranges that rise, without the number 0."""
    found = []
    for first, last in sorted(ranges):
        first = max(first, 1)
        if found and first <= found[-1][1] + 1:
            found[-1] = (found[-1][0], max(last, found[-1][1]))
        elif first <= last:
            found.append((first, last))
    return found


def read_members(old, work, number):
    for place, row in enumerate(pages(old, 101, number, member)):
        work.add("member", (number, place, row.person))


def read_texts(old, work, numbers, conferences):
    replies = old.ask_all([call for number in numbers for call in ((90, number), (25, number, *EVERYTHING))])
    for number, told, body in zip(numbers, replies[0::2], replies[1::2]):
        if (told := good(told, [NO_SUCH_TEXT])) is None:
            continue
        row = text(told)
        work.add("text", (number, row.author, row.made, good(body).word()))
        add_items(work, False, number, row.items)
        add_links(work, number, row, conferences)


def add_links(work, number, row, conferences):
    there = [to for to in row.recipients if to.conference in conferences]
    work.tell("recipients that are gone", len(row.recipients) - len(there))
    work.tell("moments of receipt", row.receipts)
    for place, to in enumerate(there):
        work.add("recipient", (number, place, to.conference, to.tag, to.local, *sender(to, row)))
    for place, parent in enumerate(row.parents):
        work.add("parent", (number, parent.footnote, place, parent.text, *sender(parent, row)))
    for place, (is_footnote, child) in enumerate(row.children):
        work.add("child", (number, is_footnote, child, place))


def sender(link, row):
    """Who made a link later, and when; lyskomd leaves out that it was the author. Else 0, and when the text was made."""
    return (0, row.made) if link.sent is None else (link.sender or row.author, link.sent)


def read_marks(old, work, number):
    """The marks of a person, which are told to itself alone."""
    *entered, _, marks = old.ask_all([*old.entrance(), (62, number, string(b""), 1), (23,)])
    for reply in entered:
        good(reply)
    for marked, kind in good(marks).many(mark):
        work.add("mark", (number, marked, kind))
