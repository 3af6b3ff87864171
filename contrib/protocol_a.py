"""LysKOM Protocol A, version 11, as a client speaks it: sessions, and the records that replies are made of.

The tools beside this file share it. Strings are bytes, since the protocol has letters of no alphabet; moments are seconds since 1970."""
import calendar
import functools
import re
import socket
from typing import NamedTuple

# How long an answer may take, in seconds, and how many bytes are read at once.
PATIENCE, BLOCK = 120, 1 << 16
STRING = re.compile(rb"(\d+)H")
TOKEN = re.compile(rb" *(?:(\d+)H|([^ \n]+))")
# The numbers of a clock by their words.
SIXTY = {b"%d" % number: number for number in range(60)}
# What a call is refused with, where a tool asks.
UNDEFINED_CONFERENCE, UNDEFINED_PERSON, NO_SUCH_TEXT, NO_SUCH_LOCAL_TEXT, INDEX_OUT_OF_RANGE, LONG_ARRAY = 9, 10, 14, 16, 19, 46


class Refused(Exception):
    """A call was refused."""

    def __init__(self, call, code, status):
        super().__init__(f"call {call} was refused with error {code}, status {status}")
        self.call, self.code, self.status = call, code, status


class Broken(OSError):
    """The connection ended, or what came departs from the protocol."""


def string(data):
    """A string as it is sent."""
    return b"%dH%b" % (len(data), data)


def array(items):
    """An array as it is sent, of numbers or of what is spelled already."""
    spelled = [spell(item) for item in items]
    return b"%d { %b }" % (len(spelled), b" ".join(spelled)) if spelled else b"0 { }"


def spell(argument):
    """A number, or what is spelled already."""
    return b"%d" % argument if isinstance(argument, int) else argument


@functools.lru_cache(1 << 14)
def midnight(day, month, year):
    """The moment at which a day began, by three words of a Time. (A server that has no moment tells that of the year 0 or 70.)"""
    try:
        return calendar.timegm((int(year) + 1900, int(month) + 1, int(day), 0, 0, 0)) if int(year) else float("-inf")
    except OverflowError:
        raise ValueError("a year that no calendar has") from None


def moment_of(words):
    """The moment that the first words of a Time tell."""
    second, minute, hour, day, month, year = words[:6]
    try:
        since = SIXTY[second] + 60 * SIXTY[minute] + 3600 * SIXTY[hour]
    except KeyError:
        since = int(second) + 60 * int(minute) + 3600 * int(hour)
    return max(midnight(day, month, year) + since, 0)


class Reply:
    """What a reply or a message tells, read from the left."""

    def __init__(self, line):
        self.line, self.place = line, 0

    def word(self):
        """The next token: the bytes of a string, or the token itself."""
        found = TOKEN.match(self.line, self.place)
        if found is None:
            raise Broken("a reply is too short")
        self.place = found.end()
        if found[1] is None:
            return found[2]
        first, self.place = self.place, self.place + int(found[1])
        return self.line[first : self.place]

    def number(self):
        try:
            return int(self.word())
        except ValueError:
            raise Broken("a reply has something else where a number should be") from None

    def bits(self, width):
        """Bits as a number, the first one highest, filled up to so many."""
        try:
            return int(self.word()[:width].ljust(width, b"0"), 2)
        except ValueError:
            raise Broken("a reply has something else where bits should be") from None

    def moment(self):
        try:
            return moment_of([self.word() for _ in range(9)])
        except ValueError:
            raise Broken("a reply has something else where a moment should be") from None

    def many(self, element):
        """An array, each element of which is read so."""
        count = self.number()
        if self.word() == b"*":
            return []
        found = [element(self) for _ in range(count)]
        if self.word() != b"}":
            raise Broken("an array does not end where it should")
        return found


class AuxItem(NamedTuple):
    number: int
    tag: int
    creator: int
    made: int
    flags: int
    inherit: int
    content: bytes


class Conference(NamedTuple):
    name: bytes
    kind: int
    made: int
    last: int
    creator: int
    presentation: int
    supervisor: int
    submitters: int
    super_conference: int
    motd: int
    nice: int
    keep: int
    members: int
    first_local: int
    locals: int
    expire: int
    items: list


class Person(NamedTuple):
    user: bytes
    privileges: int
    flags: int
    login: int
    area: int
    present: int
    sessions: int
    lines: int
    bytes: int
    read: int
    fetched: int
    persons: int
    conferences: int
    first_created: int
    created: int
    marks: int
    memberships: int


class Recipient(NamedTuple):
    tag: int
    conference: int
    local: int
    sender: int
    # None where the text was made with this recipient
    sent: int


class Parent(NamedTuple):
    footnote: bool
    text: int
    sender: int
    # None where the text was made with this link
    sent: int


class Text(NamedTuple):
    made: int
    author: int
    lines: int
    length: int
    marks: int
    recipients: list
    parents: list
    # comments and footnotes: whether it is a footnote, and the text
    children: list
    # how many moments of receipt are told
    receipts: int
    items: list


class Membership(NamedTuple):
    place: int
    read_at: int
    conference: int
    priority: int
    ranges: list
    added_by: int
    added_at: int
    kind: int


class Member(NamedTuple):
    person: int
    added_by: int
    added_at: int
    kind: int


def aux_item(reply):
    return AuxItem(reply.number(), reply.number(), reply.number(), reply.moment(), reply.bits(8), reply.number(), reply.word())


def conference(reply):
    head = (reply.word(), reply.bits(8), reply.moment(), reply.moment())
    return Conference(*head, *(reply.number() for _ in range(12)), reply.many(aux_item))


def person(reply):
    head = (reply.word(), reply.bits(16), reply.bits(8), reply.moment())
    return Person(*head, *(reply.number() for _ in range(13)))


def text(reply):
    head = (reply.moment(), *(reply.number() for _ in range(4)))
    return Text(*head, *links(reply.many(misc_info)), reply.many(aux_item))


def links(misc_infos):
    """What a text is linked to, each kind in the order in which it is told: recipients, parents, children; and the moments of receipt."""
    recipients, parents, children, receipts = [], [], [], 0
    rows = recipients
    for tag, value in misc_infos:
        if tag in (0, 1, 15):
            rows = recipients
            rows.append(Recipient(tag, value, 0, 0, None))
        elif tag in (2, 4):
            rows = parents
            rows.append(Parent(tag == 4, value, 0, None))
        elif tag in (3, 5):
            children.append((tag == 5, value))
        elif tag == 6:
            rows[-1] = rows[-1]._replace(local=value)
        elif tag == 7:
            receipts += 1
        elif tag == 8:
            rows[-1] = rows[-1]._replace(sender=value)
        elif tag == 9:
            rows[-1] = rows[-1]._replace(sent=value)
    return recipients, parents, children, receipts


def misc_info(reply):
    tag = reply.number()
    return tag, reply.moment() if tag in (7, 9) else reply.number()


def read_range(reply):
    return reply.number(), reply.number()


def membership(reply):
    return Membership(
        reply.number(), reply.moment(), reply.number(), reply.number(), reply.many(read_range), reply.number(), reply.moment(), reply.bits(8)
    )


def member(reply):
    return Member(reply.number(), reply.number(), reply.moment(), reply.bits(8))


def mark(reply):
    """The text and the kind of a mark."""
    return reply.number(), reply.number()


def mapping(reply):
    """Numbers by local numbers, 0 where a text is gone; the local number with which the next part begins; whether there is one."""
    _, end, later, is_dense = (reply.number() for _ in range(4))
    if is_dense:
        first = reply.number()
        return list(enumerate(reply.many(Reply.number), first)), end, later == 1
    return reply.many(read_range), end, later == 1


class Session:
    """A session with the server at a port: each call waits for its reply, and messages that come before it are kept."""

    def __init__(self, host, port, user, patience=PATIENCE):
        self.socket = socket.create_connection((host, port), patience)
        self.socket.setsockopt(socket.IPPROTO_TCP, socket.TCP_NODELAY, 1)
        self.socket.setsockopt(socket.SOL_SOCKET, socket.SO_KEEPALIVE, 1)
        self.file = self.socket.makefile("rb", BLOCK)
        self.reference, self.messages = 0, []
        try:
            self.socket.sendall(b"A%b\n" % string(user))
            if self.line() != b"LysKOM\n":
                raise Broken(f"no LysKOM server at {host} port {port}")
        except OSError:
            self.close()
            raise

    def __enter__(self):
        return self

    def __exit__(self, *_):
        self.close()

    def close(self):
        self.file.close()
        self.socket.close()

    def line(self):
        """The next line. A line feed in a string does not end it."""
        return self.whole(self.file.readline())

    def whole(self, line):
        """A line of which the bytes up to the first line feed were read."""
        place = 0
        while b"H" in line and (found := STRING.search(line, place)):
            place = found.end() + int(found[1])
            if len(line) <= place:
                line += self.file.read(place - len(line)) + self.file.readline()
        if not line.endswith(b"\n"):
            raise Broken("the server ended the connection")
        return line

    def send(self, call, *arguments):
        return self.send_all([(call, *arguments)])

    def send_all(self, calls):
        """Sends calls together, and returns the reference of the first one."""
        first = self.reference + 1
        self.reference += len(calls)
        lines = (b"%d %b\n" % (first + place, b" ".join(map(spell, call))) for place, call in enumerate(calls))
        self.socket.sendall(b"".join(lines))
        return first

    def reply(self, reference, call):
        """The reply to a call, or its refusal as a value."""
        return self.reply_from(self.line(), reference, call)

    def reply_from(self, line, reference, call):
        """The same, where a line was read already."""
        while line.startswith(b":"):
            self.messages.append(Reply(line[1:]))
            line = self.line()
        reply = Reply(line[1:])
        if line[:1] not in (b"=", b"%") or reply.number() != reference:
            raise Broken(f"{line[:80]!r} came in place of a reply")
        return reply if line.startswith(b"=") else Refused(call, reply.number(), reply.number())

    def ask_all(self, calls):
        """The replies to calls that are sent together; a refusal stands in the place of its reply."""
        first = self.send_all(calls)
        return [self.reply(first + place, call[0]) for place, call in enumerate(calls)]

    def told(self, calls, form=None):
        """What the replies tell to calls for a number each, which are sent together, at once: the bytes after the reference, each as it is
        taken. A refusal stands in the place of its reply, and what a form finds in that of one that has it: the reference, those bytes,
        and more. They are to be taken before anything else is asked."""
        first = self.reference + 1
        self.reference += len(calls)
        lines = [f"{reference} {call} {number}\n" for reference, (call, number) in enumerate(calls, first)]
        self.socket.sendall("".join(lines).encode())
        return self.told_from(first, calls, form)

    def told_from(self, first, calls, form):
        """The same, of calls that were sent, the first one with this reference."""
        place = 0
        while place < len(calls):
            rows = self.formed(form, first + place, len(calls) - place) if form else []
            yield from rows
            place += len(rows)
            if place < len(calls):
                yield self.told_in_line(first + place, calls[place][0])
                place += 1

    def formed(self, form, first, most):
        """What a form finds in the good replies that have come, the first one with this reference, and so many at most: in those before
        the first that it is not the form of. They are taken. (A form finds all else up to the end at once, so it finds nothing in that.)"""
        rows = form.findall(self.file.peek())[:most]
        wanted = [f"{reference}".encode() for reference in range(first, first + len(rows))]
        while [row[0] for row in rows] != wanted:
            rows.pop(), wanted.pop()
        # (each has a sign and a space beside)
        self.file.read(sum([len(row[0]) + len(row[1]) + 2 for row in rows]))
        return rows

    def told_in_line(self, reference, call):
        """What the next line tells, if it is the reply to a call, or its refusal as a value."""
        line, head = self.file.readline(), b"=%d " % reference
        # (a good reply without strings, as nearly all are, is only cut)
        if line.startswith(head) and b"H" not in line and line.endswith(b"\n"):
            return line[len(head) :]
        reply = self.reply_from(self.whole(line), reference, call)
        return reply if isinstance(reply, Refused) else reply.line[reply.place :].lstrip(b" ")

    def ask(self, call, *arguments):
        """The reply to a call, which is good."""
        reply = self.ask_all([(call, *arguments)])[0]
        if isinstance(reply, Refused):
            raise reply
        return reply

    def login(self, person, password):
        """Logs in, invisibly."""
        self.ask(62, person, string(password), 1)

    def message(self):
        """The next message."""
        if not self.messages:
            line = self.line()
            if not line.startswith(b":"):
                raise Broken(f"{line[:80]!r} came in place of a message")
            self.messages.append(Reply(line[1:]))
        return self.messages.pop(0)
