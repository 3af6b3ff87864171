"""What a client sends, cut at what a door has to decide: the greeting, attempts at a password, and calls that make persons."""
import dataclasses
import re

from .lines import Lines

# A greeting up to the bytes of the user's name, and what may still become one.
GREETING = re.compile(rb"A[ \t\r]*(\d{1,4})H")
GREETING_BEGUN = re.compile(rb"(?:A[ \t\r]*\d{0,4})?")
MOST_OF_A_NAME = 1_024
# A line up to its call's number, and what may still become that.
HEAD = re.compile(rb"[ \t\r]*(\d+)[ \t\r]+(\d+)(?=[ \t\r\n])")
HEAD_BEGUN = re.compile(rb"[ \t\r]*(?:\d+(?:[ \t\r]+\d*)?)?")
BLANKS = re.compile(rb"[ \t\r]*\n")
# What is held back until it is decided on has at most so many bytes: blanks before a call's number, and lines with passwords.
MOST_HELD = 4_096
SET_PASSWORD, SYNC, LOGIN, CREATE_PERSON = 8, 43, 62, 89
WITH_PASSWORD = re.compile(rb"[ \t\r]*\d+[ \t\r]+\d+[ \t\r]+(\d{1,10})[ \t\r]+(\d{1,10})H")


class Departed(Exception):
    """The stream departs from the protocol, or from what a door holds back."""


@dataclasses.dataclass
class Attempt:
    """A line with a password that the server is to judge."""

    call: int
    person: int
    password: bytes
    line: bytes


class Stranger:
    """A call was refused that only members may make."""


def greeting_length(begun):
    """How many bytes the greeting has that a stream begins with, or None while it may become one."""
    if found := GREETING.match(begun):
        if int(found[1]) > MOST_OF_A_NAME:
            raise Departed
        return found.end() + int(found[1])
    if len(begun) > MOST_HELD or not GREETING_BEGUN.fullmatch(begun):
        raise Departed
    return None


def attempt(call, line):
    """The attempt that a line makes, if it has what such a line begins with; else the server ends the stream there."""
    if found := WITH_PASSWORD.match(line):
        return Attempt(call, int(found[1]), line[found.end():found.end() + int(found[2])], line)
    return line


class Calls:
    """The lines of a client after its greeting. `units` gives bytes that go on to the server as they came, and between them what is to
    be decided on before it goes on: the taker asks for the next unit when that is done."""

    def __init__(self, anybody):
        # Whether call 89 is let through: anybody may make it, or a login was good.
        self.may_create = anybody
        self.sent = 0
        self.lines = Lines()
        self.held = b""
        self.at_start = True
        self.is_dropping = False

    def units(self, piece):
        """What a piece of the stream comes to, together with what was held back of those before."""
        piece, self.held = self.held + piece, b""
        begin = place = 0
        while place < len(piece):
            if self.at_start:
                head = HEAD.match(piece, place)
                if head is None and HEAD_BEGUN.fullmatch(piece, place):
                    self.hold(piece[place:])
                    break
                call = int(head[2][-11:]) if head else None
                if call in (LOGIN, SET_PASSWORD):
                    end = self.lines.end(piece, place)
                    if end is None:
                        self.lines = Lines()
                        self.hold(piece[place:])
                        break
                    yield piece[begin:place]
                    self.sent += 1
                    yield attempt(call, piece[place:end])
                    begin = place = end
                    continue
                if call == CREATE_PERSON and not self.may_create:
                    # The server refuses call 43 of whoever is not logged in, in its turn, and as call 89 is to be refused: 12, 0.
                    yield piece[begin:place] + b"%s %d\n" % (head[1], SYNC)
                    yield Stranger()
                    self.is_dropping = True
                if head or not BLANKS.match(piece, place):
                    self.sent += 1
                self.at_start = False
            end = self.lines.end(piece, place)
            if end is None:
                place = len(piece)
            else:
                place, self.at_start = end, True
            if self.is_dropping:
                begin, self.is_dropping = place, end is None
        yield piece[begin:place]

    def hold(self, part):
        """Keeps the beginning of a line for the next piece."""
        if len(part) > MOST_HELD:
            raise Departed
        self.held = part
