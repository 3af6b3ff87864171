"""Where the lines of Protocol A end: the least of its grammar that a door must know.

Outside of counted strings an `H` stands only behind a string's length, and a line feed only at a line's end. A stream that departs
from this ends at the server too, at that byte, so nothing is let through behind it that was not looked at.
"""
import re

MARK = re.compile(rb"[H\n]")
LINE_FEED = 10
# A length has at most so many digits.
DIGITS = 10


class Lines:
    """Finds the ends of the lines of a stream that comes in pieces. It keeps none of it but the digits that a piece ends with."""

    def __init__(self):
        self.to_skip = 0
        self.digits = b""

    def end(self, piece, place):
        """The place behind the line feed of the line that goes on at this place, or None if the piece ends before. The next question
        is about that place, or about the beginning of the next piece."""
        while True:
            if self.to_skip:
                skipped = min(self.to_skip, len(piece) - place)
                self.to_skip -= skipped
                place += skipped
            mark = MARK.search(piece, place)
            if mark is None:
                self.digits = self.digits_before(piece, place, len(piece))
                return None
            found = mark.start()
            if piece[found] == LINE_FEED:
                self.digits = b""
                return found + 1
            self.to_skip = int(self.digits_before(piece, place, found) or b"0")
            self.digits = b""
            place = found + 1

    def digits_before(self, piece, first, end):
        """The digits that end at this place, and what is carried of them from the piece before."""
        begin = end
        while begin > first and end - begin < DIGITS and 48 <= piece[begin - 1] <= 57:
            begin -= 1
        return ((self.digits if begin == first else b"") + piece[begin:end])[-DIGITS:]
