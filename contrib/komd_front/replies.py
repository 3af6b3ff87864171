"""What the server sends, cut at the one reply that a door waits for."""
from .lines import Lines

# The lines that answer a call, by their first byte; a message begins with a colon.
SIGNS = b"=%"


class Reply(bytes):
    """The line that answers an attempt at a password."""

    @property
    def is_good(self):
        return self.startswith(b"=")

    @property
    def is_wrong_password(self):
        return self.startswith(b"%") and self.split()[1:2] == [b"4"]


class Replies:
    """The lines of a server. A server answers calls in the order in which they came, so replies are known by being counted; two calls
    may have the same reference."""

    def __init__(self):
        self.lines = Lines()
        self.held = b""
        self.at_start = True
        self.answered = 0
        # The reply with which one waits, by the number of its call, or 0.
        self.awaited = 0

    def units(self, piece):
        """What a piece comes to: bytes that go on to the client, and the reply that is awaited, whole."""
        piece, self.held = self.held + piece, b""
        begin = place = 0
        while place < len(piece):
            if self.at_start and piece[place] in SIGNS:
                if self.answered + 1 == self.awaited:
                    end = piece.find(b"\n", place) + 1
                    yield piece[begin:place]
                    if not end:
                        self.held = piece[place:]
                        return
                    self.answered += 1
                    yield Reply(piece[place:end])
                    begin = place = end
                    continue
                self.answered += 1
            end = self.lines.end(piece, place)
            self.at_start = end is not None
            place = end or len(piece)
        yield piece[begin:]
