"""A connection, whose bytes are taken as they come: nobody is woken for them unless there is something to wait for."""
import asyncio

# How many bytes may wait for a peer before nothing more is read for it.
MOST_WAITING = 65_536


class Connection(asyncio.Protocol):
    """Bytes both ways. It is read while somebody takes what comes."""

    def __init__(self, stays_half_open=False):
        self.stays_half_open = stays_half_open
        self.transport, self.early, self.has_ended = None, b"", False
        self.taker, self.taken = None, None
        self.room, self.closed = asyncio.Event(), asyncio.Event()
        self.room.set()

    async def pass_on(self, taker):
        """Gives `taker` each piece as it comes, until that returns something, which is returned; at the end of all, None."""
        self.taker, self.taken = taker, asyncio.get_running_loop().create_future()
        try:
            if self.early:
                piece, self.early = self.early, b""
                self.give(piece)
            if self.has_ended:
                self.finish(None)
            if not self.taken.done():
                self.transport.resume_reading()
            return await self.taken
        finally:
            self.taker = None

    def write(self, piece):
        """Sends bytes, unless the connection is closed."""
        if not self.transport.is_closing():
            self.transport.write(piece)

    def write_eof(self):
        """Says that no more comes."""
        if not self.transport.is_closing():
            self.transport.write_eof()

    def is_full(self):
        """Whether more waits to be sent than should."""
        return not self.room.is_set()

    async def drained(self, seconds=None):
        """Waits until less waits to be sent, for so many seconds at most."""
        if self.is_full():
            async with asyncio.timeout(seconds):
                await self.room.wait()

    def give(self, piece):
        """Has a piece taken."""
        try:
            rest = self.taker(piece)
        except Exception as fault:  # pylint: disable=broad-exception-caught
            self.finish(None, fault)
        else:
            if rest is not None:
                self.finish(rest)

    def finish(self, rest, fault=None):
        """Ends the taking."""
        self.taker = None
        if self.taken.done():
            return
        if fault:
            self.taken.set_exception(fault)
        else:
            self.taken.set_result(rest)

    def end(self):
        """Nothing comes any more."""
        self.has_ended = True
        if self.taker:
            self.finish(None)

    def connection_made(self, transport):
        self.transport = transport
        transport.set_write_buffer_limits(MOST_WAITING)

    def data_received(self, data):
        if self.taker:
            self.give(data)
        else:
            self.early += data
            self.transport.pause_reading()

    def eof_received(self):
        self.end()
        return self.stays_half_open

    def connection_lost(self, exc):
        self.end()
        self.room.set()
        self.closed.set()

    def pause_writing(self):
        self.room.clear()

    def resume_writing(self):
        self.room.set()
