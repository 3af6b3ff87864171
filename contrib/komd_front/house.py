"""What all sessions of a door have in common: the server, its places, and the limits."""
import asyncio
import contextlib
import dataclasses

from .addresses import Crowd, Full
from .connections import Connection
from .guessing import Guesses

HOST = "127.0.0.1"
# The places that are left to this machine.
LEFT_FREE = 2
# How many sessions there may be that have no place yet, since their greetings are not whole.
MOST_GREETING = 256


@dataclasses.dataclass(frozen=True)
class Limits:
    """What an operator may set; the words of the command line say what it is."""

    komd: int
    places: int
    connections: int
    greeting_seconds: float
    silent_seconds: float
    guess_seconds: float
    stranger_seconds: float
    is_open: bool


class House:
    """The server behind the door, and who is let in to it."""

    def __init__(self, limits, moving=None):
        self.limits, self.moving = limits, moving
        self.guesses = Guesses(limits.guess_seconds)
        places = limits.places - LEFT_FREE
        self.places = Crowd(places, places)
        self.sessions = Crowd(places + MOST_GREETING, limits.connections)
        # The sessions in which nobody has logged in yet, the oldest first.
        self.strangers = {}

    @contextlib.asynccontextmanager
    async def place(self, session):
        """A place at the server, for as long as it is held. Until somebody logs in, the session may be asked to leave it."""
        if self.places.is_full():
            await self.make_room()
        with self.places.one_more(""):
            self.strangers[session] = asyncio.get_running_loop().time()
            try:
                yield
            finally:
                self.strangers.pop(session, None)

    async def make_room(self):
        """Has the session end that has been longest without a login, if that is long enough: strangers keep no member out."""
        oldest = next(iter(self.strangers), None)
        if oldest is None or asyncio.get_running_loop().time() - self.strangers[oldest] < self.limits.stranger_seconds:
            raise Full
        del self.strangers[oldest]
        await oldest.leave()

    async def connect(self):
        """A connection to the server."""
        async with asyncio.timeout(self.limits.greeting_seconds):
            _, connection = await asyncio.get_running_loop().create_connection(Connection, HOST, self.limits.komd)
            return connection
