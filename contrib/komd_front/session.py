"""A session: what a client and the server say to each other through the door."""
import asyncio
import itertools

from .addresses import Full
from .calls import LOGIN, Attempt, Calls, Departed, Stranger, greeting_length
from .replies import Replies, Reply
from .told import tell, tell_now_and_then

PROTOCOL_ERROR = b"%%Protocol error.\n"


# Why a session ended.
LATE = "no greeting came in time"
FULL = "all places are taken"
NO_SERVER = "the server does not serve"
DEPARTED = "no line of the protocol"
SILENT = "nothing of what is sent is taken"
SERVER_ENDED = "the server ended the session"
CLIENT_ENDED = "the client is gone"
MADE_ROOM = "nobody had logged in, and another needed the place"


class ServerEnded(Exception):
    """The server has closed its connection."""


class MadeRoom(Exception):
    """The session was asked to leave its place."""


# What each fault of either way means.
REASONS = {ServerEnded: SERVER_ENDED, MadeRoom: MADE_ROOM, Departed: DEPARTED, TimeoutError: SILENT, OSError: CLIENT_ENDED}


class Session:
    """One client, from its greeting on."""

    def __init__(self, house, client):
        self.house, self.client = house, client
        self.calls = Calls(house.limits.is_open)
        self.replies = Replies()
        self.person = 0
        self.begun, self.server = b"", None
        # The attempt that the server judges, and whether it has.
        self.attempt, self.is_judged = None, asyncio.Event()
        # Is made to fail where the session is to leave, and then is waited for.
        self.asked, self.has_left = asyncio.get_running_loop().create_future(), asyncio.Event()

    async def run(self):
        """Serves the client to the end, and tells why that came."""
        try:
            greeting, more = await self.greeting()
            async with self.house.place(self):
                return await self.served(greeting, more)
        except TimeoutError:
            tell_now_and_then(self.client.address, LATE)
            return LATE
        except Full:
            tell_now_and_then(FULL)
            return FULL
        except Departed:
            await self.say(PROTOCOL_ERROR)
            return DEPARTED
        except OSError:
            return CLIENT_ENDED
        finally:
            # (where it was asked nobody else may have looked)
            if not self.asked.cancel():
                self.asked.exception()
            self.has_left.set()

    async def leave(self):
        """Ends the session, and waits until its place is free."""
        if not self.asked.done():
            self.asked.set_exception(MadeRoom())
        await self.has_left.wait()

    def take_greeting(self, piece):
        """Takes what the client sends, until its greeting is whole: that, and what came with it."""
        self.begun += piece
        length = greeting_length(self.begun)
        return None if length is None or len(self.begun) < length else (self.begun[:length], self.begun[length:])

    async def greeting(self):
        """The greeting, and what came with it. No place is taken before."""
        async with asyncio.timeout_at(self.client.deadline):
            if begun := await self.client.pass_on(self.take_greeting):
                return begun
        raise ConnectionResetError

    async def served(self, greeting, more):
        """Both ways at once, until one of them fails or the server ends."""
        try:
            self.server = await self.house.connect()
        except OSError:
            tell_now_and_then(NO_SERVER)
            return NO_SERVER
        self.server.write(greeting)
        ways = [asyncio.create_task(way) for way in (self.up(self.calls.units(more)), self.down())]
        try:
            done, _ = await asyncio.wait([*ways, self.asked], return_when=asyncio.FIRST_EXCEPTION)
            return await self.why(next(filter(None, (way.exception() for way in done))))
        finally:
            for way in ways:
                way.cancel()
            await asyncio.gather(*ways, return_exceptions=True)
            self.server.transport.abort()
            if self.person:
                tell(self.client.address, "end of", self.person)

    async def why(self, fault):
        """The reason that a fault stands for."""
        for kind, reason in REASONS.items():
            if isinstance(fault, kind):
                break
        else:
            raise fault
        if reason == DEPARTED:
            await self.say(PROTOCOL_ERROR)
        if reason == MADE_ROOM:
            tell_now_and_then(self.client.address, "made room:", reason)
        return reason

    async def say(self, piece):
        """Sends bytes of the door's own."""
        self.client.write(piece)
        await self.client.drained(self.house.limits.silent_seconds)

    def take_up(self, piece):
        """Passes on what the client sends, up to what is to be waited for: the units from there on."""
        units = self.calls.units(piece)
        for unit in units:
            if type(unit) is not bytes:
                return itertools.chain((unit,), units)
            self.server.write(unit)
        return () if self.server.is_full() else None

    def take_down(self, piece):
        """Passes on what the server sends, in the same way."""
        units = self.replies.units(piece)
        for unit in units:
            if type(unit) is not bytes:
                return itertools.chain((unit,), units)
            self.client.write(unit)
        return () if self.client.is_full() else None

    async def up(self, units):
        """What the client sends goes to the server; when the client ends its way, that way ends."""
        while units is not None:
            for unit in units:
                if isinstance(unit, Attempt):
                    await self.attempted(unit)
                elif isinstance(unit, Stranger):
                    tell_now_and_then(self.client.address, "may not make a person")
                else:
                    self.server.write(unit)
            await self.server.drained()
            units = await self.client.pass_on(self.take_up)
        self.server.write_eof()

    async def down(self):
        """What the server sends goes to the client."""
        while (units := await self.server.pass_on(self.take_down)) is not None:
            for unit in units:
                if isinstance(unit, Reply):
                    unit = await self.judged(unit)
                self.client.write(unit)
            await self.client.drained(self.house.limits.silent_seconds)
        raise ServerEnded

    async def attempted(self, attempt):
        """Sends an attempt when it is its turn, and waits until it is judged."""
        await self.house.guesses.turn(self.client.address.place)
        self.attempt = attempt
        self.is_judged.clear()
        self.replies.awaited = self.calls.sent
        self.server.write(attempt.line)
        await self.is_judged.wait()

    async def judged(self, reply):
        """Takes the reply to an attempt, and returns what of it goes to the client."""
        if reply.is_wrong_password and await self.is_moved():
            self.calls.sent += 1
            self.replies.awaited = self.calls.sent
            self.server.write(self.attempt.line)
            return b""
        self.note(reply)
        self.replies.awaited = 0
        self.is_judged.set()
        return reply

    async def is_moved(self):
        """Whether the server takes the password of a login now, since it came over from the old server."""
        moving, attempt = self.house.moving, self.attempt
        if not moving or attempt.call != LOGIN:
            return False
        return await moving.moves(self.house, self.client.address, attempt.person, attempt.password)

    def note(self, reply):
        """What comes of the reply: a member, or a wrong password."""
        attempt, address = self.attempt, self.client.address
        if reply.is_wrong_password:
            self.house.guesses.was_wrong(address.place)
            tell(address, "wrong password of", attempt.person)
        elif reply.is_good and attempt.call == LOGIN:
            self.calls.may_create = True
            self.person = attempt.person
            self.house.strangers.pop(self, None)
            tell(address, "login of", attempt.person)
