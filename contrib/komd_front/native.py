"""Clients that speak Protocol A over TLS, or over nothing where that is allowed."""
import asyncio

from .connections import Connection
from .session import Session
from .tls import abort


class NativeClient(Connection):
    """A client's connection."""

    def __init__(self, address, limits, is_tls):
        # TLS, as asyncio has it, is closed both ways or not at all.
        super().__init__(stays_half_open=not is_tls)
        self.address = address
        self.deadline = asyncio.get_running_loop().time() + limits.greeting_seconds

    async def close(self, seconds):
        """Closes the connection when all is taken, or is not taken in time."""
        self.transport.close()
        async with asyncio.timeout(seconds):
            await self.closed.wait()


class Native:
    """What a door does with such clients."""

    def __init__(self, house, tls):
        self.house, self.tls = house, tls

    async def serve(self, connection, address):
        """One client, from its handshake on."""
        limits, handshake = self.house.limits, self.tls.handshake(self.house.limits.greeting_seconds)
        client = NativeClient(address, limits, bool(handshake))
        await asyncio.get_running_loop().connect_accepted_socket(lambda: client, connection, **handshake)
        try:
            await Session(self.house, client).run()
            await client.close(limits.silent_seconds)
        finally:
            abort(client.transport)
