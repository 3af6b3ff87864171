"""A listening socket, and who may come in at it."""
import asyncio
import socket

from .addresses import Full, address_of
from .told import tell_now_and_then

BACKLOG = 128
# After an accept that failed, as where no descriptor is free, the next one waits.
SECONDS_OF_REST = 1
# A peer that vanished without a word is found out after two minutes; no answer waits for more to be sent with it.
OPTIONS = (
    (socket.TCP_KEEPIDLE, 60),
    (socket.TCP_KEEPINTVL, 20),
    (socket.TCP_KEEPCNT, 3),
    (socket.TCP_USER_TIMEOUT, 120_000),
    (socket.TCP_NODELAY, 1),
)
EVERYWHERE, EVERYWHERE_BY_IPV4 = "::", "0.0.0.0"


def listener(host, port):
    """A socket that listens at an address; `::` is each address of both families, or of IPv4 where the system has no other."""
    if host == EVERYWHERE and not socket.has_dualstack_ipv6():
        host = EVERYWHERE_BY_IPV4
    family = socket.AF_INET6 if ":" in host else socket.AF_INET
    made = socket.create_server((host, port), family=family, backlog=BACKLOG, dualstack_ipv6=host == EVERYWHERE)
    made.setblocking(False)
    return made


class Door:
    """Lets clients in, as many as a crowd may have, and has each of them served."""

    def __init__(self, listening, crowd, serve):
        self.listening, self.crowd, self.serve = listening, crowd, serve
        self.clients = set()

    async def run(self):
        """Accepts connections, for ever."""
        loop = asyncio.get_running_loop()
        while True:
            try:
                connection, name = await loop.sock_accept(self.listening)
            except OSError as fault:
                tell_now_and_then("no connection is accepted:", fault.strerror)
                await asyncio.sleep(SECONDS_OF_REST)
                continue
            client = asyncio.create_task(self.admitted(connection, address_of(name[0])))
            self.clients.add(client)
            client.add_done_callback(self.clients.discard)

    async def admitted(self, connection, address):
        """One client, from its connection to its end."""
        with connection:
            try:
                with self.crowd.one_more(address.place):
                    connection.setsockopt(socket.SOL_SOCKET, socket.SO_KEEPALIVE, 1)
                    for option, value in OPTIONS:
                        connection.setsockopt(socket.IPPROTO_TCP, option, value)
                    await self.serve(connection, address)
            except Full:
                tell_now_and_then(address, "has as many connections as it may have, or there are too many")
            except OSError as fault:
                tell_now_and_then(address, "came to no session:", fault.strerror or type(fault).__name__)
