"""The page, and sessions of browsers: WebSockets whose frames carry the bytes of Protocol A both ways, cut anywhere."""
import asyncio
import logging
import pathlib
import re

from aiohttp import WSCloseCode, WSMsgType, web
from aiohttp.http_exceptions import HttpProcessingError

from .addresses import Crowd, Full
from .calls import Departed
from .session import DEPARTED, FULL, MADE_ROOM, NO_SERVER, SERVER_ENDED, Session
from .tls import abort

# A browser fetches the page by several connections at once, and several persons may share an address.
CONNECTIONS, CONNECTIONS_OF_A_PLACE = 1_024, 32
# How long a connection is kept for the next request.
KEEPALIVE_SECONDS = 15
# How often a browser is asked whether it is there. A proxy takes a silent connection for a dead one, mostly after a minute.
PING_SECONDS = 45
CLOSE_SECONDS = 5
MOST_OF_A_FRAME = 4 << 20
YEAR = 31_536_000
HOST = re.compile(r"(?:[A-Za-z0-9.-]+|\[[0-9A-Fa-f:]+\])(?::\d+)?")
CROWDED = "this address has as many sessions as it may have"
CODES = {
    FULL: WSCloseCode.TRY_AGAIN_LATER,
    MADE_ROOM: WSCloseCode.TRY_AGAIN_LATER,
    NO_SERVER: WSCloseCode.TRY_AGAIN_LATER,
    SERVER_ENDED: WSCloseCode.GOING_AWAY,
    DEPARTED: WSCloseCode.PROTOCOL_ERROR,
}
HEADERS = {
    "Server": "komd-front",
    "Cache-Control": "no-cache",
    "Cross-Origin-Opener-Policy": "same-origin",
    "Referrer-Policy": "no-referrer",
    "X-Content-Type-Options": "nosniff",
}


def is_ours(record):
    """Whether a fault that aiohttp tells of is the door's, and not that of what a stranger sent."""
    return not (record.exc_info and isinstance(record.exc_info[1], HttpProcessingError))


def host_of(request):
    """The host of which a request asks, or none. (aiohttp would ask a name server then, and all would wait.)"""
    return request.headers.get("Host", "")


class WebClient:
    """A browser's WebSocket."""

    def __init__(self, socket, address, limits):
        self.socket, self.address, self.waiting = socket, address, []
        self.deadline = asyncio.get_running_loop().time() + limits.greeting_seconds

    async def pass_on(self, taker):
        """Gives `taker` the bytes of each frame, until that returns something. Frames of letters are none of the protocol."""
        while (message := await self.socket.receive()).type == WSMsgType.BINARY:
            if (rest := taker(message.data)) is not None:
                return rest
        if message.type == WSMsgType.TEXT:
            raise Departed
        return None

    def write(self, piece):
        """Has bytes wait for a frame."""
        if piece:
            self.waiting.append(piece)

    def is_full(self):
        """Whether anything waits: a frame is sent by whoever may wait for that."""
        return bool(self.waiting)

    async def drained(self, seconds):
        """Sends what waits, for so many seconds at most."""
        if self.waiting:
            frame = b"".join(self.waiting)
            self.waiting.clear()
            async with asyncio.timeout(seconds):
                await self.socket.send_bytes(frame)


class Guard(asyncio.Protocol):
    """A connection as aiohttp has it, which is closed unless a whole request comes in time, and tells when it has ended."""

    def __init__(self, inner, seconds):
        loop = asyncio.get_running_loop()
        self.inner, self.transport, self.ended = inner, None, loop.create_future()
        self.late = loop.call_later(seconds, self.abort)
        self.data_received, self.eof_received = inner.data_received, inner.eof_received
        self.pause_writing, self.resume_writing = inner.pause_writing, inner.resume_writing

    def connection_made(self, transport):
        self.transport = transport
        self.inner.connection_made(transport)

    def connection_lost(self, fault):
        self.late.cancel()
        self.inner.connection_lost(fault)
        self.ended.set_result(None)

    def abort(self):
        """Closes the connection, whatever is under way."""
        if self.transport:
            abort(self.transport)


class Web:
    """What a door does with browsers."""

    def __init__(self, house, tls, proxy, folder):
        self.house, self.tls, self.proxy, self.folder = house, tls, proxy, pathlib.Path(folder)
        self.crowd = Crowd(CONNECTIONS, CONNECTIONS if proxy.host else CONNECTIONS_OF_A_PLACE)
        self.runner, self.guards = None, {}
        # Nobody else holds a task whose browser is gone while the server's end is awaited, and then it would be lost.
        self.tasks = set()

    async def begin(self):
        """Makes ready to serve."""
        application = web.Application(middlewares=[self.asked])
        application.router.add_get("/", self.page)
        application.router.add_get("/kom", self.session)
        application.router.add_static("/", self.folder)
        application.on_response_prepare.append(self.add_headers)
        logger = logging.getLogger("komd-front")
        logger.addFilter(is_ours)
        self.runner = web.AppRunner(application, keepalive_timeout=KEEPALIVE_SECONDS, access_log=None, logger=logger)
        await self.runner.setup()

    async def serve(self, connection, _address):
        """One connection, from its handshake on."""
        seconds = self.house.limits.greeting_seconds
        inner = self.runner.server()
        guard = self.guards[inner] = Guard(inner, seconds)
        try:
            await asyncio.get_running_loop().connect_accepted_socket(lambda: guard, connection, **self.tls.handshake(seconds))
            await guard.ended
        finally:
            guard.abort()
            del self.guards[inner]

    @web.middleware
    async def asked(self, request, handler):
        """Each request: its connection is not late any more."""
        self.guards[request.protocol].late.cancel()
        return await handler(request)

    async def page(self, _request):
        """The page itself."""
        return web.FileResponse(self.folder / "index.html")

    async def session(self, request):
        """A session of Protocol A."""
        if request.headers.get("Origin") != f"{self.proxy.scheme(request)}://{host_of(request)}":
            raise web.HTTPForbidden
        socket = web.WebSocketResponse(heartbeat=PING_SECONDS, timeout=CLOSE_SECONDS, max_msg_size=MOST_OF_A_FRAME, compress=False)
        await socket.prepare(request)
        reason = await self.talk(socket, self.proxy.address(request))
        await socket.close(code=CODES.get(reason, WSCloseCode.POLICY_VIOLATION), message=reason.encode())
        return socket

    async def talk(self, socket, address):
        """The session itself, and why it ended."""
        task = asyncio.current_task()
        self.tasks.add(task)
        try:
            with self.house.sessions.one_more(address.place):
                return await Session(self.house, WebClient(socket, address, self.house.limits)).run()
        except Full:
            return CROWDED
        finally:
            self.tasks.discard(task)

    async def add_headers(self, request, response):
        """What a browser is told with each answer."""
        scheme, host = self.proxy.scheme(request), host_of(request)
        sources = f"'self' {scheme.replace('http', 'ws')}://{host}" if HOST.fullmatch(host) else "'self'"
        response.headers.update(HEADERS)
        response.headers["Content-Security-Policy"] = (
            f"default-src 'self'; connect-src {sources}; object-src 'none'; base-uri 'none'; form-action 'none'; frame-ancestors 'none'"
        )
        if scheme == "https":
            response.headers["Strict-Transport-Security"] = f"max-age={YEAR}"
