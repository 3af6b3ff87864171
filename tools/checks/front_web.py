#!/usr/bin/python3 -B
"""Tries `contrib/komd-front --web` before a `komd serve`, by the WebSocket client of python3-aiohttp: front_web.py [PROGRAM]

1. The page and its files, what is none of them, and the headers of each answer.
2. Sessions whose bytes are cut anywhere into frames, with a text of a million bytes; call 89 of a stranger; wrong passwords.
3. An Origin that is not the page's own, or none, is refused.
4. How a WebSocket ends: all places taken, a server that is gone, a ninth session of an address, no greeting, letters in place of bytes.
5. Connections that ask for nothing are closed in time, and so is a 33rd one of an address.
6. A proxy that is believed, and one that is not; behind nginx, where that is installed, with contrib/komd-front.nginx.

It prints a line for each thing that is otherwise, and a count, and ends with 1 if there is one, else with 0; without python3-aiohttp it
says that, and ends with 0. It takes some ten seconds, and ends all that it starts. PROGRAM is the built `komd` unless it is named.
"""
import asyncio
import pathlib
import random
import re
import shutil
import ssl
import subprocess
import sys
import tempfile
import time

sys.path.insert(0, str(pathlib.Path(__file__).resolve().parents[1] / "common"))
from built import ROOT, make_store, program_of, script
from doors import NAME, Front, free_port, is_closed, kill_all, make_certificate
from protocol import string
from served import PATIENCE, Server, folder_in_memory, is_heard, limit_seconds
from tried import Tried

try:
    import aiohttp
except ImportError:
    aiohttp = None

LIMIT_SECONDS = 300
MODULE = "export const answer = 42;\n"
POLICY = "default-src 'self'; connect-src 'self' wss://{}; object-src 'none'; base-uri 'none'; form-action 'none'; frame-ancestors 'none'"
STRING = re.compile(rb"(\d+)H")


class Browser:
    """What a browser does at a door, from an address of this machine."""

    def __init__(self, certificate=None, source="127.0.0.1"):
        self.tls = ssl.create_default_context(cafile=certificate) if certificate else False
        self.client = aiohttp.ClientSession(connector=aiohttp.TCPConnector(local_addr=(source, 0), force_close=True))

    async def __aenter__(self):
        return self

    async def __aexit__(self, *_):
        await self.client.close()

    async def get(self, url, **more):
        """The status of an answer, its headers and its body."""
        async with self.client.get(url, ssl=self.tls, allow_redirects=False, **more) as answer:
            return answer.status, answer.headers, await answer.text()

    async def opens(self, url, origin=None, **more):
        """A WebSocket, with the Origin of its page unless there is another."""
        page = re.match(r"https?://[^/]*", url)[0]
        return Talk(await self.client.ws_connect(url, ssl=self.tls, origin=origin or page, max_msg_size=0, **more))


class Talk:
    """A session over a WebSocket."""

    def __init__(self, socket):
        self.socket, self.got, self.reason = socket, b"", None

    async def send(self, data, size=None):
        """Sends bytes, in frames of a size."""
        size = size or len(data)
        for begin in range(0, len(data), size):
            await self.socket.send_bytes(data[begin:begin + size])

    async def line(self):
        """The next line, with the strings in it, or None at the end."""
        while (end := self.line_end()) is None:
            message = await self.socket.receive(PATIENCE)
            if message.type != aiohttp.WSMsgType.BINARY:
                return None
            self.got += message.data
        line, self.got = self.got[:end], self.got[end + 1:]
        return line

    def line_end(self):
        """Where the first line ends, if it is there."""
        place = 0
        while (found := STRING.search(self.got, place)) and b"\n" not in self.got[place:found.start()]:
            place = found.end() + int(found[1])
        end = self.got.find(b"\n", place)
        return end if place <= len(self.got) and end >= 0 else None

    async def end(self):
        """The code with which the other side ends it, and the bytes that came before. The reason is kept."""
        while (message := await self.socket.receive(PATIENCE)).type == aiohttp.WSMsgType.BINARY:
            self.got += message.data
        self.reason = message.extra
        return self.socket.close_code, self.got


class Place:
    """What the parts have in common."""

    def __init__(self, program, folder):
        self.program, self.folder, self.tried = program, folder, Tried(program, folder)
        self.certificate = make_certificate(folder)
        self.page = folder / "page"
        (self.page / "club").mkdir(parents=True)
        (self.page / "index.html").write_text("<!doctype html>\n")
        (self.page / "club" / "talk.js").write_text(MODULE)
        (folder / "secret").write_text("nobody's")
        (self.page / "link").symlink_to(folder / "secret")
        self.server = Server(program, make_store(program, str(folder / "store")), 12)
        self.servers = [self.server]

    def end(self):
        """Ends all that was begun."""
        kill_all()
        for server in self.servers:
            if server.process.poll() is None:
                server.kill()

    def front(self, *words, server=None, tls=True, places=12):
        """A door for browsers."""
        certificate = self.certificate if tls else ()
        return Front(self.folder, (server or self.server).port, "--places", str(places), "--page", self.page, *words,
                     certificate=certificate, ports=("--web",))

    def url(self, front, path="/"):
        """Where the door has a path."""
        return f"{'https' if front.certificate else 'http'}://{NAME}:{front.web}{path}"

    def browser(self, source="127.0.0.1", tls=True):
        return Browser(self.certificate[0] if tls else None, source)


def asked(front, path):
    """What is answered to a path as it stands."""
    with front.connect(port=front.web) as connection:
        connection.sendall(f"GET {path} HTTP/1.0\r\nHost: {NAME}\r\n\r\n".encode())
        return connection.makefile("rb").read()


def asked_without_host(place, front):
    """What is answered to a request that names no host."""
    with front.connect(port=front.web) as connection:
        connection.sendall(b"GET / HTTP/1.0\r\n\r\n")
        answer = connection.makefile("rb").read()
    place.tried.same("the answer without a host", (True, True), (b" 200 OK" in answer, b"connect-src 'self';" in answer))


async def try_page(place):
    """Part 1."""
    tried, front = place.tried, place.front()
    async with place.browser() as browser:
        status, headers, body = await browser.get(place.url(front))
        tried.same("the page", (200, "<!doctype html>\n"), (status, body))
        wanted = {"Content-Security-Policy": POLICY.format(f"{NAME}:{front.web}"), "X-Content-Type-Options": "nosniff",
                  "Referrer-Policy": "no-referrer", "Strict-Transport-Security": "max-age=31536000", "Cache-Control": "no-cache"}
        tried.same("its headers", wanted, {name: headers.get(name) for name in wanted})
        status, headers, body = await browser.get(place.url(front, "/club/talk.js"))
        tried.same("a module", (200, MODULE, True), (status, body, "javascript" in headers["Content-Type"]))
        secret = f"/{place.folder}/secret"
        for path in ("/nothing", "/club", "/link", "/%2e%2e/secret", "/../secret", "/club/../../secret", secret, "*", "x"):
            answer = await asyncio.to_thread(asked, front, path)
            tried.same(f"{path} is nothing", (True, False), (answer.split()[1] in (b"400", b"403", b"404"), b"nobody" in answer))
        status, headers, _ = await browser.get(place.url(front), headers={"Host": "x; script-src *"})
        tried.same("another host", False, "script-src" in headers.get("Content-Security-Policy", ""))
        await asyncio.to_thread(asked_without_host, place, front)
        tried.same("a session without WebSocket", True, (await browser.get(place.url(front, "/kom")))[0] in (400, 403))
    front.end()


async def try_sessions(place):
    """Part 2."""
    tried, front = place.tried, place.front("--guess", "1")
    body = bytes(random.choices(b"aH1 \n9=%", k=1_000_000))
    async with place.browser() as browser, place.browser("127.0.0.2") as other:
        talk = await browser.opens(place.url(front, "/kom"))
        await talk.send(b"A5Hguest\n1 89 4HOlle 1Hx 00000000 0 { }\n2 62 5 0H 0\n3 89 4HOlle 1Hx 00000000 0 { }\n", 1)
        tried.same("answers", [b"LysKOM", b"%1 12 0", b"=2", b"=3 6"], [await talk.line() for _ in range(4)])
        await talk.send(b"4 88 5HTexts 00001000 0 { }\n5 86 " + string(body) + b" 1 { 0 7 } 0 { }\n6 25 1 0 9999999\n")
        tried.same("a text", [b"=4 7", b"=5 1", b"=6 " + string(body)], [await talk.line() for _ in range(3)])
        await talk.send(b"80 80 1 { 12 }\n")
        await talk.line()
        second = await other.opens(place.url(front, "/kom"))
        await second.send(b"A5Hguest7 53 0 2Hhi\n")
        tried.same("another's greeting and a stranger's call", [b"LysKOM", b"%7 6 0"], [await second.line() for _ in range(2)])
        await second.send(b"8 62 6 1Hx 0\n9 53 0 2Hhi\n")
        tried.same("its message", [b"=8", b"=9"], [await second.line() for _ in range(2)])
        tried.same("a message that comes by itself", b":3 12 0 6 2Hhi", await talk.line())
        for _ in range(5):
            await second.send(b"9 62 6 0H 0\n")
            tried.same("a wrong password", b"%9 4 6", await second.line())
        begun = time.monotonic()
        await second.send(b"9 62 6 1Hx 0\n")
        await talk.send(b"9 62 5 1Hx 0\n")
        tried.same("another's wrong one", b"%9 4 5", await talk.line())
        tried.same("a right one that waits", b"=9", await second.line())
        tried.same("it waited", True, time.monotonic() - begun >= 0.99)
        await talk.send(b"9 55 0\n")
        tried.same("an end that was asked for", (b"=9", (1001, b"")), (await talk.line(), await talk.end()))
    log = {"127.0.0.2 login of 6", "127.0.0.2 wrong password of 6", "127.0.0.1 may not make a person"}
    tried.same("what the log lacks", set(), log - set(front.told().splitlines()))
    front.end()


async def try_origins(place):
    """Part 3."""
    front = place.front()
    async with place.browser() as browser:
        url = place.url(front, "/kom")
        own = f"{NAME}:{front.web}"
        for origin in ("https://elsewhere.example", f"http://{own}", f"https://{NAME}", "null", f"https://{own}.example"):
            try:
                await browser.opens(url, origin=origin)
                status = 101
            except aiohttp.WSServerHandshakeError as refused:
                status = refused.status
            place.tried.same(f"the status for {origin}", 403, status)
        upgrade = {"Connection": "Upgrade", "Upgrade": "websocket", "Sec-WebSocket-Version": "13", "Sec-WebSocket-Key": "x" * 22 + "=="}
        place.tried.same("the status without one", 403, (await browser.get(url, headers=upgrade))[0])
    front.end()


async def try_ends(place):
    """Part 4."""
    tried, server = place.tried, Server(place.program, make_store(place.program, str(place.folder / "small")), 4)
    place.servers.append(server)
    front = place.front("--greeting", "2", "--connections", "3", server=server, places=4)
    url = place.url(front, "/kom")
    async with place.browser() as browser, place.browser("127.0.0.2") as other:
        talks = [await browser.opens(url) for _ in range(2)]
        for talk in talks:
            await talk.send(b"A1Ha")
            tried.same("a greeting", b"LysKOM", await talk.line())
        full = await other.opens(url)
        await full.send(b"A1Ha")
        tried.same("the end where all places are taken", (1013, b""), await full.end())
        late = await browser.opens(url)
        crowded = await browser.opens(url)
        tried.same("the end of one more than an address has", (1008, b""), await crowded.end())
        tried.same("the end without a greeting", (1008, b""), await late.end())
        reasons = "this address has as many sessions as it may have", "no greeting came in time"
        tried.same("their reasons", reasons, (crowded.reason, late.reason))
        wrong = await browser.opens(url)
        await wrong.send(b"B")
        tried.same("the end of no greeting", (1002, b"%%Protocol error.\n"), await wrong.end())
        await talks[0].socket.send_str("1 56\n")
        tried.same("the end of letters", (1002, b"%%Protocol error.\n"), await talks[0].end())
        server.kill()
        tried.same("the end of the server", (1001, b""), await talks[1].end())
        gone = await browser.opens(url)
        await gone.send(b"A1Ha")
        tried.same("the end without a server", (1013, b""), await gone.end())
    front.end()


async def try_silent(place):
    """Part 5."""
    tried, front = place.tried, place.front("--greeting", "1")
    silent = [front.bare(port=front.web), *[await asyncio.to_thread(front.connect, port=front.web) for _ in range(2)]]
    silent[2].sendall(b"GET / HTTP/1.1\r\nHost: x\r\nX-More")
    tried.same("connections that asked for nothing", [True] * 3, [is_closed(connection) for connection in silent])
    many = [front.bare(source="127.0.0.2", port=front.web) for _ in range(33)]
    tried.same("a 33rd connection", True, is_closed(many[32]))
    async with place.browser() as browser:
        tried.same("another address", 200, (await browser.get(place.url(front)))[0])
    front.end()


async def forwarded(place, url, browser, origin=None):
    """What a session comes to that a proxy tells of."""
    talk = await browser.opens(url, origin, headers={"X-Forwarded-For": "10.9.9.9, 192.0.2.7", "X-Forwarded-Proto": "https"})
    await talk.send(b"A1Ha1 62 5 1Hx 0\n")
    place.tried.same("a session through a proxy", [b"LysKOM", b"%1 4 5"], [await talk.line() for _ in range(2)])
    await talk.socket.close()


async def try_proxies(place):
    """Part 6."""
    tried = place.tried
    front = place.front(tls=False)
    async with place.browser(tls=False) as browser:
        await forwarded(place, place.url(front, "/kom"), browser)
        tried.same("HSTS without TLS", None, (await browser.get(place.url(front)))[1].get("Strict-Transport-Security"))
    tried.same("the log without a proxy", "127.0.0.1 wrong password of 5\n", front.told())
    front.end()
    front = place.front("--proxy", "127.0.0.1", tls=False)
    async with place.browser(tls=False) as browser, place.browser("127.0.0.2", tls=False) as other:
        url, https = place.url(front, "/kom"), place.url(front).rstrip("/").replace("http", "https")
        await forwarded(place, url, browser, https)
        await forwarded(place, url, other)
        _, headers, _ = await browser.get(place.url(front), headers={"X-Forwarded-Proto": "https"})
        tried.same("what the proxy's browser is told", ("max-age=31536000", True),
                   (headers.get("Strict-Transport-Security"), f"wss://{NAME}" in headers["Content-Security-Policy"]))
    tried.same("the log with one", "192.0.2.7 wrong password of 5\n127.0.0.2 wrong password of 5\n", front.told())
    if shutil.which("nginx"):
        await try_nginx(place, front)
    else:
        print("nginx is not installed: the door was not tried behind it")
    front.end()


async def try_nginx(place, front):
    """Part 6, behind nginx."""
    folder, port = place.folder / "nginx", free_port()
    folder.mkdir()
    site = (ROOT / "contrib" / "komd-front.nginx").read_text()
    certificate, key = map(str, place.certificate)
    for here, there in (("listen 443", f"listen {port}"), ("listen [::]", "#"), ("127.0.0.1:8080", f"127.0.0.1:{front.web}"),
                        ("/etc/komd-front/cert.pem", certificate), ("/etc/komd-front/key.pem", key), ("kom.example.org", NAME)):
        site = site.replace(here, there)
    temporary = "".join(f"{name}_temp_path {folder}/{name};\n" for name in ("client_body", "proxy", "fastcgi", "uwsgi", "scgi"))
    (folder / "conf").write_text(f"daemon off;\nworker_processes 1;\npid {folder}/pid;\nerror_log {folder}/log;\nevents {{ }}\n"
                                 f"http {{\naccess_log off;\n{temporary}{site}}}\n")
    nginx = subprocess.Popen(["nginx", "-e", folder / "log", "-c", folder / "conf"])
    try:
        end = time.monotonic() + PATIENCE
        while not is_heard(port) and nginx.poll() is None and time.monotonic() < end:
            await asyncio.sleep(0.02)
        async with place.browser("127.0.0.5") as browser:
            status, headers, body = await browser.get(f"https://{NAME}:{port}/")
            place.tried.same("the page behind nginx", (200, "<!doctype html>\n", ["max-age=31536000"]),
                             (status, body, headers.getall("Strict-Transport-Security", [])))
            await forwarded(place, f"https://{NAME}:{port}/kom", browser)
        place.tried.same("the log behind nginx", "127.0.0.5 wrong password of 5", front.told().splitlines()[-1])
    finally:
        nginx.terminate()
        nginx.wait(PATIENCE)


async def tried_all(place):
    for part in (try_page, try_sessions, try_origins, try_ends, try_silent, try_proxies):
        await part(place)


def main(words):
    if aiohttp is None:
        print("python3-aiohttp is not installed: the door for browsers was not tried")
        return 0
    limit_seconds(LIMIT_SECONDS)
    with tempfile.TemporaryDirectory(dir=folder_in_memory()) as folder:
        place = Place(program_of(words), pathlib.Path(folder))
        try:
            asyncio.run(tried_all(place))
        finally:
            place.end()
    print(f"{place.tried.count} things looked at, {place.tried.failed} are otherwise")
    return 1 if place.tried.failed else 0


if __name__ == "__main__":
    script(main, __doc__)
