#!/usr/bin/env python3
"""Has the client `komc` talk over sockets: client_talks.py [KOMD [KOMC]]

It makes a store, has `komd serve` serve it at a port of this machine, and wants
1. that each key and each refusal shows what it has to, byte by byte, by `komc` and by `contrib/kom` without a terminal, with keys
   that come at once and one byte at a time;
2. that a talk ends with 0 where its keys end, and else with 1: with other words, where nobody listens, and where call 44 has
   stopped the server, which ends with 0;
3. that `komc` finds a server that listens at one address of localhost alone, at each of them, and shows messages that it is sent.
It prints a line for each part, and ends with 1 where one of them fails. KOMD and KOMC are the programs that `rt ci` leaves, unless
they are named.
"""
import os
import pathlib
import socket
import subprocess
import sys
import tempfile
import threading
import time

sys.path.insert(0, str(pathlib.Path(__file__).resolve().parents[1] / "common"))
from built import ROOT, Wrong, make_store, program_of, script
from served import PATIENCE, Server, Session, wants

LONG = b"a" * 65000
# What is typed, and what is shown for it, with `?` for each line that asks for nothing.
TALK = [
    (b"list", b"error 6 0"),
    (b"login 5 secret", b"ok"),
    (b"list", b"ok 0 *"),
    (b"write 5 one", b"ok 1"),
    (b"comment 5 1 \xff\x1b[31mred", b"ok 2"),
    (b"comment\t0000000005 01\r\t", b"ok 3"),
    (b"read 1", b"ok 3Hone"),
    (b"read 0000000002", b"ok 9H\xff\x1b[31mred"),
    (b"read 3", b"ok 1H\t"),
    (b" read 3", b"?"),
    (b"read  3", b"?"),
    (b"read 3 ", b"?"),
    (b"list", b"ok 1 { 5 }"),
    (b"mark 5 1", b"ok"),
    (b"mark 5 4", b"error 16 4"),
    (b"list", b"ok 1 { 5 }"),
    (b"mark 5 02", b"ok"),
    (b"mark 5 3", b"ok"),
    (b"list", b"ok 0 *"),
    (b"read 9", b"error 14 9"),
    (b"read 4294967295", b"error 14 4294967295"),
    (b"read 00000000001", b"?"),
    (b"read", b"?"),
    (b"Read 1", b"?"),
    (b"write 5", b"?"),
    (b"write 5 ", b"ok 4"),
    (b"write 5 " + LONG, b"ok 5"),
    (b"read 5", b"ok 65000H" + LONG),
    (b"write 5 " + b"a" * 65536, b"?"),
    (b"", b"?"),
    (b"write 9 none", b"error 9 9"),
    (b"login 7 none", b"error 10 7"),
    (b"list", b"error 10 7"),
    (b"login 5 other", b"error 4 5"),
]


class Client:
    """A client at work, whose talk is to end in time."""

    def __init__(self, words, komc):
        self.process = subprocess.Popen(words, stdin=subprocess.PIPE, stdout=subprocess.PIPE, env={**os.environ, "KOMC": komc})

    def ends(self, keys=b""):
        """Types the last keys and closes the input; the status, and what was shown since the last line that was awaited."""
        shown, _ = self.process.communicate(keys, PATIENCE)
        return self.process.returncode, shown

    def line(self, keys):
        """Types these keys, and awaits a line."""
        self.process.stdin.write(keys)
        self.process.stdin.flush()
        return self.process.stdout.readline()


def each_key(komd, komc, words):
    """Part 1, with a store of its own: what was shown, with these words before those of the client."""
    with tempfile.TemporaryDirectory() as folder:
        server = served(komd, folder)
        client = Client([*words, "--port", str(server.port), "--user", "Hanna"], komc)
        try:
            keys = b"".join(typed + b"\n" for typed, _ in TALK) + b"read 1, and no line feed"
            if words[0] == komc:
                start = keys.index(LONG)
                for byte in keys[:start]:
                    client.process.stdin.write(bytes([byte]))
                    client.process.stdin.flush()
                keys = keys[start:]
            status, shown = client.ends(keys)
        finally:
            client.process.kill()
            server.process.kill()
    for (typed, answer), line in zip(TALK, shown.split(b"\n")):
        wants(typed[:60], line, answer)
    wants("the whole", shown, b"".join(answer + b"\n" for _, answer in TALK))
    wants("the status", status, 0)


def served(komd, folder):
    return Server(komd, make_store(komd, pathlib.Path(folder) / "store", "secret"), 4)


def ends(komd, komc):
    """Part 2."""
    for words in [[], ["--port", "0", "--user", "u"], ["--port", "4894"], ["--user", "u", "--port", "4894"]]:
        wants(words, Client([komc, *words], komc).ends(), (1, b""))
    with socket.socket() as probe:
        probe.bind(("127.0.0.1", 0))
        free = str(probe.getsockname()[1])
    wants("nobody listens", Client([komc, "--port", free, "--user", "u"], komc).ends(), (1, b""))
    with tempfile.TemporaryDirectory() as folder:
        server = served(komd, folder)
        words = ["--port", str(server.port), "--user", "Hanna"]
        talks = [Client([komc, *words], komc), Client([ROOT / "contrib/kom", *words], komc)]
        wants("a number that is none", Client([komc, *words], komc).ends(b"login 5 secret\nread 4294967296\nlist\n"), (1, b"ok\n"))
        quiet = Client([komc, *words], komc)
        try:
            for talk in [*talks, quiet]:
                wants("the login", talk.line(b"login 5 secret\n"), b"ok\n")
            administrator = Session(server.port, "administrator")
            for call in ["62 5 6Hsecret 0", "42 255", "44 0"]:
                administrator.ask(call)
            administrator.rest()
            wants("the server", server.wait(PATIENCE), 0)
            for talk in talks:
                wants("a key after call 44", talk.ends(b"list\n"), (1, b""))
            wants("no key after call 44", quiet.ends(), (0, b""))
        finally:
            for one in [*talks, quiet, server]:
                one.process.kill()


def answer_once(listener):
    """Answers one client's greeting, and its first request after two messages."""
    connection, _ = listener.accept()
    with connection, connection.makefile("rb") as lines:
        lines.readline()
        connection.sendall(b"LysKOM\n")
        lines.readline()
        connection.sendall(b":2 9 5 1\n:3 12 5 6 4Hmore\n")
        time.sleep(0.1)
        connection.sendall(b"=1 0 *\n")


def each_address(komc):
    """Part 3: the addresses at which `komc` was served."""
    found = []
    for family, kind, _, _, address in socket.getaddrinfo("localhost", 0, type=socket.SOCK_STREAM):
        with socket.socket(family, kind) as listener:
            try:
                listener.bind(address)
            except OSError:
                continue
            listener.listen()
            listener.settimeout(PATIENCE)
            thread = threading.Thread(target=answer_once, args=(listener,), daemon=True)
            thread.start()
            client = Client([komc, "--port", str(listener.getsockname()[1]), "--user", "u"], komc)
            wants(address, client.ends(b"list\n"), (0, b"* 2 9 5 1\n* 3 12 5 6 4Hmore\nok 0 *\n"))
            thread.join()
        found.append(address[0])
    if not found:
        raise Wrong("localhost has no address")
    return found


def main(words):
    komd, komc = program_of(words), program_of(words, 1, "komc")
    each_key(komd, komc, [komc])
    each_key(komd, komc, [str(ROOT / "contrib/kom")])
    print(f"{len(TALK)} lines that are typed show what they have to, by komc and by contrib/kom")
    ends(komd, komc)
    print("talks end with their keys, and after call 44 with the next one")
    print(f"a server is found at each of {', '.join(each_address(komc))}")


if __name__ == "__main__":
    script(main, __doc__)
