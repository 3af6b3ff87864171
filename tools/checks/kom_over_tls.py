#!/usr/bin/env python3
"""Has `kom --tls` talk to a server behind TLS, on a terminal: kom_over_tls.py [KOMD [KOMT]]

It has `komd serve` serve a club at a port of this machine, and a relay with a certificate carry what comes to another one over TLS. It wants
that a member who trusts the certificate visits through it; that one who does not, and one who asks for the server by another name, is
told so and sends no password; that no letter at the beginning of a piece ends the connection; and that no process is left. It wants
openssl. KOMD and KOMT are the programs that `rt ci` leaves, unless they are named.
"""
import contextlib
import os
import pathlib
import pty
import shutil
import socket
import ssl
import subprocess
import sys
import tempfile
import threading
import time

sys.path.insert(0, str(pathlib.Path(__file__).resolve().parents[1] / "common"))
from built import ROOT, Wrong, make_store, program_of, script
from protocol import string
from served import PATIENCE, Server, Session, wants

KOM = str(ROOT / "contrib" / "kom")
GONE = b"* The server has gone. Enter asks for it again."


class Relay:
    """A port that speaks TLS, and carries what it is sent to another one."""

    def __init__(self, port, certificate, key):
        self.port_behind, self.carried = port, b""
        self.context = ssl.SSLContext(ssl.PROTOCOL_TLS_SERVER)
        self.context.load_cert_chain(certificate, key)
        self.socket = socket.create_server(("127.0.0.1", 0))
        self.port = self.socket.getsockname()[1]
        threading.Thread(target=self.serve, daemon=True).start()

    def serve(self):
        while True:
            near, _ = self.socket.accept()
            threading.Thread(target=self.carry, args=(near,), daemon=True).start()

    def carry(self, near):
        with contextlib.suppress(OSError), self.context.wrap_socket(near, server_side=True) as near:
            far = socket.create_connection(("127.0.0.1", self.port_behind))
            threading.Thread(target=self.carry_back, args=(far, near), daemon=True).start()
            while data := near.recv(10_000):
                self.carried += data
                far.sendall(data)
            far.close()

    def carry_back(self, far, near):
        with contextlib.suppress(OSError):
            while data := far.recv(10_000):
                near.sendall(data)
            near.unwrap()


class Terminal:
    """A kom on a terminal of its own."""

    def __init__(self, komt, words, trusted):
        child, self.terminal = pty.fork()
        if child == 0:
            # (without rlwrap, whose lines would be redrawn)
            os.environ.update(KOMT=komt, KOMC="/nonexistent", SSL_CERT_FILE=trusted, KOM_UNDER_RLWRAP="1")
            os.execv(KOM, [KOM, *words])
        self.process, self.shown = child, b""

    def wants(self, end):
        """Waits until this is shown."""
        late = time.monotonic() + PATIENCE
        while end not in self.shown:
            try:
                some = os.read(self.terminal, 10_000)
            except OSError:
                some = b""
            if not some or time.monotonic() > late:
                raise Wrong(f"{self.shown[-500:]!r} does not come to {end!r}")
            self.shown += some
        self.shown = self.shown.partition(end)[2]

    def types(self, keys):
        os.write(self.terminal, keys)

    def ends(self):
        """The status with which it ends."""
        with contextlib.suppress(OSError):
            while os.read(self.terminal, 10_000):
                pass
        _, status = os.waitpid(self.process, 0)
        os.close(self.terminal)
        return os.waitstatus_to_exitcode(status)


def certificate(folder):
    """A certificate for this machine, and its key."""
    made, key = folder / "certificate.pem", folder / "key.pem"
    words = ["openssl", "req", "-x509", "-newkey", "ec", "-pkeyopt", "ec_paramgen_curve:P-256", "-nodes", "-days", "2", "-subj", "/CN=localhost"]
    words += ["-addext", "subjectAltName=DNS:localhost,IP:127.0.0.1", "-out", made, "-keyout", key]
    subprocess.run(words, check=True, capture_output=True)
    return str(made), str(key)


def left(port):
    """The processes that talk to a port by openssl."""
    found = []
    for place in pathlib.Path("/proc").glob("[0-9]*/cmdline"):
        with contextlib.suppress(OSError):
            if b"s_client" in (words := place.read_bytes()) and b":%d\0" % port in words:
                found.append(words)
    return found


def visits(komd, komt, folder):
    trusted, key = certificate(folder)
    nobody = folder / "nobody.pem"
    nobody.write_bytes(b"")
    server = Server(komd, make_store(komd, folder / "store", "secret"), 4)
    try:
        session = Session(server.port)
        session.ask(f"89 {string('Anna Berg')} 3Hjay 00000000 0 {{ }}")
        relay = Relay(server.port, trusted, key)
        place = ["--port", str(relay.port), "anna berg"]
        for host in ("localhost", "127.0.0.1"):
            kom = Terminal(komt, ["--tls", "--host", host, *place], trusted)
            kom.wants(b"Password:")
            kom.types(b"jay\n")
            kom.wants(b"Welcome, Anna Berg.")
            # (a text longer than a piece, each byte of which would be a command of openssl)
            kom.types(b"write 6\nQ\n" + b"".join(b"Q" * 800 + b"\n" + b"R" * 800 + b"\n" for _ in range(40)) + b".\n")
            kom.wants(b"is written.")
            kom.types(b"quit\n")
            wants(f"the end at {host}", kom.ends(), 0)
        wants("the password went through", b" 3Hjay " in relay.carried, True)
        relay.carried = b""
        for what, words, trust in [("who does not trust it", [], str(nobody)), ("another name", ["--host", "127.0.0.2"], trusted)]:
            kom = Terminal(komt, ["--tls", *words, *place], trust)
            kom.wants(b"Password:")
            kom.types(b"jay\n")
            kom.wants(GONE)
            kom.types(b"\x04")
            wants(f"the end of {what}", kom.ends(), 3)
        wants("what was sent to whom is not trusted", relay.carried, b"")
        late = time.monotonic() + PATIENCE
        while left(relay.port) and time.monotonic() < late:
            time.sleep(0.1)
        wants("the processes left", left(relay.port), [])
    finally:
        server.kill()


def main(words):
    if not shutil.which("openssl"):
        print("openssl is not installed: kom --tls was not tried")
        return
    komd, komt = program_of(words), program_of(words, 1, "komt")
    with tempfile.TemporaryDirectory() as folder:
        visits(komd, komt, pathlib.Path(folder))
    print("two visits over TLS, and two that were refused, without a password sent and a process left")


if __name__ == "__main__":
    script(main, __doc__)
