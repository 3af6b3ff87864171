"""A front door before a served store, its certificate, and sessions through it from several addresses of this machine."""
import random
import re
import signal
import socket
import ssl
import subprocess
import time

from built import ROOT, Wrong
from protocol import string
from served import PATIENCE, Server, Session, is_free, is_heard

FRONT = ROOT / "contrib" / "komd-front"
NAME = "localhost"


def free_port():
    """A port at which nobody listens."""
    for port in random.sample(range(20_000, 30_000), 50):
        if is_free(port):
            return port
    raise Wrong("no port is free")


def make_certificate(folder, name="door"):
    """A certificate for this machine, and its key, which nobody else has signed."""
    certificate, key = folder / f"{name}.pem", folder / f"{name}.key"
    subprocess.run(
        ["openssl", "req", "-x509", "-newkey", "ec", "-pkeyopt", "ec_paramgen_curve:P-256", "-nodes", "-days", "2", "-subj", f"/CN={name}",
         "-addext", f"subjectAltName=DNS:{NAME},IP:127.0.0.1", "-keyout", key, "-out", certificate],
        check=True, capture_output=True)
    return certificate, key


def is_closed(connection):
    """Whether a connection ends without a word, before patience does."""
    try:
        return connection.recv(100) == b""
    except TimeoutError:
        return False
    except OSError:
        return True


def kill_all():
    """Ends by signal 9 the doors that were begun and have not ended, as where a script fails."""
    for front in Front.begun:
        if front.process.poll() is None:
            front.process.kill()
            front.process.wait()


class Again(Server):
    """A store that is served at the port of a server that has ended, whose connections the system still remembers."""

    def __init__(self, program, store, port, workers):  # pylint: disable=super-init-not-called
        self.port = port
        words = [program, "serve", store, str(port), str(workers)]
        self.process = subprocess.Popen(words, stdout=subprocess.PIPE, stderr=subprocess.STDOUT)
        if not self.is_reached(PATIENCE):
            raise Wrong(f"the server ended with status {self.process.returncode}")


class Front:
    """A front door that runs, with its log."""

    begun = []
    # A door is looked at as a server is.
    resident, processor_seconds = Server.resident, Server.processor_seconds

    def __init__(self, folder, komd, *words, certificate=(), ports=("--port",)):
        self.port, self.web, given = None, None, []
        for word in ports:
            port = free_port()
            given += [word, str(port)]
            if word == "--port":
                self.port = port
            else:
                self.web = port
        self.certificate = certificate[0] if certificate else None
        if certificate:
            given += ["--cert", certificate[0], "--key", certificate[1], "--listen", "127.0.0.1"]
        self.log = folder / f"log.{given[1]}"
        with open(self.log, "wb") as log:
            self.process = subprocess.Popen([FRONT, "--komd", str(komd), *given, *words], stdout=log, stderr=log)
        self.begun.append(self)
        self.await_ports([self.port, self.web])

    def await_ports(self, ports):
        """Waits until somebody listens at the ports."""
        end = time.monotonic() + PATIENCE
        for port in filter(None, ports):
            while not is_heard(port):
                if self.process.poll() is not None or time.monotonic() > end:
                    raise Wrong(f"the door does not listen: {self.told()}")
                time.sleep(0.02)

    def told(self):
        """What stands in the log, without its times."""
        return re.sub(r"^\S+Z ", "", self.log.read_text(), flags=re.MULTILINE)

    def connect(self, source="127.0.0.1", port=None, receive=None):
        """A connection from an address, over TLS if the door has it."""
        connection = self.bare(source, port, receive)
        if self.certificate:
            connection = ssl.create_default_context(cafile=self.certificate).wrap_socket(connection, server_hostname=NAME)
        return connection

    def bare(self, source="127.0.0.1", port=None, receive=None):
        """A connection on which nothing was said yet."""
        connection = socket.socket()
        if receive:
            connection.setsockopt(socket.SOL_SOCKET, socket.SO_RCVBUF, receive)
        connection.settimeout(PATIENCE)
        connection.bind((source, 0))
        connection.connect(("127.0.0.1", port or self.port))
        connection.setsockopt(socket.IPPROTO_TCP, socket.TCP_NODELAY, 1)
        return connection

    def end(self):
        """Ends the door by a signal, and returns its status. It must not have had a fault that it did not expect."""
        self.process.send_signal(signal.SIGTERM)
        try:
            status = self.process.wait(PATIENCE)
        except subprocess.TimeoutExpired:
            self.process.kill()
            raise Wrong("the door does not end") from None
        if "Traceback" in self.told() or "Task " in self.told():
            raise Wrong(f"the door had a fault: {self.told()[-2000:]}")
        return status


class Guest(Session):
    """A session through a door."""

    def __init__(self, front, source="127.0.0.1", user="guest", receive=None):  # pylint: disable=super-init-not-called
        self.socket = front.connect(source, receive=receive)
        self.file = self.socket.makefile("rb")
        self.reference, self.messages = 0, []
        if user is not None:
            self.write(f"A{string(user)}\n")
            if (line := self.line()) != "LysKOM":
                self.close()
                raise Wrong(f"the greeting is answered {line!r}")
