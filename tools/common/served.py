"""What the scripts that drive `komd serve` over loopback have in common: a store that is served, and sessions at its port."""
import errno
import os
import pathlib
import random
import re
import signal
import socket
import subprocess
import threading
import time

from built import Wrong
from protocol import STRING, string

ADMINISTRATOR = 5
# The statuses where the store is open in another process or failed, where it is no store or a damaged one, and where a port failed.
STORE_FAILED, UNFIT, PORT_FAILED = 3, 4, 5
# How long a script waits for one thing, in seconds.
PATIENCE = 30


def wants(what, got, wanted):
    """Fails where what there is is not what is wanted."""
    if got != wanted:
        raise Wrong(f"{what} is {got!r:.300}, not {wanted!r:.300}")


def limit_seconds(seconds):
    """Has the script fail where it takes longer."""

    def late(_number, _frame):
        raise Wrong(f"not done after {seconds} seconds")

    signal.signal(signal.SIGALRM, late)
    signal.alarm(seconds)


def folder_in_memory():
    """A folder of which the files lie in memory, or None for the usual one."""
    return "/dev/shm" if os.access("/dev/shm", os.W_OK) else None


def has_ipv6():
    """Whether the machine has the loopback address of IPv6."""
    try:
        with socket.socket(socket.AF_INET6, socket.SOCK_STREAM) as probe:
            probe.bind(("::1", 0))
        return True
    except OSError:
        return False


def is_heard(port):
    """Whether somebody listens at a port. The port is left alone, so that nobody who is about to take it is refused."""
    for family in ("tcp", "tcp6"):
        for line in pathlib.Path("/proc/self/net", family).read_text(encoding="ascii").splitlines()[1:]:
            _, local, _, state = line.split()[:4]
            if state == "0A" and int(local.rpartition(":")[2], 16) == port:
                return True
    return False


def is_free(port):
    """Whether nobody listens at a port of any address."""
    for family, address in ((socket.AF_INET, "0.0.0.0"), (socket.AF_INET6, "::")):
        try:
            with socket.socket(family, socket.SOCK_STREAM) as probe:
                # (connections that linger after their server do not count)
                probe.setsockopt(socket.SOL_SOCKET, socket.SO_REUSEADDR, 1)
                probe.bind((address, port))
        except OSError as error:
            if error.errno == errno.EADDRINUSE:
                return False
    return True


class Ended(Wrong):
    """A server ended before it served."""

    def __init__(self, status, said):
        super().__init__(f"the server ended with status {status}: {said!r:.200}")
        self.status = status


def hear_signals():
    """Before a program begins: who is run by a shell in the background, or after a hangup, would have it ignore these signals too."""
    for number in (signal.SIGHUP, signal.SIGINT):
        signal.signal(number, signal.SIG_DFL)


class Server:
    """A store that is served by so many workers, at the first of the ports that is free, or at one that is drawn: with more in the
    environment than this process has, if it is given, with what the process is to do before the program begins, and by another
    word than `serve`."""

    def __init__(self, program, store, workers, environment=(), begin=None, ports=None, patience=PATIENCE, word="serve"):
        # Below the ports that systems give to connections.
        for port in ports or random.sample(range(20_000, 30_000), 5):
            if not is_free(port):
                continue
            self.port = port
            self.process = subprocess.Popen(
                [program, word, store, str(port), str(workers)],
                stdout=subprocess.PIPE,
                stderr=subprocess.STDOUT,
                env={**os.environ, **dict(environment)},
                preexec_fn=begin,
            )
            try:
                if self.is_reached(patience):
                    return
            except BaseException:
                self.kill()
                raise
            if self.process.returncode != PORT_FAILED:
                raise Ended(self.process.returncode, self.process.stdout.read())
        raise Wrong("no port is free")

    def is_reached(self, patience):
        """Whether somebody listens at the port before the server ends."""
        end = time.monotonic() + patience
        while time.monotonic() < end:
            try:
                socket.create_connection(("127.0.0.1", self.port), 1).close()
                if self.process.poll() is None:
                    return True
            except OSError:
                if self.process.poll() is not None:
                    return False
            time.sleep(0.02)
        raise Wrong("the server does not listen")

    def wait(self, seconds=PATIENCE):
        """The status with which the server ends, which writes nothing."""
        try:
            told, _ = self.process.communicate(timeout=seconds)
        except subprocess.TimeoutExpired:
            raise Wrong(f"the server has not ended after {seconds} seconds") from None
        if told:
            raise Wrong(f"the server wrote {told!r:.200}")
        return self.process.returncode

    def end(self):
        """Ends the server by SIGTERM, if it runs."""
        if self.process.poll() is None:
            self.process.terminate()
        self.process.communicate()

    def kill(self):
        """Ends the server by signal 9, if it runs."""
        if self.process.poll() is None:
            self.process.kill()
        self.process.communicate()

    def processor_seconds(self):
        """How much processor time the server has used, by clock ticks."""
        fields = pathlib.Path(f"/proc/{self.process.pid}/stat").read_text(encoding="ascii").rsplit(") ", 1)[1].split()
        return (int(fields[11]) + int(fields[12])) / os.sysconf("SC_CLK_TCK")

    def resident(self):
        """How many KiB of memory the server has resident."""
        told = pathlib.Path(f"/proc/{self.process.pid}/status").read_text(encoding="ascii")
        return int(re.search(r"VmRSS:\s*(\d+) kB", told)[1])


class Session:
    """A connection whose greeting was answered, or one that has sent nothing if there is no user."""

    def __init__(self, port, user="somebody", address="127.0.0.1", receive=None):
        family = socket.AF_INET6 if ":" in address else socket.AF_INET
        self.socket = socket.socket(family, socket.SOCK_STREAM)
        if receive is not None:
            self.socket.setsockopt(socket.SOL_SOCKET, socket.SO_RCVBUF, receive)
        self.socket.settimeout(PATIENCE)
        self.socket.connect((address, port))
        self.socket.setsockopt(socket.IPPROTO_TCP, socket.TCP_NODELAY, 1)
        self.file = self.socket.makefile("rb")
        self.reference = 0
        self.messages = []
        if user is not None:
            self.write(f"A{string(user)}\n")
            if (line := self.line()) != "LysKOM":
                raise Wrong(f"the greeting is answered {line!r}")

    def write(self, text):
        """Sends these bytes."""
        self.socket.sendall(text.encode("latin-1"))

    def line(self):
        """The next line without its line feed, or None at the end of the connection. Strings may have line feeds."""
        line, place = self.file.readline(), 0
        while found := STRING.search(line, place):
            place = found.end() + int(found[1])
            if len(line) <= place:
                line += self.file.read(place - len(line)) + self.file.readline()
        return line[:-1].decode("latin-1") if line.endswith(b"\n") else None

    def send(self, call):
        """Sends a call, and returns its reference."""
        self.reference += 1
        self.write(f"{self.reference} {call}\n")
        return self.reference

    def answer(self, reference):
        """The reply, its reference left out; messages that come before it are kept."""
        while (line := self.line()) is not None and line.startswith(":"):
            self.messages.append(line)
        if line is None:
            raise Wrong("the connection ended")
        sign, told, result = line[0], *(line[1:].split(" ", 1) + [""])[:2]
        if sign not in "=%" or told != str(reference):
            raise Wrong(f"{line!r:.200} in place of a reply to {reference}")
        return sign + result

    def reply(self, reference):
        """The result of a good reply."""
        answer = self.answer(reference)
        if not answer.startswith("="):
            raise Wrong(f"call {reference} is answered {answer!r:.200}")
        return answer[1:]

    def ask(self, call):
        """The result of a call, which is good."""
        return self.reply(self.send(call))

    def try_to(self, call):
        """What a call is answered, good or not."""
        return self.answer(self.send(call))

    def ask_all(self, calls):
        """The results of calls that are sent together; all are good."""
        first = self.reference + 1
        self.write("".join(f"{first + place} {call}\n" for place, call in enumerate(calls)))
        self.reference += len(calls)
        return [self.reply(first + place) for place in range(len(calls))]

    def login(self, person=ADMINISTRATOR, password=""):
        """Logs in, and returns the session itself."""
        self.ask(f"62 {person} {string(password)} 0")
        return self

    def message(self):
        """The next message."""
        if not self.messages:
            line = self.line()
            if line is None or not line.startswith(":"):
                raise Wrong(f"{line!r:.200} in place of a message")
            self.messages.append(line)
        return self.messages.pop(0)

    def rest(self):
        """The lines up to the end of the connection, which is closed then."""
        lines = []
        while (line := self.line()) is not None:
            lines.append(line)
        self.close()
        return lines

    def end(self):
        """Ends what is sent, and returns the lines up to the end of the connection."""
        self.socket.shutdown(socket.SHUT_WR)
        return self.rest()

    def close(self):
        self.file.close()
        self.socket.close()


def stop(server, password=""):
    """Stops a server by call 44, and returns its session."""
    session = Session(server.port, "stopper").login(ADMINISTRATOR, password)
    session.ask("42 255")
    session.ask("44 0")
    return session


def side_by_side(count, work):
    """Has each of so many threads do its work, by its number, and fails if one of them did."""
    faults = []

    def run(number):
        try:
            work(number)
        except (Wrong, OSError, threading.BrokenBarrierError) as fault:
            faults.append((number, fault))

    threads = [threading.Thread(target=run, args=(number,), daemon=True) for number in range(count)]
    for thread in threads:
        thread.start()
    for thread in threads:
        thread.join()
    if faults:
        real = [fault for fault in faults if not isinstance(fault[1], threading.BrokenBarrierError)] or faults
        raise Wrong(f"{len(faults)} of {count} connections failed, number {real[0][0]} first: {real[0][1]!r}")
