#!/usr/bin/env python3
"""Serves clients that are silent with two workers, and tells the server's clock the time: silent_clients.py [PROGRAM [serve|hub]]

A library that is loaded before the C library has the clock stand still unless this script tells it to go on, and cuts each wait short:
so days pass in seconds. By `serve`, unless the word is hub, clients of each kind take both workers, and a third waits for one of them;
by `hub` the third is answered beside them:

- one that sends a letter, or a letter of its greeting each nine seconds, is there after 29 seconds, and gone after 30;
- one that greets and sends no more, or a line feed each minute, is there a second before 30 minutes, and gone after them;
- one that sent a call, in the piece of its greeting or after it, is there after 41 days of silence, and still answered;
- one that reads nothing of what it asked for is there after 59 seconds, and gone after 60.

Then it looks whether the system asks a silent client of a server without that library after a minute, by /proc/net, and by `ss` where
that is there. It needs a C compiler; where there is none it says so, and ends with 0. It prints a line for each kind, and ends with 1
at the first thing that is otherwise, or after two minutes, else with 0. It takes some fifteen seconds. PROGRAM is the built `komd`
unless it is named.
"""
import collections
import mmap
import pathlib
import re
import select
import shutil
import subprocess
import sys
import tempfile
import time

sys.path.insert(0, str(pathlib.Path(__file__).resolve().parents[1] / "common"))
from built import Wrong, compile_c, make_store, program_of, script
from protocol import string
from served import PATIENCE, Server, Session, folder_in_memory, limit_seconds, stop, wants

LIMIT_SECONDS = 120
MINUTE, DAY = 60, 86_400
# How long a wait of the server lasts at most under the library, in milliseconds.
LONGEST_WAIT = 20
# How the system's table of connections tells of a timer that keeps alive.
KEEP_ALIVE = 2
SHIM_C = r"""
#define _GNU_SOURCE
#include <dlfcn.h>
#include <fcntl.h>
#include <stdlib.h>
#include <sys/epoll.h>
#include <sys/mman.h>
#include <time.h>
static volatile long *later;
__attribute__((constructor)) static void begin(void) {
    int file = open(getenv("LATER"), O_RDONLY);
    if (file < 0) abort();
    later = mmap(0, sizeof *later, PROT_READ, MAP_SHARED, file, 0);
    if (later == MAP_FAILED) abort();
}
int clock_gettime(clockid_t clock, struct timespec *time) {
    int (*real)(clockid_t, struct timespec *) = dlsym(RTLD_NEXT, "clock_gettime");
    int status = real(clock, time);
    if (!status && clock == CLOCK_MONOTONIC) { time->tv_sec = *later; time->tv_nsec = 0; }
    return status;
}
int epoll_wait(int set, struct epoll_event *events, int count, int millis) {
    int (*real)(int, struct epoll_event *, int, int) = dlsym(RTLD_NEXT, "epoll_wait");
    return real(set, events, count, millis < 0 || millis > LONGEST_WAIT ? LONGEST_WAIT : millis);
}
"""


class Late:
    """The clock of a server."""

    def __init__(self, folder, word):
        self.path, self.seconds, self.server, self.word = folder / "later", DAY, None, word
        self.path.write_bytes(DAY.to_bytes(8, sys.byteorder))
        self.file = self.path.open("r+b")
        self.map = mmap.mmap(self.file.fileno(), 8)

    def pass_by(self, seconds):
        """So many seconds go by once the server has done what came before, and it sees what the time is."""
        self.rest()
        self.seconds += seconds
        self.map[:] = self.seconds.to_bytes(8, sys.byteorder)
        for _ in range(2):
            time.sleep(2 * LONGEST_WAIT / 1_000)
            self.rest()

    def rest(self):
        """Waits until each thread of the server waits: on a busy machine one may be about to do something for long."""
        tasks = pathlib.Path(f"/proc/{self.server.process.pid}/task")
        until("each thread waits", lambda: all(state_of(task) == "S" for task in tasks.iterdir()))


def state_of(task):
    """The letter of what a thread does."""
    return (task / "stat").read_text(encoding="ascii").rsplit(") ", 1)[1][0]


def until(what, holds):
    """Waits until something holds."""
    end = time.monotonic() + PATIENCE
    while not holds():
        if end < time.monotonic():
            raise Wrong(f"{what}: not after {PATIENCE} seconds")
        time.sleep(0.01)


def build(folder):
    """The library."""
    (folder / "shim.c").write_text(SHIM_C)
    return compile_c(folder / "shim.c", folder / "shim.so", "-shared", "-fPIC", f"-DLONGEST_WAIT={LONGEST_WAIT}")


def greeted(port, more=""):
    """A client that sent a greeting, and maybe more in the same piece, and was answered."""
    client = Session(port, None)
    client.write(f"A1Hx{more}")
    if (line := client.line()) != "LysKOM":
        raise Wrong(f"a greeting is answered {line!r}")
    return client


# A connection that a server has: the kind of its timer, in how many hundredths of a second that is due, how many bytes its client has not
# taken, and the number of its socket, which is 0 until it is accepted.
Connection = collections.namedtuple("Connection", "timer due waiting socket")


def connections(port):
    """The connections that a server has at a port, as the system tells of them."""
    for name in ("/proc/net/tcp", "/proc/net/tcp6"):
        try:
            rows = pathlib.Path(name).read_text(encoding="ascii").splitlines()[1:]
        except OSError:
            continue
        for row in rows:
            _, local, _, state, queues, timer, _, _, _, number, *_ = row.split()
            if int(local.rsplit(":", 1)[1], 16) == port and state == "01":
                kind, due = timer.split(":")
                yield Connection(int(kind), int(due, 16), int(queues.split(":")[0], 16), int(number))


def connected(port):
    """Two clients that have sent nothing, and were accepted."""
    clients = [Session(port, None) for _ in range(2)]
    until("two clients are accepted", lambda: sum(one.socket != 0 for one in connections(port)) == 2)
    return clients


def is_there(client):
    """Whether a client's connection is open, from which nothing is to be read."""
    return not select.select([client.socket], [], [], 0)[0]


def are_gone(what, late, port, clients, seconds, passed=0):
    """Clients for whom some seconds have gone by are there a second before all have, and gone then: a third is answered, once a worker
    of `serve` has no other."""
    waiting = third(late, port, what, "1 56\n")
    late.pass_by(seconds - 1 - passed)
    wants(f"{what}, a second before", [is_there(client) for client in (*clients, *waiting)], [True] * len((*clients, *waiting)))
    late.pass_by(1)
    are_let_in(what, waiting)
    wants(f"{what}, what came at the end", [client.line() for client in clients], [None, None])
    for client in clients:
        client.close()
    print(f"{what}: gone after {seconds} seconds")


def third(late, port, what, more=""):
    """A third client, in a list: it waits for a worker of `serve`. By `hub` it is answered at once, and the list is empty."""
    waiting = Session(port, None)
    waiting.write(f"A1Hw\n{more}")
    if late.word == "serve":
        return [waiting]
    are_let_in(what, [waiting])
    return []


def are_let_in(what, waiting):
    """Clients that waited for a worker are answered."""
    for one in waiting:
        if not select.select([one.socket], [], [], PATIENCE)[0]:
            raise Wrong(f"{what}: a third is not answered")
        wants(f"{what}, who waited", one.line(), "LysKOM")
        one.end()


def are_served(what, late, clients, minutes=(31, 1_440, 40 * 1_440)):
    """Clients that take both workers are there after each of these times, and answered in the end."""
    for each in minutes:
        late.pass_by(each * MINUTE)
        wants(f"{what}, there", [is_there(client) for client in clients], [True, True])
    for client in clients:
        client.reference = 9
        client.ask("56")
        client.end()
    print(f"{what}: answered after {sum(minutes)} minutes")


def dribble(what, late, port, clients, pieces, each, seconds):
    """Two clients that send these pieces, and so many seconds go by after each of them."""
    for piece in pieces:
        for client in clients:
            client.write(piece)
        late.pass_by(each)
    are_gone(what, late, port, clients, seconds, len(pieces) * each)


def unread(late, port):
    """Two clients that ask for more than their connections hold, and read nothing."""
    writer = Session(port).login()
    text = writer.ask(f"86 {string('x' * 1_000_000)} 0 {{ }} 0 {{ }}")
    writer.end()
    clients = [Session(port, receive=4_096).login() for _ in range(2)]
    for client in clients:
        client.write("".join(f"{place} 25 {text} 0 1000000\n" for place in range(40)))
    waiting = third(late, port, "clients that read nothing")
    seen = []

    def are_full():
        seen.append(sorted(one.waiting for one in connections(port) if one.waiting))
        return len(seen) > 100 and len(seen[-1]) == 2 and all(each == seen[-1] for each in seen[-100:])

    until("two clients are sent no more", are_full)
    late.pass_by(59)
    wants("clients that read nothing, who waits", [is_there(one) for one in waiting], [True] * len(waiting))
    late.pass_by(1)
    are_let_in("clients that read nothing", waiting)
    if late.word == "hub":
        until("two clients are gone", lambda: not list(connections(port)))
    for client in clients:
        client.close()
    print("clients that read nothing: gone after 60 seconds")


def served_late(program, folder, word):
    """All that time alone brings about."""
    late = Late(folder, word)
    shim = {"LD_PRELOAD": build(folder), "LATER": str(late.path)}
    late.server = server = Server(program, make_store(program, folder / "late"), 2, shim, word=word)
    port = server.port
    try:
        dribble("a letter", late, port, connected(port), ["A"], 0, 30)
        dribble("a letter each nine seconds", late, port, connected(port), "A9H", 9, 30)
        are_gone("a greeting", late, port, [greeted(port), greeted(port, "\n")], 30 * MINUTE)
        dribble("a greeting, and a line feed each minute", late, port, [greeted(port), greeted(port)], ["\n"] * 29, MINUTE, 30 * MINUTE)
        called = greeted(port, "\n1 56\n")
        called.answer(1)
        are_served("a call, and no more", late, [called, Session(port).login()])
        unread(late, port)
        stop(server).rest()
        wants("the status", server.wait(), 0)
    finally:
        server.kill()


def asked(program, folder, word):
    """The system asks a silent client whether it is there."""
    server = Server(program, make_store(program, folder / "asked"), 1, word=word)
    try:
        client = Session(server.port)
        client.ask("56")
        # (a timer for what was sent goes first)
        until("a timer to keep alive", lambda: [one.timer for one in connections(server.port)] == [KEEP_ALIVE])
        due = [one.due / 100 for one in connections(server.port)]
        if len(due) != 1 or not 10 < due[0] <= 60:
            raise Wrong(f"a silent client is asked in {due} seconds")
        told = f"in {due[0]:.0f} seconds"
        if shutil.which("ss"):
            line = subprocess.run(["ss", "-tnoH", f"sport = :{server.port}"], capture_output=True, check=True, text=True).stdout
            if not re.search(r"timer:\(keepalive,(\d+sec|1min)", line):
                raise Wrong(f"ss tells of no keep-alive: {line!r:.200}")
            told += ", and ss tells so"
        client.end()
        print(f"a silent client is asked {told}")
    finally:
        server.kill()


def main(words):
    word = words[1] if words[1:] in (["serve"], ["hub"]) else "serve"
    program = program_of(words[:1])
    if not shutil.which("cc"):
        print("there is no C compiler, so no clock was told the time")
        return 0
    limit_seconds(LIMIT_SECONDS)
    with tempfile.TemporaryDirectory(dir=folder_in_memory()) as folder:
        served_late(program, pathlib.Path(folder), word)
        asked(program, pathlib.Path(folder), word)
    return 0


if __name__ == "__main__":
    script(main, __doc__)
