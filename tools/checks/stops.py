#!/usr/bin/env python3
"""Stops `komd once STORE` after each call of its disk, and has each call fail: stops.py [PROGRAM]

A store of a new server is served to a greeting, a login and a text of one byte, sent in three pieces, and in two of which the second
has the login and the text; and to the worked stream `evening`, a line a piece, of which nine lines change something. After opening each
flush makes four calls: two writes and two syncs. The program is ended by signal 9 before each of them in turn, by a library that is
loaded before the C library. What was answered is compared, and what the store, opened again, then holds: a change is there once its
flush has made its third call, and may be answered only after the fourth. Then each call fails in turn: the status is 3, and nothing is
answered after it but what was before.

It needs a C compiler; where there is none it says so, and ends with 0. It prints a count, and a line for each fault, and ends with 1
if there is one. PROGRAM is the built `komd` unless it is named.
"""
import collections
import pathlib
import shutil
import signal
import sys
import tempfile

sys.path.insert(0, str(pathlib.Path(__file__).resolve().parents[1] / "common"))
from built import ROOT, check_store, compile_c, make_store, program_of, script
from once import in_pieces
from protocol import difference

# Counts the calls from the first write on, and ends the process before the one after so many, or has that one fail.
SHIM_C = r"""
#define _GNU_SOURCE
#include <dlfcn.h>
#include <errno.h>
#include <signal.h>
#include <stdlib.h>
#include <unistd.h>
static long left = -1, calls;
static int comes(int begins) {
    if (left < 0) left = atol(getenv("STOPS_AFTER"));
    if (!calls && !begins) return 0;
    if (calls++ != left) return 0;
    if (getenv("STOPS_FAIL")) { errno = EIO; return 1; }
    kill(getpid(), SIGKILL);
    for (;;) pause();
}
ssize_t pwrite64(int file, const void *bytes, size_t size, off64_t place) {
    ssize_t (*real)(int, const void *, size_t, off64_t) = dlsym(RTLD_NEXT, "pwrite64");
    return comes(1) ? -1 : real(file, bytes, size, place);
}
ssize_t pwrite(int file, const void *bytes, size_t size, off_t place) { return pwrite64(file, bytes, size, place); }
int fdatasync(int file) {
    int (*real)(int) = dlsym(RTLD_NEXT, "fdatasync");
    return comes(0) ? -1 : real(file);
}
"""
EVENING = ROOT / "tests" / "streams" / "worked_rows" / "evening"
# Each flush makes so many calls, of which so many have written it.
CALLS, WRITTEN = 4, 3
# What a store holds by the report of `check`: batches, conferences, persons and texts.
NEW = (1, 5, 1, 0)

# Lines that are sent together, what they are answered, and what their flush adds to the store, or none if they change nothing.
Piece = collections.namedtuple("Piece", "sent answered adds")


def visits():
    """The pieces of each visit, by its name."""
    greeting = Piece(b"A1Ha\n", b"LysKOM\n", None)
    login = Piece(b"1 62 5 0H 0\n", b"=1\n", (1, 0, 0, 0))
    text = Piece(b"2 86 1Ha 0 { } 0 { }\n", b"=2 1\n", (1, 0, 0, 1))
    both = Piece(login.sent + text.sent, login.answered + text.answered, text.adds)
    sent = EVENING.with_suffix(".in").read_bytes().splitlines(keepends=True)
    answered = EVENING.with_suffix(".out").read_bytes().splitlines(keepends=True)
    # By the number of a line's call: a login, a conference, a person with its letterbox, a text, a membership, a text that is read and
    # one that is marked as read.
    adds = {b"62": (1, 0, 0, 0), b"88": (1, 1, 0, 0), b"89": (1, 1, 1, 0), b"86": (1, 0, 0, 1)}
    adds |= dict.fromkeys([b"100", b"25", b"27"], (1, 0, 0, 0))
    evening = [Piece(line, told, adds.get(line.split()[1])) for line, told in zip(sent[1:], answered[1:], strict=True)]
    return {"three pieces": [greeting, login, text], "two pieces": [greeting, both], "an evening": [greeting, *evening]}


def served(program, store, pieces, shim, calls, fails):
    """What is answered, piece by piece, and the status."""
    more = {"LD_PRELOAD": shim, "STOPS_AFTER": str(calls), **({"STOPS_FAIL": "1"} if fails else {})}
    return in_pieces(program, store, [(piece.sent, piece.answered.count(b"\n")) for piece in pieces], more)


def held(program, store):
    """What the store holds, or None where it is refused."""
    status, counts = check_store(program, store)
    return None if status else tuple(counts.values())


def tries_of(pieces):
    """Of each try: after how many calls, whether the next one fails, what is answered, the status, and what the store then holds."""
    changes = [piece for piece in pieces if piece.adds]
    for fails in (False, True):
        for calls in range(CALLS * len(changes) + (not fails)):
            answered, flushes, is_over = b"", 0, False
            for piece in pieces:
                flushes += piece.adds is not None
                is_over = is_over or CALLS * flushes > calls
                answered += b"" if is_over else piece.answered
            kept = [piece.adds for at, piece in enumerate(changes) if CALLS * at + WRITTEN <= calls]
            status = (3 if fails else -signal.SIGKILL) if is_over else 0
            yield calls, fails, answered, status, tuple(map(sum, zip(NEW, *kept)))


def faults_of(program, folder, shim, name, pieces):
    """The number of tries, and a line for each fault."""
    tries, faults = list(tries_of(pieces)), []
    store = folder / "store"
    for calls, fails, wanted, ends, holds in tries:
        store.unlink(missing_ok=True)
        make_store(program, store)
        answered, status = served(program, store, pieces, shim, calls, fails)
        found = held(program, store)
        if difference(wanted, answered) or (status, found) != (ends, holds):
            how = "a failure" if fails else "a stop"
            faults.append(f"{name}, {how} after {calls} calls: {answered!r}, status {status}, and it holds {found}")
    return len(tries), faults


def main(words):
    program = program_of(words)
    if not shutil.which("cc"):
        print("there is no C compiler, so nothing was stopped")
        return 0
    with tempfile.TemporaryDirectory() as room:
        folder = pathlib.Path(room)
        (folder / "shim.c").write_text(SHIM_C)
        shim = compile_c(folder / "shim.c", folder / "shim.so", "-shared", "-fPIC")
        found = [faults_of(program, folder, shim, name, pieces) for name, pieces in visits().items()]
    faults = [fault for _, ones in found for fault in ones]
    for fault in faults:
        print(fault)
    print(f"{sum(count for count, _ in found)} runs were stopped, or a call of theirs failed; {len(faults)} are otherwise")
    return 1 if faults else 0


if __name__ == "__main__":
    script(main, __doc__)
