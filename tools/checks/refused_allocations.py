#!/usr/bin/env python3
"""Refuses each allocation of some runs of the built program `komd` in turn: refused_allocations.py [PROGRAM]

The runs are the worked streams who_am_i, secret_recipient and mappings without a store, a login and a text over a store, and `init`. A
library that is loaded before the C library counts the allocations of a run, and has one of them fail; its clock stands at 0. For each
allocation:

- a session is answered in order, by whole lines: the replies of its first calls, and then no more; or all of them, where a call that is
  answered that memory ran out (error 39) has changed nothing: the same stream without that call is answered the same otherwise;
- the status is 0, or 6 where nothing was answered, or 3 where nothing was and the file of a store could not be opened;
- a store opens again and has what was answered, and no half of a change; `init` that ends with 6 leaves no file, or one that has at
  most the 17 bytes of a store without batches.

It needs a C compiler; where there is none it says so, and ends with 0. It prints a line for what is otherwise, and how many runs there
were, and ends with 1 if anything was, else with 0. PROGRAM is the built `komd` unless it is named.
"""
import concurrent.futures
import os
import pathlib
import shutil
import subprocess
import sys
import tempfile

sys.path.insert(0, str(pathlib.Path(__file__).resolve().parents[1] / "common"))
from built import ROOT, check_store, compile_c, make_store, program_of, script

ROWS = ROOT / "tests" / "streams" / "worked_rows"
STREAMS = ["who_am_i", "secret_recipient", "mappings"]
VISIT = b"A1Ha\n1 62 5 0H 0\n2 86 1Ha 0 { } 0 { }\n"
OUT_OF_MEMORY = b"39 0"
STORE_FAILED, NO_MEMORY, EMPTY_STORE = 3, 6, 17
SHIM_C = r"""
#define _GNU_SOURCE
#include <dlfcn.h>
#include <errno.h>
#include <stdio.h>
#include <stdlib.h>
#include <sys/syscall.h>
#include <time.h>
#include <unistd.h>
static long calls, refused = -1;
static int is_refused(void) {
    if (refused < 0) { const char *said = getenv("REFUSED"); refused = said ? atol(said) : 0; }
    if (__atomic_add_fetch(&calls, 1, __ATOMIC_SEQ_CST) != refused) return 0;
    errno = ENOMEM;
    return 1;
}
void *malloc(size_t size) {
    static void *(*real)(size_t);
    if (!real) real = dlsym(RTLD_NEXT, "malloc");
    return is_refused() ? NULL : real(size);
}
void *realloc(void *old, size_t size) {
    static void *(*real)(void *, size_t);
    if (!real) real = dlsym(RTLD_NEXT, "realloc");
    return is_refused() ? NULL : real(old, size);
}
int clock_gettime(clockid_t clock, struct timespec *now) {
    (void)clock;
    now->tv_sec = now->tv_nsec = 0;
    return 0;
}
void _exit(int status) {
    const char *to = getenv("COUNTED");
    if (to) dprintf(atoi(to), "%ld", calls);
    syscall(SYS_exit_group, status);
    __builtin_unreachable();
}
"""


class Runs:
    """Runs of a program with the library loaded."""

    def __init__(self, program, folder):
        self.program, self.folder = program, folder
        # How many sessions were answered all, how many were ended, and of how many a call was refused.
        self.whole = self.ended = self.refused = 0
        (folder / "shim.c").write_text(SHIM_C)
        self.shim = compile_c(folder / "shim.c", folder / "shim.so", "-shared", "-fPIC")

    def run(self, words, given, refused=0):
        """The status, and what is answered."""
        more = {"LD_PRELOAD": self.shim, "REFUSED": str(refused)}
        done = subprocess.run([self.program, *words], input=given, capture_output=True, timeout=60, env={**os.environ, **more}, check=False)
        return done.returncode, done.stdout

    def count(self, words, given):
        """How many allocations a run makes with ample memory."""
        read, write = os.pipe()
        more = {"LD_PRELOAD": self.shim, "COUNTED": str(write)}
        subprocess.run([self.program, *words], input=given, stdout=subprocess.DEVNULL, env={**os.environ, **more}, pass_fds=[write], check=True)
        os.close(write)
        with os.fdopen(read, "rb") as told:
            return int(told.read())


def fault_of_answers(runs, given, whole, answered):
    """What is wrong with the answers to a session that is answered `whole` with ample memory, or None."""
    lines = answered.split(b"\n")
    if lines.pop():
        return f"the last line is cut: {answered[-40:]!r}"
    refused = [at for at, line in enumerate(lines) if line.startswith(b"%") and line.endswith(OUT_OF_MEMORY)]
    if not refused:
        runs.whole += answered == whole
        runs.ended += answered != whole
        return None if whole.startswith(answered) else f"it is no beginning of the answers: {answered!r:.200}"
    runs.refused += 1
    if len(refused) > 1:
        return "more than one call was refused"
    # Each call is a line, and the greeting and its answer too.
    sent, at = given.split(b"\n"), refused[0]
    if not lines[at].startswith(b"%" + sent[at].split(b" ")[0] + b" "):
        return f"another call is refused: {lines[at]!r}"
    without = runs.run(["once"], b"\n".join(sent[:at] + sent[at + 1 :]))[1]
    rest = b"".join(line + b"\n" for line in lines[:at] + lines[at + 1 :])
    return None if without == rest else f"without call {at} it is answered {without!r:.200}, and here {rest!r:.200}"


def fault_of_stream(runs, given, whole, refused):
    status, answered = runs.run(["once"], given, refused)
    if status not in (0, NO_MEMORY) or (status and answered):
        return f"status {status}, answered {answered!r:.80}"
    return fault_of_answers(runs, given, whole, answered)


def fault_of_visit(runs, refused):
    """What is wrong with a visit over a store and what it leaves, or None."""
    store = runs.folder / f"store-{refused}"
    shutil.copyfile(runs.folder / "store", store)
    status, answered = runs.run(["once", str(store)], VISIT, refused)
    checked, counts = check_store(runs.program, store)
    read = runs.run(["once", str(store)], b"A1Ha\n1 62 5 0H 0\n2 25 1 0 9\n")
    store.unlink()
    if status not in (0, STORE_FAILED, NO_MEMORY) or (status and answered):
        return f"status {status}, answered {answered!r}"
    if checked:
        return f"check of what it leaves ends with {checked}"
    if read != (0, b"LysKOM\n=1\n" + (b"=2 1Ha\n" if counts["texts"] else b"%2 14 1\n")):
        return f"what it leaves is answered {read}"
    if b"=2 1\n" in answered and not counts["texts"] or counts["batches"] not in (1, 2, 3):
        return f"answered {answered!r}, and left {counts}"
    allowed = [b"", b"LysKOM\n", b"LysKOM\n=1\n", b"LysKOM\n=1\n=2 1\n", b"LysKOM\n=1\n%2 39 0\n", b"LysKOM\n%1 39 0\n%2 6 0\n"]
    return None if answered in allowed else f"answered {answered!r}"


def fault_of_init(runs, refused):
    """What is wrong with `init`, or None."""
    store = runs.folder / f"made-{refused}"
    status, answered = runs.run(["init", str(store), ""], b"", refused)
    length = store.stat().st_size if store.exists() else 0
    checked, _ = check_store(runs.program, store)
    store.unlink(missing_ok=True)
    if (status, answered, checked) == (0, b"store made\n", 0):
        return None
    # The report is not written where its line finds no memory, and then the store is there.
    if status == NO_MEMORY and not answered and (length <= EMPTY_STORE or checked == 0):
        return None
    if status == STORE_FAILED and not answered and not length:
        return None
    return f"status {status}, answered {answered!r}, and left {length} bytes"


def main(words):
    program = program_of(words)
    if not shutil.which("cc"):
        print("there is no C compiler, so no allocation was refused")
        return 0
    with tempfile.TemporaryDirectory() as room:
        runs = Runs(program, pathlib.Path(room))
        make_store(program, runs.folder / "store")
        tries = []
        for name in STREAMS:
            given = (ROWS / f"{name}.in").read_bytes()
            whole = runs.run(["once"], given)[1]
            tries += [(name, at, fault_of_stream, (runs, given, whole, at)) for at in range(1, runs.count(["once"], given) + 1)]
        copy = runs.folder / "copy"
        shutil.copyfile(runs.folder / "store", copy)
        tries += [("a visit over a store", at, fault_of_visit, (runs, at)) for at in range(1, runs.count(["once", copy], VISIT) + 1)]
        made = runs.folder / "made"
        tries += [("init", at, fault_of_init, (runs, at)) for at in range(1, runs.count(["init", made, ""], b"") + 1)]
        with concurrent.futures.ThreadPoolExecutor(os.cpu_count()) as pool:
            found = list(pool.map(lambda one: one[2](*one[3]), tries))
    faults = [f"{name}, allocation {at}: {fault}" for (name, at, _, _), fault in zip(tries, found) if fault]
    for fault in faults:
        print(fault)
    seen = f"{runs.whole} sessions were answered all, {runs.ended} ended, and of {runs.refused} a call was refused"
    print(f"{len(tries)} allocations were refused, each in a run of its own: {seen}; {len(faults)} are otherwise")
    return 1 if faults or not (runs.ended and runs.refused) else 0


if __name__ == "__main__":
    script(main, __doc__)
