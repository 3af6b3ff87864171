#!/usr/bin/env python3
"""Tells what a run of the gate costs, crate by crate: gate_minutes.py [WORD..], or gate_minutes.py --below SHELL

It starts `rt ci WORD..` at the top of the repository, looks at the processes below it twice a second, and prints at the end, by
crate, the processor minutes of its proof, of its tests (the proof of these, and their run) and of its edits that must fail (and of
the proof that these begin with), their sum, the lines of the crate's .rt and .antt files, and the minutes for 1,000 of them. The
crate that took most comes first. What is left is that of `rt` itself, of layouts, and of runs of programs. What an earlier run on
this machine proved costs nothing, and its crate is not told: `--anew` has all proved. It ends with the status of the run.

With --below it starts nothing. It watches the run that the process SHELL starts beside it, as `.ci/run` does, tells the same once
it is sent SIGTERM, and ends then, or when SHELL has ended, or when a look takes a minute; its status tells nothing of the run.

The figures are the system's own counts of a process's time. A process that ended between two looks has in them what it added to
the time of its parent's ended children; where several ended at once, what was not yet seen of them is shared out evenly.
"""
import collections
import os
import pathlib
import re
import signal
import subprocess
import sys
import time

sys.path.insert(0, str(pathlib.Path(__file__).resolve().parents[1] / "common"))
from built import ROOT, script

TICKS_OF_A_MINUTE = 60 * os.sysconf("SC_CLK_TCK")
KINDS = ("proof", "tests", "edits")
BETWEEN_LOOKS = 0.5
SECONDS_OF_A_LOOK = 60
# The folder of a check with an edit, and the program of a crate's tests while it runs.
OF_AN_EDIT = re.compile(r"/rt-edits?-")
RUN_OF_TESTS = re.compile(r"/rt-run-[^/]*/bin/(\w+)_tests")

Process = collections.namedtuple("Process", "has_ended parent start own of_ended")


def process(number):
    """A process: whether it only waits for its parent, which that is, its start, its own ticks, and those of its children that
    ended; None where there is none."""
    try:
        with open(f"/proc/{number}/stat", encoding="utf-8", errors="replace") as it:
            words = it.read().rpartition(")")[2].split()
    except OSError:
        return None
    own, of_ended = int(words[11]) + int(words[12]), int(words[13]) + int(words[14])
    return Process(words[0] in "ZX", int(words[1]), int(words[19]), own, of_ended)


def processes():
    """Each process that there is, by its number."""
    found = {int(name): process(name) for name in os.listdir("/proc") if name.isdigit()}
    return {number: one for number, one in found.items() if one}


def children_of(found):
    """The numbers of each process's children."""
    children = collections.defaultdict(list)
    for number, one in found.items():
        children[one.parent].append(number)
    return children


def ticks_of(number, found, children):
    """The ticks of a process, with those of all that it started."""
    below = sum(ticks_of(child, found, children) for child in children[number])
    return found[number].own + found[number].of_ended + below


def task_of(number):
    """The crate and the kind of work that a process of `rt ci` is at; None where it is at neither, or cannot be read."""
    try:
        with open(f"/proc/{number}/cmdline", encoding="utf-8", errors="replace") as it:
            words = it.read().split("\0")
        folder = os.readlink(f"/proc/{number}/cwd")
    except OSError:
        return None
    if "--crate-name" in words[:-1]:
        crate = words[words.index("--crate-name") + 1]
        if OF_AN_EDIT.search(folder):
            return crate, "edits"
        return crate, "tests" if "--test" in words else "proof"
    run = next(filter(None, map(RUN_OF_TESTS.search, words)), None)
    return (run[1], "tests") if run else None


class Watch:
    """What the processes that a run of the gate started have taken so far."""

    def __init__(self, number):
        self.number, self.reaped = number, 0
        # Of each child that is alive, by its number and start: its task, and its ticks when they were seen last.
        self.alive = {}
        self.taken = collections.Counter()

    def look(self):
        """Adds what has ended since the last look, and notes what is alive."""
        before, found, after = process(self.number), processes(), process(self.number)
        # (a child that ended meanwhile would count among the living and the ended)
        while before and after and before.of_ended != after.of_ended:
            before, found, after = after, processes(), process(self.number)
        if self.number not in found or not after:
            return
        children, seen = children_of(found), {}
        for child in children[self.number]:
            key = child, found[child].start
            task = task_of(child) or self.alive.get(key, (None, 0))[0]
            seen[key] = task, ticks_of(child, found, children)
        self.settle(after.of_ended, [one for key, one in self.alive.items() if key not in seen])
        self.alive = seen

    def close(self):
        """Adds what was alive at the last look, once the run has ended."""
        for task, ticks in self.alive.values():
            self.taken[task] += ticks
        self.alive = {}

    def settle(self, reaped, ended):
        """Adds the ticks of children that ended, as their parent counts them, by what was seen of each."""
        unseen = reaped - self.reaped - sum(ticks for _, ticks in ended)
        self.reaped = reaped
        named = [task for task, _ in ended if task]
        for task, ticks in ended:
            self.taken[task] += ticks
        for task in named or [None]:
            self.taken[task] += unseen / max(len(named), 1)


def lines_of(crate):
    """How many lines the .rt and .antt files of a crate have."""
    parts = [ROOT / "crates" / crate / part for part in ("src", "specs", "proofs")]
    files = [file for part in parts for ending in ("rt", "antt") for file in part.rglob(f"*.{ending}")]
    return sum(file.read_bytes().count(b"\n") for file in files)


def row(name, minutes, lines):
    """A line of the table."""
    whole = sum(minutes)
    each = f"{1000 * whole / lines:10.2f}" if lines else " " * 10
    return f"{name:20}" + "".join(f"{it:9.2f}" for it in (*minutes, whole)) + f"{lines or '':>9}{each}"


def table(taken, whole, wall):
    """The lines to print of what was taken, of the whole run's processor minutes and of its minutes by the clock."""
    crates = collections.defaultdict(lambda: dict.fromkeys(KINDS, 0))
    for task, ticks in taken.items():
        if task:
            crates[task[0]][task[1]] += ticks / TICKS_OF_A_MINUTE
    yield f"{'processor minutes':20}" + "".join(f"{it:>9}" for it in (*KINDS, "sum", "lines")) + f"{'for 1,000':>10}"
    for crate in sorted(crates, key=lambda it: -sum(crates[it].values())):
        yield row(crate, crates[crate].values(), lines_of(crate))
    sums = [sum(it[kind] for it in crates.values()) for kind in KINDS]
    yield row("total", sums, sum(map(lines_of, crates)))
    yield f"all else {whole - sum(sums):.2f}; the run took {wall:.2f} minutes"


def tell(watch, whole, begun):
    """Prints the table of what a watch saw, of the ticks of the whole run, and of its time since it began."""
    watch.close()
    for line in table(watch.taken, whole / TICKS_OF_A_MINUTE, (time.monotonic() - begun) / 60):
        print(line)


def start(words):
    """Starts a run, and tells of it. Returns its status."""
    begun = time.monotonic()
    ran = subprocess.Popen(["rt", "ci", *words], cwd=ROOT)
    # (what was told to end is told of too; a terminal tells its run itself)
    signal.signal(signal.SIGTERM, lambda *_: ran.terminate())
    signal.signal(signal.SIGINT, lambda *_: None)
    watch = Watch(ran.pid)
    while ran.poll() is None:
        watch.look()
        time.sleep(BETWEEN_LOOKS)
    tell(watch, process(os.getpid()).of_ended, begun)
    return ran.returncode if ran.returncode >= 0 else 128 - ran.returncode


def run_below(shell):
    """The number of the process that a shell has started beside this one; None where there is none yet."""
    return next((child for child in children_of(processes())[shell] if child != os.getpid()), None)


def watch_below(shell):
    """Watches what a shell runs, and tells of it when that has ended."""
    signal.pthread_sigmask(signal.SIG_BLOCK, {signal.SIGTERM})
    begun, before, watch = time.monotonic(), process(shell), None
    while before and not signal.sigtimedwait({signal.SIGTERM}, BETWEEN_LOOKS):
        # (the system ends what is still at this look when its time is over)
        signal.alarm(SECONDS_OF_A_LOOK)
        now = process(shell)
        if not now or now.has_ended or now.start != before.start:
            return
        number = watch.number if watch else run_below(shell)
        if number:
            watch = watch or Watch(number)
            watch.look()
    after = process(shell)
    if watch and after:
        tell(watch, after.of_ended - before.of_ended, begun)


def main(words):
    if words[:1] != ["--below"]:
        return start(words)
    watch_below(int(words[1]))
    return 0


if __name__ == "__main__":
    script(main, __doc__)
