#!/usr/bin/env python3
"""Measures what single calls cost by how many conferences there are, and prints ratios taken in one run.

usage: bench_calls.py [KOMD]      (KOMD: the built program if left out)

For 10, 1,000 and 60,000 conferences a stream logs in, makes them by create-conf, and then asks a call many times; what the
same stream takes with a quarter of these calls is taken off. The program reads a file and writes to /dev/null; each stream
is run three times, the sizes taking turns, and the least processor times in user mode are compared.
"""
import os
import pathlib
import subprocess
import sys
import tempfile

sys.path.insert(0, str(pathlib.Path(__file__).resolve().parents[1] / "common"))
from built import program_of, script
from protocol import string

SIZES = (10, 1_000, 60_000)
TURNS = 3
MANY = 1_000_000


def stream(size, call, times):
    """A greeting, a login, so many conferences beyond the five that are there, and a call, asked so many times."""
    yield "A5Hceder\n1 62 5 0H 0\n"
    for number in range(6, size + 1):
        yield f"2 88 {string(f'Conference of number {number}')} 00000000 0 {{ }}\n"
    line = f"3 {call}\n"
    for _ in range(times):
        yield line


def calls(size):
    """The calls that are measured, with how many times each is asked."""
    yield "who-am-i", "56", MANY
    yield "get-uconf-stat", f"78 {size}", MANY
    yield "find-next-conf-no", f"116 {size - 1}", MANY
    yield "lookup-z-name, one found", f"76 {string(f'conf of number {size}')} 0 1", 5_000_000 // size


def run(program, path):
    """The processor time in user mode that a run takes, in seconds."""
    with open(path, "rb") as given:
        running = subprocess.Popen([program, "once"], stdin=given, stdout=subprocess.DEVNULL)
        _, status, used = os.wait4(running.pid, 0)
    if status:
        sys.exit(f"{program} ended with {status}")
    return used.ru_utime


def main(words):
    program = program_of(words)
    with tempfile.TemporaryDirectory() as work:
        paths = {}
        for size in SIZES:
            for name, call, times in calls(size):
                for part in (1, 4):
                    path = paths[size, name, part] = os.path.join(work, f"{size} {name} {part}")
                    with open(path, "w", encoding="ascii") as out:
                        out.writelines(stream(size, call, times * part // 4))
        taken = {key: [] for key in paths}
        for _ in range(TURNS):
            for key, path in paths.items():
                taken[key].append(run(program, path))
        base = {}
        for size in SIZES:
            for name, _, times in calls(size):
                each = (min(taken[size, name, 4]) - min(taken[size, name, 1])) / (times * 3 / 4) * 1e6
                base.setdefault(name, each)
                print(f"{name} at {size} conferences: {each:.2f} us, {each / base[name]:.2f} of that at {SIZES[0]}")
        made = min(taken[SIZES[-1], "who-am-i", 1]) - MANY / 4 * base["who-am-i"] / 1e6
        print(f"create-conf with up to {SIZES[-1]} conferences: {made / SIZES[-1] * 1e6:.1f} us each")


if __name__ == "__main__":
    script(main, __doc__)
