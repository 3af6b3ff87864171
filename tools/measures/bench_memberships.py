#!/usr/bin/env python3
"""Counts the instructions that the calls about what was read take by a person's memberships and their ranges, and prints ratios.

usage: bench_memberships.py [KOMD]      (KOMD: the built program if left out)

A stream makes a person's memberships, texts in their conferences, and sets every second local number of each as read, so that
each membership has so many ranges; then it asks a call many times. Counted by callgrind: what the same stream takes without
these calls is taken off, and what is left, for each call, is compared with that of a person of few memberships and few ranges.
The runs of a size go on side by side, one a processor; those of the largest take some twenty minutes.
"""
import concurrent.futures
import os
import pathlib
import sys
import tempfile

sys.path.insert(0, str(pathlib.Path(__file__).resolve().parents[1] / "common"))
from built import program_of, script
from callgrind import FIRST, collected
from protocol import string

# Memberships, and ranges of each.
SIZES = ((20, 10), (20, 1_000), (2_000, 10), (2_000, 1_000))
MOST_RECIPIENTS = 100


def read_of(ranges):
    """So many ranges, each of one local number: every second one."""
    return " ".join(f"{2 * number + 1} {2 * number + 1}" for number in range(ranges))


def stream(memberships, ranges, call, times):
    """A greeting, a login, conferences with texts, what was read of them, and a call, asked so many times."""
    yield "A5Hceder\n1 62 5 0H 0\n"
    for number in range(memberships - 1):
        name = f"Conference {number}"
        yield f"2 88 {string(name)} 00000000 0 {{ }}\n"
        yield f"3 100 {FIRST + number} 5 100 2000 00000000\n"
    numbers = [FIRST + number for number in range(memberships - 1)]
    for begin in range(0, len(numbers), MOST_RECIPIENTS):
        part = numbers[begin : begin + MOST_RECIPIENTS]
        line = f"4 86 1HA {len(part)} {{ " + " ".join(f"0 {number}" for number in part) + " } 0 { }\n"
        for _ in range(2 * ranges):
            yield line
    for number in numbers:
        yield f"5 110 {number} {ranges} {{ {read_of(ranges)} }}\n"
    line = f"6 {call}\n"
    for _ in range(times):
        yield line


def calls(memberships, ranges):
    """The calls that are counted, with how many times each is asked."""
    last = FIRST + memberships - 2
    yield "query-read-texts, of the last membership", f"107 5 {last} 1 0", 400
    yield "query-read-texts, without the ranges", f"107 5 {last} 0 0", 400
    yield "mark-as-read, of one text", f"27 {last} 1 {{ 2 }}", 400
    yield "get-unread-confs", "52 5", 40
    yield "set-read-ranges, of as many ranges", f"110 {last} {ranges} {{ {read_of(ranges)} }}", 40


def instructions(program, size, call, times):
    """What a run takes in which a call is asked so many times."""
    memberships, ranges = size
    with tempfile.NamedTemporaryFile("w+", encoding="ascii") as given:
        given.writelines(stream(memberships, ranges, call, times))
        given.flush()
        given.seek(0)
        return collected([program, "once"], stdin=given)


def count(program, size):
    """What each call takes at a size."""
    asked = list(calls(*size))
    with concurrent.futures.ThreadPoolExecutor(os.cpu_count()) as runs:
        none = runs.submit(instructions, program, size, "", 0)
        ran = [runs.submit(instructions, program, size, call, times) for _, call, times in asked]
        return {name: (run.result() - none.result()) / times for run, (name, _, times) in zip(ran, asked)}


def main(words):
    program = program_of(words)
    base = {}
    for size in SIZES:
        for name, taken in count(program, size).items():
            base.setdefault(name, taken)
            of = f"{size[0]} memberships of {size[1]} ranges"
            print(f"{name}, {of}: {taken:.0f} instructions, {taken / base[name]:.1f} times the first", flush=True)


if __name__ == "__main__":
    script(main, __doc__)
