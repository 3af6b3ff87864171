#!/usr/bin/env python3
"""Counts the instructions that the built program `komd` takes for a line of six calls, from its bytes to its reply.

usage: instructions_of_lines.py [KOMD]      (KOMD: the built program if left out)

Each call is made 2,000 and 4,000 times by one session of `komd once`, without a store, and the difference is divided: what grows
once is not counted. Counted by callgrind. `tools/unproved --without-checks komd FILE` builds a program to count with before
a change is proved; one with checks takes half as many again.
"""
import pathlib
import sys

sys.path.insert(0, str(pathlib.Path(__file__).resolve().parents[1] / "common"))
from built import program_of, script
from callgrind import instructions, login
from protocol import string

FEW, MANY = 2_000, 4_000
WRITE = b"1 86 %s 1 { 0 5 } 0 { }"
# Each call, and how many texts there are before.
LINES = {
    "who-am-i": (b"1 56", 0),
    "get-time": (b"1 35", 0),
    "local-to-global of 100": (b"1 103 5 1 100", 100),
    "get-text": (b"1 25 7 0 100", 10),
    "get-text-stat": (b"1 90 7", 10),
    "create-text of 500 bytes": (WRITE % string(b"subject\n" + 492 * b"z"), 0),
}


def main(words):
    program = program_of(words)
    for name, (line, texts) in LINES.items():
        before = [b"A5Hceder", login(5)] + texts * [WRITE % string(60 * b"x")]
        few, many = (instructions(program, before + count * [line]) for count in (FEW, MANY))
        print(f"{name}: {(many - few) / (MANY - FEW):.0f} instructions", flush=True)


if __name__ == "__main__":
    script(main, __doc__)
