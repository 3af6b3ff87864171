#!/usr/bin/env python3
"""Counts the instructions that the built program `komd` takes for calls about names, and prints ratios.

usage: instructions_of_names.py [KOMD]      (KOMD: the built program if left out)

There are ten conferences that somebody made, or 60,000. One of them is looked up by its name, and more are made.
Counted by callgrind: the instructions of a run with so many calls less those of the same run without them.
"""
import pathlib
import sys

sys.path.insert(0, str(pathlib.Path(__file__).resolve().parents[1] / "common"))
from built import program_of, script
from callgrind import CALLS, FIRST, Prepared, login, tell
from protocol import string

FEW, MANY = 10, 60_000


def made(numbers):
    return [b"2 88 %s 00000000 0 { }" % string(b"C%d" % number) for number in numbers]


def main(words):
    program = program_of(words)
    sizes = FEW, MANY
    few, many = (Prepared(program, [b"A5Hceder", login(5)] + made(range(FIRST, FIRST + size))) for size in sizes)
    asked = [b"C%d" % (FIRST + size // 2) for size in sizes]
    tell("lookup-z-name of one", *(one.each(b"3 76 %s 0 1" % string(word)) for one, word in zip((few, many), asked)), sizes)
    more = [made(range(FIRST + size, FIRST + size + CALLS)) for size in sizes]
    tell("create-conf", *(one.each_of(lines) for one, lines in zip((few, many), more)), sizes)


if __name__ == "__main__":
    script(main, __doc__)
