#!/usr/bin/env python3
"""Counts the instructions of `komd load` and of the same calls on standard input, and prints their ratio.

usage: instructions_of_load.py [KOMD [CALLS]]      (KOMD: the built program if left out)

100,000 calls are made, unless CALLS says how many. Counted by callgrind: all that `load` does, and of `once` the turns of the lock,
in which its calls are made, flushed and drained, but not the reading of the lines and the printing of the replies. The program must
have the names of its functions, which strip takes away.
"""
import pathlib
import re
import sys
import tempfile

sys.path.insert(0, str(pathlib.Path(__file__).resolve().parents[1] / "common"))
from built import program_of, script
from callgrind import FIRST, by_function, login
from protocol import string


def calls(count):
    """The calls that `load` makes up: a conference, a text in it, a member, a text that is read."""
    for number in range(1, count + 1):
        conference = FIRST + (number - 1) // 4
        name = b"ct"[(number - 1) % 4 : (number - 1) % 4 + 1] + b"%d" % number
        yield [
            b"88 %s 00000000 0 { }" % string(name),
            b"86 %s 1 { 0 %d } 0 { }" % (string(name), conference),
            b"100 %d 5 100 0 00000000" % conference,
            b"27 %d 1 { 1 }" % conference,
        ][(number - 1) % 4]


def main(words):
    program = program_of(words)
    count = int(words[1]) if len(words) > 1 else 100_000
    lines = [b"A4Hload", login(5), *(b"%d %s" % (number, call) for number, call in enumerate(calls(count), 2))]
    with tempfile.TemporaryDirectory() as room:
        folder = pathlib.Path(room)
        report, loaded = by_function(folder / "load", [program, "load", str(count)], b"")
        replies, served = by_function(folder / "once", [program, "once"], b"\n".join(lines) + b"\n")
    good = sum(reply.startswith(b"=") for reply in replies.split(b"\n")) - 1
    if b"ok %d\n" % good not in report:
        sys.exit(f"{good} calls are good, but not by {report!r}")
    turns = [one for one, name in served if re.search(r":hall_desk::turning::turn\b", name)]
    if len(turns) != 1:
        sys.exit("the program has no function of that name")
    print(f"load of {count}: {loaded[0][0]} instructions, {loaded[0][0] / turns[0]:.2f} times the turns of once")


if __name__ == "__main__":
    script(main, __doc__)
