#!/usr/bin/env python3
"""Counts the instructions that the built program `komd` takes for calls about texts, and prints ratios.

usage: instructions_of_texts.py [KOMD]      (KOMD: the built program if left out)

A conference has 1,000 texts, or 100,000, each a comment to the one before and of the same author, who asks for the middle one, for
what lies beside it, and for a hundred of their numbers, and sends more. Counted by callgrind: the instructions of a run with so many
calls less those of the same run without them; and so those of 3,000 texts of 500 bytes, each a comment to the one before. Then a
run of a million texts, not counted, tells the memory that is kept for each text and its call, the call's record among it.
"""
import os
import pathlib
import subprocess
import sys
import tempfile

sys.path.insert(0, str(pathlib.Path(__file__).resolve().parents[1] / "common"))
from built import program_of, script
from callgrind import Prepared, login, tell
from protocol import string

FEW, MANY, MOST = 1_000, 100_000, 1_000_000
COMMENTS = 3_000
# The conference of the texts, and the author.
TEXTS, AUTHOR = 6, 5


def stream(size):
    """The administrator makes a conference, and then so many texts in it."""
    lines = [b"A5Hceder", login(AUTHOR), b"2 88 5HTexts 00000000 0 { }", b"3 86 5HHello 1 { 0 %d } 0 { }" % TEXTS]
    lines += [b"4 86 5HHello 2 { 0 %d 2 %d } 0 { }" % (TEXTS, number) for number in range(1, size)]
    return lines


def comments():
    """Texts of 500 bytes after the first, each a comment to the one before."""
    return [b"4 86 %s 2 { 0 %d 2 %d } 0 { }" % (string(500 * b"x"), TEXTS, number) for number in range(1, COMMENTS + 1)]


CALLS = {
    "get-text of the middle": lambda n: b"5 25 %d 0 99" % (n // 2),
    "get-text-stat of the middle": lambda n: b"5 90 %d" % (n // 2),
    "find-next-text-no from the middle": lambda n: b"5 60 %d" % (n // 2),
    "mark-text of the middle": lambda n: b"5 72 %d 7" % (n // 2),
    "local-to-global of 100 from the middle": lambda n: b"5 103 %d %d 100" % (TEXTS, n // 2),
    "local-to-global-reverse of the last 100": lambda n: b"5 121 %d 0 100" % TEXTS,
    "map-created-texts of 100 from the middle": lambda n: b"5 104 %d %d 100" % (AUTHOR, n // 2),
    "create-text of one more": lambda n: b"5 86 5HHello 1 { 0 %d } 0 { }" % TEXTS,
}


def kept(program, size):
    """The greatest resident memory of a run, in bytes."""
    with tempfile.TemporaryFile() as given:
        given.write(b"\n".join(stream(size)) + b"\n")
        given.seek(0)
        running = subprocess.Popen([program, "once"], stdin=given, stdout=subprocess.DEVNULL)
        _, status, used = os.wait4(running.pid, 0)
    if status:
        sys.exit(f"{program} ended with {status}")
    return used.ru_maxrss * 1024


def main(words):
    program = program_of(words)
    one, few, many = (Prepared(program, stream(size)) for size in (1, FEW, MANY))
    for name, call in CALLS.items():
        tell(name, few.each(call(FEW)), many.each(call(MANY)), (FEW, MANY))
    averages = ((grown.before - one.before) / (size - 1) for grown, size in ((few, FEW), (many, MANY)))
    tell("create-text of a comment, on average", *averages, (FEW, MANY))
    print(f"create-text of 500 bytes with a recipient and a parent: {one.each_of(comments()):.0f} instructions", flush=True)
    each = (kept(program, MOST) - kept(program, 1)) / (MOST - 1)
    print(f"resident with {MOST} texts: {each:.0f} bytes for each text and its call")


if __name__ == "__main__":
    script(main, __doc__)
