#!/usr/bin/env python3
"""Runs the built program `komd` with other words, inputs and outputs than its stored run: runs_of_komd.py [PROGRAM]

It compares the status and what is answered; nothing is reported. It prints a line for each run that is otherwise, and a count, and ends
with 1 if there is one, else with 0. PROGRAM is the built `komd` unless it is named.
"""
import pathlib
import subprocess
import sys
import tempfile

sys.path.insert(0, str(pathlib.Path(__file__).resolve().parents[1] / "common"))
from built import USAGE, program_of, script
from protocol import string
from tried import Tried

ONE_SESSION = b"A5Hceder\n1 56\n"
LAST_CONFERENCE = 65_535
# What `komd load` counts: calls, good ones, refused ones, conferences and texts. The 2,000th call that makes the person a member and each
# later one is refused, and so is the call after it, about what that member has read.
LOADS = [(0, 0, 0, 5, 0), (8, 8, 0, 7, 2), (100_000, 53_998, 46_002, 25_005, 25_000)]
REFUSED = [
    ("no word", []),
    ("an unknown word", ["twice"]),
    ("a word too many", ["once", "more", "words"]),
    ("an empty word", [""]),
    ("a place that is no port", ["serve", "store", "127.0.0.1:4894", "1"]),
    ("a word that is no text", [b"once\xff"]),
    ("a last word that is no text", ["once", b"\xff"]),
    ("a call too many", ["load", "100001"]),
    ("calls that are no number", ["load", "8x"]),
    ("calls without a number", ["load", ""]),
    ("a sweep without a password", ["sweep", "store", "5"]),
    ("a sweep by nobody", ["sweep", "store", "", "password"]),
    ("a sweep by a name", ["sweep", "store", "Anna", "password"]),
    ("a sweep by a number of seven digits", ["sweep", "store", "0000005", "password"]),
    ("a sweep of no store", ["sweep", "", "5", "password"]),
    ("a sweep with a password that is too long", ["sweep", "store", "5", "p" * 129]),
]


def last_number():
    """A session that makes conferences up to the last number that one gets, and what it is answered from the last of them on."""
    lines = [b"A5Hceder", b"1 62 5 0H 0"]
    lines += [b"2 88 %s 0000 0 { }" % string(b"c %d" % number) for number in range(6, LAST_CONFERENCE + 1)]
    lines += [b"3 114", b"4 88 2Hxy 0000 0 { }", b"5 89 2Hxy 0H 00000000 0 { }", b"6 114", b"7 76 7Hc 65535 0 1"]
    wanted = [b"=2 65535", b"=3 65536", b"%4 45 0", b"%5 45 0", b"=6 65536", b"=7 1 { 7Hc 65535 0000 65535 }"]
    return b"\n".join(lines) + b"\n", wanted


def main(words):
    program = program_of(words)

    def run(words, given=ONE_SESSION):
        done = subprocess.run([program, *words], input=given, capture_output=True, timeout=300, check=False)
        return done.returncode, done.stdout, done.stderr

    with tempfile.TemporaryDirectory() as folder:
        tried = Tried(program, folder)
        tried.same("one session", (0, b"LysKOM\n=1 1\n", b""), run(["once"]))
        for what, refused in REFUSED:
            tried.same(what, (2, USAGE, b""), run(refused))
        for load in LOADS:
            report = b"calls %d\nok %d\nrefused %d\nconferences %d\ntexts %d\n" % load
            tried.same(f"a load of {load[0]}", (0, report, b""), run(["load", str(load[0])], b""))
        given, wanted = last_number()
        status, answered, reported = run(["once"], given)
        tried.same("the last number", (0, wanted, b""), (status, answered.splitlines()[-len(wanted) :], reported))
    print(f"{tried.count} runs, {tried.failed} are otherwise")
    return 1 if tried.failed else 0


if __name__ == "__main__":
    script(main, __doc__)
