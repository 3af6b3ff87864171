#!/usr/bin/env python3
"""Counts the instructions of telling a store's rows as a snapshot, and prints how often they are those of opening it.

usage: instructions_of_telling.py [KOMD [RETELL [TEXTS]]]      (KOMD, RETELL: the built programs if left out)

A store gets 20,000 texts of 500 bytes, unless TEXTS says how many, each in a conference and two of three of them comments, and 25
persons, each with a membership with ranges that were read and with marks on a hundredth of the texts. Counted by callgrind:
`retell open` opens it, and `retell tell` tells its rows too, to a sink that codes them into a buffer of 64 KiB.
"""
import pathlib
import subprocess
import sys
import tempfile

sys.path.insert(0, str(pathlib.Path(__file__).resolve().parents[1] / "common"))
from built import make_store, program_of, script
from callgrind import collected
from protocol import string

PERSONS, CONFERENCE, FIRST_PERSON = 25, 6, 7
BODY = string(b"subject\n" + 492 * b"z")


def misc_of(number):
    """The recipient of a text, and of two of three texts what it comments on."""
    return b"2 { 0 %d 2 %d }" % (CONFERENCE, number // 3 + 1) if number % 3 else b"1 { 0 %d }" % CONFERENCE


def stream(texts):
    """The lines of one session that makes all rows."""
    yield b"A5Hceder"
    yield b"1 62 5 0H 0"
    yield b"1 88 4HMany 00000000 0 { }"
    for person in range(PERSONS):
        yield b"1 89 %s 0H 00000000 0 { }" % string(b"Person %d" % person)
    yield b"1 62 5 0H 0"
    for number in range(texts):
        yield b"1 86 %s %s 0 { }" % (BODY, misc_of(number))
    marks = texts // 100
    for person in range(FIRST_PERSON, FIRST_PERSON + PERSONS):
        yield b"1 62 %d 0H 0" % person
        yield b"1 100 %d %d 200 1 00000000" % (CONFERENCE, person)
        ranges = [b"%d %d" % (start, start + 4) for start in range(10 + person, texts - 10, max(texts // 1_000, 10))]
        yield b"1 110 %d %d { %s }" % (CONFERENCE, len(ranges), b" ".join(ranges))
        for number in range(marks):
            yield b"1 72 %d 100" % (number * 100 + person)


def main(words):
    komd, retell = program_of(words), program_of(words, 1, "retell")
    texts = int(words[2]) if len(words) > 2 else 20_000
    with tempfile.TemporaryDirectory() as room:
        store = make_store(komd, pathlib.Path(room) / "store")
        lines = list(stream(texts))
        made = subprocess.run([komd, "once", store], input=b"\n".join(lines) + b"\n", stdout=subprocess.PIPE, check=True)
        refused = [line for line in made.stdout.split(b"\n") if line.startswith(b"%")]
        if refused:
            sys.exit(f"{len(refused)} of {len(lines)} lines were refused, the first by {refused[0]!r}")
        opening = collected([retell, "open", store])
        telling = collected([retell, "tell", store]) - opening
    print(f"opening {texts} texts: {opening / 1e6:.0f} million instructions; telling them {telling / 1e6:.0f}, {telling / opening:.2f} times as many")


if __name__ == "__main__":
    script(main, __doc__)
