#!/usr/bin/env python3
"""Counts the instructions of opening a store, and prints how often they are those that its rows take.

usage: instructions_of_opening.py [KOMD [TEXTS]]      (KOMD: the built program if left out)

A store gets 20,000 texts of 500 bytes, unless TEXTS says how many, and is checked. Counted by callgrind: all that opening does, and
of it that rows are told whether an effect fits, make room for it, and take it. The program must have the names of its functions.
"""
import pathlib
import re
import subprocess
import sys
import tempfile

sys.path.insert(0, str(pathlib.Path(__file__).resolve().parents[1] / "common"))
from built import make_store, program_of, script
from callgrind import by_function, login
from protocol import string

ROWS = r":kom_state::stored_rows::StoredRows::(fits|reserve|apply_effect)\b"


def main(words):
    program = program_of(words)
    texts = int(words[1]) if len(words) > 1 else 20_000
    lines = [b"A4Hmany", login(5), *(b"%d 86 %s 0 { } 0 { }" % (number + 2, string(b"x" * 500)) for number in range(texts))]
    with tempfile.TemporaryDirectory() as room:
        store = make_store(program, pathlib.Path(room) / "store")
        subprocess.run([program, "once", store], input=b"\n".join(lines) + b"\n", stdout=subprocess.DEVNULL, check=True)
        report, functions = by_function(pathlib.Path(room) / "check", [program, "check", store], b"")
    if b"texts %d\n" % texts not in report:
        sys.exit(f"the store holds {report!r}")
    opening = sum(one for one, name in functions if re.search(r":kom_journal::journal::Journal::open\b", name))
    rows = [one for one, name in functions if re.search(ROWS, name)]
    if not opening or len(rows) != 3:
        sys.exit("the program has no functions of those names")
    print(f"opening {texts} texts: {opening / texts:.0f} instructions for each, {opening / sum(rows):.2f} times those of the rows")


if __name__ == "__main__":
    script(main, __doc__)
