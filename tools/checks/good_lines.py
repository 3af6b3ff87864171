#!/usr/bin/env python3
"""Gives the built program `komd` the lines of tests/good_lines, each in a run of its own: good_lines.py [PROGRAM]

What the files have is said in tests/good_lines/README.md. Beside the runs that stand there, each good line is given with a token
too many and with its last token left out, which are answered `%%Protocol error.`, and cut after each of its bytes with no line
feed after it, which is answered nothing. The runs go side by side, as many as there are processors. A run that is answered
otherwise is made once more, since a time may have passed from one second to the next. It prints a line for each run that is
answered otherwise twice, and a count, and ends with 1 if there is one, else with 0. PROGRAM is the built `komd` unless it is named.
"""
import concurrent.futures
import os
import pathlib
import re
import subprocess
import sys

sys.path.insert(0, str(pathlib.Path(__file__).resolve().parents[1] / "common"))
from built import ROOT, program_of, script
from protocol import difference

LINES = ROOT / "tests" / "good_lines"
GREETING = b"A1Ha\n"
GREETED = b"LysKOM\n"
FAULT = b"%%Protocol error.\n"
TOKEN = re.compile(rb"(\d+)H|\d+|[{}*]")


def bytes_of(text):
    """The bytes that a line of a file stands for."""
    plain = re.sub(r"\\(\\|x[0-9a-f]{2})", lambda m: "\\" if m[1] == "\\" else chr(int(m[1][1:], 16)), text)
    return plain.encode("latin-1")


def runs_of(file):
    """The runs of a file: of each, the lines that are sent and all that is answered."""
    runs, sent, answered = [], [], []
    for line in [*(LINES / file).read_text("ascii").split("\n"), ""]:
        if line.startswith("> "):
            sent.append(bytes_of(line[2:]))
        elif line.startswith("< "):
            answered.append((len(sent), bytes_of(line[2:]) + b"\n"))
        elif line == "" and sent:
            runs.append((sent, answered))
            sent, answered = [], []
        elif line and not line.startswith("#"):
            sys.exit(f"tests/good_lines/{file}: a line is none that may stand there: {line:.80}")
    return runs


def tokens_end(line):
    """Where each token of a line ends."""
    ends, place = [], 0
    while place < len(line):
        found = TOKEN.match(line, place)
        place = found.end() + int(found[1]) if found[1] else found.end()
        ends.append(place)
        place += 1
    return ends


def cases():
    """Each run, as a name, all that is sent and all that is answered."""
    ((sent, answered),) = runs_of("setup.txt")
    begun = GREETING + b"".join(line + b"\n" for line in sent)
    greeted = GREETED + b"".join(line for _, line in answered)
    for sent, answered in runs_of("departures.txt"):
        lines, replies = b"".join(line + b"\n" for line in sent), b"".join(line for _, line in answered)
        yield repr(sent[0])[1:62], begun + lines, greeted + replies
    for sent, answered in runs_of("good.txt"):
        good, name = sent[-1], repr(sent[-1])[1:]
        before = begun + b"".join(line + b"\n" for line in sent[:-1])
        told = greeted + b"".join(line for place, line in answered if place < len(sent))
        reply = b"".join(line for place, line in answered if place == len(sent))
        yield name, before + good + b"\n", told + reply
        yield f"{name} and a token more", before + good + b" 0\n", told + FAULT
        yield f"{name} but its last token", before + good[: tokens_end(good)[-2]] + b"\n", told + FAULT
        for length in range(1, len(good) + 1):
            yield f"{name} cut after {length} bytes", before + good[:length], told


def fault_of(program, case):
    """What is wrong with a run, with its name, or None."""
    name, sent, wanted = case
    why = None
    for _ in range(2):
        done = subprocess.run([program, "once"], input=sent, capture_output=True, timeout=300)
        if done.returncode != 0:
            why = f"status {done.returncode}"
        elif done.stderr:
            why = f"reported {done.stderr!r:.200}"
        else:
            why = difference(wanted, done.stdout)
        if why is None:
            return None
    return f"{name}: {why}"


def main(words):
    program = program_of(words)
    every = list(cases())
    with concurrent.futures.ThreadPoolExecutor(os.cpu_count()) as pool:
        faults = [why for why in pool.map(lambda case: fault_of(program, case), every) if why]
    for why in faults:
        print(why)
    print(f"{len(every) - len(faults)} lines are answered as they should be, {len(faults)} are not")
    return 1 if faults or not every else 0


if __name__ == "__main__":
    script(main, __doc__)
