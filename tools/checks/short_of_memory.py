#!/usr/bin/env python3
"""Runs the built program `komd` over one session that writes texts until memory runs out, under several limits of memory.

    short_of_memory.py [PROGRAM]

Whatever the limit, the session is sent whole lines, a reply for each of its first calls in order, and no more: a text's number, one
above the last, or that memory ran out (error 39, status 0), which draws no number. The run ends with status 0 and reports nothing.
PROGRAM is the built `komd` unless it is named. It prints a line for what is otherwise, and at the end how many runs there were and how they ended; ends with 0 where all is so and some run came to its end and some did not, else with 1.
"""
import pathlib
import resource
import subprocess
import sys

sys.path.insert(0, str(pathlib.Path(__file__).resolve().parents[1] / "common"))
from built import program_of, script
from protocol import string

# What a session writes: how many texts, and how many bytes each has.
SESSIONS = [(150_000, 5), (400, 100_000)]
MEBIBYTES = [6, 8, 12, 16, 20, 24, 28, 32, 40, 48, 56, 64, 512]


def lines_of(texts, size):
    """What the client sends."""
    yield b"A1Ha\n1 62 5 0H 0\n"
    body = string(b"x" * size)
    for number in range(texts):
        yield b"%d 86 %s 0 { } 0 { }\n" % (number + 2, body)


def fault_of(output):
    """What is wrong with the replies of a session, or None; and how many there are, and how many say that memory ran out."""
    if output and not output.endswith(b"\n"):
        return "the last line is cut", 0, 0
    lines = output.split(b"\n")[:-1]
    if not lines:
        return None, 0, 0
    if lines[0] != b"LysKOM":
        return f"begins with {lines[0][:40]!r}", 0, 0
    drawn = refused = 0
    for reference, line in enumerate(lines[1:], 1):
        if line == b"%%%d 39 0" % reference:
            refused += 1
        elif reference == 1:
            if line != b"=1":
                return f"the login is answered {line[:40]!r}", 0, 0
        else:
            drawn += 1
            if line != b"=%d %d" % (reference, drawn):
                return f"reply {reference} is {line[:40]!r}, not text {drawn}", 0, 0
    return None, len(lines) - 1, refused


def main(words):
    program = program_of(words)
    faults = runs = whole = short = refused_runs = 0
    for texts, size in SESSIONS:
        sent = b"".join(lines_of(texts, size))
        for limit in MEBIBYTES:
            most = limit << 20
            left = subprocess.run(
                [program, "once"],
                input=sent,
                stdout=subprocess.PIPE,
                stderr=subprocess.PIPE,
                preexec_fn=lambda: resource.setrlimit(resource.RLIMIT_AS, (most, most)),
            )
            runs += 1
            fault, replies, refused = fault_of(left.stdout)
            if fault is None and (left.returncode != 0 or left.stderr):
                fault = f"status {left.returncode}, reported {left.stderr[:80]!r}"
            if fault is not None:
                faults += 1
                print(f"{texts} texts of {size} bytes under {limit} MiB: {fault}")
            elif replies == texts + 1:
                whole += 1
            else:
                short += 1
            refused_runs += refused > 0
    print(f"{runs} runs: {whole} to the end, {short} ended before; in {refused_runs} calls were answered 39; {faults} otherwise")
    return 0 if not faults and whole and short else 1


if __name__ == "__main__":
    script(main, __doc__)
