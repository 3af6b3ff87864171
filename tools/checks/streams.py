#!/usr/bin/env python3
"""Gives the built program `komd` streams and compares what it answers: streams.py [PROGRAM [FOLDER..]]

What the folders of tests/streams have is said in tests/streams/README.md. Wherever a file of answers has the time of moment 0, any
time passes. Without a folder all are run. A stream that is answered otherwise is given once more: how long a session was idle and a
person was present is counted in seconds, and one may have ended while the program ran. It prints a line for each stream that is
answered otherwise twice, and a count.

Before that it looks at the files alone, all of them: each call of docs/protocol.md is answered well in some stream, and no line is
answered that memory ran out. It prints a line for each call, or stream, of which that is not so. It ends with 1 if it printed any
line but the count, else with 0. PROGRAM is the built `komd` unless it is named.
"""
import pathlib
import re
import subprocess
import sys

sys.path.insert(0, str(pathlib.Path(__file__).resolve().parents[1] / "common"))
from built import ROOT, program_of, script
from protocol import STRING, difference

STREAMS = ROOT / "tests" / "streams"
GREETING = re.compile(rb"A[ \t\r]*(\d+)H")
# What a reply begins with: whether it is good, the reference, and the code of a refusal.
REPLY = re.compile(rb"([=%])(\d+)(?: (\d+))?")
OUT_OF_MEMORY = 39


def run(program, stream):
    """Why the stream is not answered as it should be, or None."""
    with stream.open("rb") as given:
        done = subprocess.run([program, "once"], stdin=given, capture_output=True, timeout=300)
    if done.returncode != 0:
        return f"status {done.returncode}"
    if done.stderr:
        return f"reported {done.stderr!r:.200}"
    return difference(stream.with_suffix(".out").read_bytes(), done.stdout)


def lines_of(text, place):
    """The lines from a place on, without those that have blanks alone. A line feed inside a string ends none."""
    lines, begun = [], place
    while place < len(text):
        string = STRING.match(text, place)
        if string:
            place = string.end() + int(string[1])
        elif text[place : place + 1].isdigit():
            place += len(re.compile(rb"\d+").match(text, place)[0])
        else:
            place += 1
            if text[place - 1 : place] == b"\n":
                lines.append(text[begun : place - 1])
                begun = place
    return [line for line in lines if line.strip(b" \t\r")]


def replies_of(stream):
    """The lines that a stream has replies to in its file of answers, each with what its reply begins with."""
    sent, told = stream.read_bytes(), stream.with_suffix(".out").read_bytes()
    greeting = GREETING.match(sent)
    lines = lines_of(sent, greeting.end() + int(greeting[1])) if greeting else []
    replies = [line for line in lines_of(told, 0) if REPLY.match(line)]
    return zip(lines, (REPLY.match(line) for line in replies))


def calls_of_the_protocol():
    """The numbers of the calls, which docs/protocol.md has in its table of them."""
    page = (ROOT / "docs" / "protocol.md").read_text()
    table = page.partition("| call | arguments | good reply |\n")[2].partition("\n\n")[0]
    return [int(number) for number in re.findall(r"^\| (\d+) ", table, re.MULTILINE)]


def gaps(streams):
    """What the files lack, a line for each."""
    answered, found = set(), []
    for stream in streams:
        for line, reply in replies_of(stream):
            words = line.split(maxsplit=2)
            if reply[1] == b"=" and len(words) > 1 and int(words[0]) == int(reply[2]):
                answered.add(int(words[1]))
            if reply[1] == b"%" and reply[3] is not None and int(reply[3]) == OUT_OF_MEMORY:
                found.append(f"{stream.relative_to(STREAMS)}: {line!r:.100} is answered that memory ran out")
    calls = calls_of_the_protocol()
    if not calls:
        found.append("docs/protocol.md: its table of the calls was not found")
    return found + [f"call {call}: no stream has a good reply to it" for call in calls if call not in answered]


def main(words):
    program = program_of(words)
    every = sorted(p for p in STREAMS.iterdir() if p.is_dir())
    folders = [pathlib.Path(word) for word in words[1:]] or every
    lacks = gaps([stream for folder in every for stream in sorted(folder.glob("*.in"))])
    for lack in lacks:
        print(lack)
    streams = [stream for folder in folders for stream in sorted(folder.glob("*.in"))]
    failed = 0
    for stream in streams:
        why = run(program, stream) and run(program, stream)
        if why:
            failed += 1
            print(f"{stream.relative_to(STREAMS) if STREAMS in stream.parents else stream}: {why}")
    print(f"{len(streams) - failed} streams are answered as they should be, {failed} are not")
    return 1 if lacks or failed or not streams else 0


if __name__ == "__main__":
    script(main, __doc__)
