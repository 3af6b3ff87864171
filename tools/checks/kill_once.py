#!/usr/bin/env python3
"""Kills `komd once STORE` at random moments and compares what was answered with what is kept: kill_once.py [PROGRAM [TIMES [SEED]]]

The client's lines are writes of all kinds, in a fixed order. First the program serves, for each number of them, that many lines on a
new store, and is then asked for all that they may have changed: what it answers is the state after so many lines. Then, TIMES times
(200 unless it is named), it is fed the lines on a new store, in pieces of random lengths and with random waits, and killed by signal
9 at a random moment. The store is opened again by `check`, which must end with 0, and its state must be that after some number of
lines, no fewer than were answered and no more than were sent: nothing that was answered is missing, and nothing is there by half.
The times of a state count for nothing.

A signal does not tear what was written, as a stop of the whole machine may: that is tried by tests on a disk in memory, and proved.
It prints a line for each time that it is otherwise, with the seed, and a count, and ends with 1 if there is one, else with 0.
PROGRAM is the built `komd` unless it is named.
"""
import pathlib
import random
import re
import subprocess
import sys
import tempfile
import threading
import time

sys.path.insert(0, str(pathlib.Path(__file__).resolve().parents[1] / "common"))
from built import check_store, make_store, program_of, script

GREETING = b"A1Ha\n"
# Each line with a reference of its own; the first one logs in, and each of the others changes something.
WRITES = """62 5 0H 0
42 255
88 4HOpen 00001000 0 { }
88 6HClosed 10101000 0 { }
89 2HBo 1Hb 00000000 0 { }
89 2HCy 1Hc 00000000 1 { 3 00000000 0 2Hhi }
100 6 5 100 0 00000000
100 6 8 90 0 00000000
100 7 8 80 1 00000000
86 5HHello 1 { 0 6 } 1 { 1 00000000 0 10Htext/plain }
86 3HRe: 3 { 0 6 1 7 2 1 } 0 { }
87 4Hanon 1 { 0 6 } 0 { }
86 4Hfoot 2 { 15 6 4 1 } 0 { }
30 3 7 1
32 3 1
37 2 1
27 6 2 { 1 2 }
40 6 1
77 6 1
110 6 2 { 1 1 3 4 }
109 6 3
72 1 100
72 2 7
73 2
92 1 1 { 1 } 1 { 2 00000000 0 2Hok }
93 6 0 { } 1 { 14 00000000 0 1H1 }
3 6 8HOpen too
16 6 1
17 6 2
18 7 8
19 7 8
20 7 6
21 6 00000000
22 6 12
97 6 30
105 6 40
106 8 10000000
7 8 1000000000000000
8 8 0H 1Hz
57 5 1
102 8 6 01000000
38 2 1
33 3 1
31 3 7
29 2
15 7 8
11 7
86 4Hlast 2 { 0 6 2 1 } 0 { }
11 9""".encode().split(b"\n")
# What is asked of a state: of each number that the lines may have drawn, all that is told.
ASKED = [
    b"62 5 0H 0",
    b"42 255",
    b"76 0H 1 1",
    b"23",
    *(b"%d %d" % (call, number) for number in range(1, 11) for call in (91, 49, 78)),
    *(b"101 %d 0 100" % number for number in range(1, 11)),
    *(b"%d %d 1 255" % (call, number) for number in range(1, 11) for call in (103, 104)),
    *(b"108 %d 0 100 1 0" % number for number in range(5, 10)),
    *(b"%s %d%s" % (call, number, rest) for number in range(1, 8) for call, rest in ((b"90", b""), (b"25", b" 0 999"))),
    b"62 8 1Hz 0",
    b"62 8 1Hb 0",
]
# What hangs on the time: moments, of a year from 2020 on, so that no other numbers are taken for one; and how long a person was
# present, which stands two numbers after its last login.
TIME = re.compile(rb"(?:\d{1,2} ){5}1[2-9]\d [0-6] \d{1,3} 0")
PRESENT = re.compile(rb"(T \d+) \d+ ")
MOST_LINES_OF_A_PIECE = 6
LONGEST_WAIT = 0.004


def numbered(lines):
    """The lines, each after its reference from 1 on."""
    return [b"%d %s\n" % (place + 1, line) for place, line in enumerate(lines)]


def replies_in(answered):
    """How many whole replies there are."""
    return sum(1 for line in answered.split(b"\n")[:-1] if re.match(rb"[=%]\d", line))


class Server:
    """The program, and the stores that it makes in a folder."""

    def __init__(self, program, folder):
        self.program, self.store = program, pathlib.Path(folder) / "store"

    def make(self):
        self.store.unlink(missing_ok=True)
        make_store(self.program, self.store)

    def serve(self, lines):
        """What the lines are answered, all of them in one piece."""
        sent = GREETING + b"".join(numbered(lines))
        done = subprocess.run([self.program, "once", self.store], input=sent, capture_output=True, check=True, timeout=60)
        return done.stdout

    def state(self):
        """All that is told of the store, but for times."""
        return PRESENT.sub(rb"\1 ", TIME.sub(b"T", self.serve(ASKED)))

    def serve_and_kill(self, chance, longest):
        """Feeds the lines and kills the program. How many lines were sent at most, and what was answered."""
        with subprocess.Popen(
            [self.program, "once", self.store], stdin=subprocess.PIPE, stdout=subprocess.PIPE, bufsize=0
        ) as server:
            killer = threading.Timer(chance.uniform(0, longest), server.kill)
            killer.start()
            sent = self.feed(server.stdin, chance)
            answered = server.stdout.read()
            killer.cancel()
            server.kill()
        return sent, answered

    @staticmethod
    def feed(pipe, chance):
        """Writes the lines in pieces until the pipe breaks. How many lines were begun to be written."""
        lines, sent = [GREETING, *numbered(WRITES)], 0
        try:
            while sent < len(lines):
                count = chance.randint(1, MOST_LINES_OF_A_PIECE)
                piece = b"".join(lines[sent : sent + count])
                sent += count
                pipe.write(piece)
                time.sleep(chance.uniform(0, LONGEST_WAIT))
            pipe.close()
        except BrokenPipeError:
            pass
        return min(sent, len(lines)) - 1


def fault_of(server, chance, states, longest):
    """What is otherwise after one kill, or None; and whether the kill came before the end."""
    server.make()
    sent, answered = server.serve_and_kill(chance, longest)
    told = replies_in(answered)
    status, _ = check_store(server.program, server.store)
    if status != 0:
        return f"check ends with {status}", told
    state = server.state()
    if state not in states[told : sent + 1]:
        where = [count for count, other in enumerate(states) if other == state]
        return f"{told} lines were answered and {sent} sent, and the state is that after {where or 'none'}", told
    return None, told


def main(words):
    program = program_of(words)
    times = int(words[1]) if len(words) > 1 else 200
    seed = int(words[2]) if len(words) > 2 else random.randrange(1_000_000)
    failed, cut = 0, 0
    with tempfile.TemporaryDirectory() as folder:
        server = Server(program, folder)
        states = []
        for count in range(len(WRITES) + 1):
            server.make()
            answered = server.serve(WRITES[:count])
            refused = [line for line in answered.split(b"\n") if line.startswith(b"%")]
            if refused or replies_in(answered) != count:
                print(f"the first {count} lines: answered {refused[-1:] or replies_in(answered)}")
                return 1
            states.append(server.state())
        longest = sum(LONGEST_WAIT for _ in WRITES) / 2
        for number in range(times):
            fault, told = fault_of(server, random.Random(f"{seed}.{number}"), states, longest)
            cut += told < len(WRITES)
            if fault:
                failed += 1
                print(f"seed {seed}, time {number}: {fault}")
    print(f"{times} times killed, {cut} of them before the last line was answered; {failed} are otherwise")
    return 1 if failed or not cut else 0


if __name__ == "__main__":
    script(main, __doc__)
