#!/usr/bin/env python3
"""Benchmarks `komd once` against small C programs, and prints ratios taken in one run.

usage: bench_once.py [KOMD]      (KOMD: the built program if left out)

lines    one million lines `1 56` after a greeting; the C program reads in the same pieces of 8,192 bytes and
         makes one write for each reply
duties   the same lines; the C program writes the replies of four lines at once and does what four lines owe here:
         it reads the clock at each of their seven acts (four calls, the flush, the drain, and the drain that finds
         nothing left) and keeps a record of 80 bytes of each, as the server's records are
strings  200 unknown calls, each with a string of one mebibyte; the C program reads in the same pieces and copies
         the bytes once into a buffer that it uses again for each mebibyte

Each program reads a file and writes to /dev/null. The two take turns, five times, and the medians are compared.
"""
import os
import pathlib
import statistics
import subprocess
import sys
import tempfile
import time

sys.path.insert(0, str(pathlib.Path(__file__).resolve().parents[1] / "common"))
from built import compile_c, program_of, script

LINES_C = r"""
#include <stdint.h>
#include <stdlib.h>
#include <string.h>
#include <time.h>
#include <unistd.h>
static char piece[8192];
#ifdef DUTIES
struct record { uint32_t pass; uint64_t moment; unsigned char act[56]; uint32_t session; unsigned char is_short; };
static struct record *records;
static size_t kept, room;
static void act(unsigned char kind) {
    struct timespec now;
    clock_gettime(CLOCK_REALTIME, &now);
    if (kept == room) {
        room = room ? 2 * room : 4;
        records = realloc(records, room * sizeof *records);
        if (!records) abort();
    }
    struct record *made = &records[kept++];
    memset(made, 0, sizeof *made);
    made->moment = now.tv_sec;
    made->act[0] = kind;
    made->session = 1;
}
static char held[64];
static size_t length;
static int lines;
static int settle(void) {
    if (length == 0) return 0;
    act(2);
    act(3);
    if (write(1, held, length) < 0) return 1;
    act(3);
    length = 0;
    lines = 0;
    return 0;
}
static int answer(const char *reply, int greeted) {
    act(1);
    memcpy(held + length, reply, strlen(reply));
    length += strlen(reply);
    lines += greeted;
    return lines == 4 ? settle() : 0;
}
#else
static int settle(void) { return 0; }
static int answer(const char *reply, int greeted) {
    (void) greeted;
    return write(1, reply, strlen(reply)) < 0;
}
#endif
int main(void) {
    ssize_t count;
    int greeted = 0;
    while ((count = read(0, piece, sizeof piece)) > 0) {
        char *at = piece, *end = piece + count, *feed;
        while ((feed = memchr(at, '\n', end - at)) != 0) {
            if (answer(greeted ? "=1 1\n" : "LysKOM\n", greeted)) return 1;
            greeted = 1;
            at = feed + 1;
        }
        if (settle()) return 1;
    }
    return 0;
}
"""

STRINGS_C = r"""
#include <string.h>
#include <unistd.h>
static char piece[8192];
static char kept[1 << 20];
int main(void) {
    ssize_t count;
    size_t at = 0;
    while ((count = read(0, piece, sizeof piece)) > 0) {
        size_t part = (size_t) count < sizeof kept - at ? (size_t) count : sizeof kept - at;
        memcpy(kept + at, piece, part);
        memcpy(kept, piece + part, count - part);
        at = at + count < sizeof kept ? at + count : count - part;
    }
    return kept[at / 2] == 1;
}
"""


def write_lines(path):
    with open(path, "wb") as out:
        out.write(b"A5Hceder\n" + b"1 56\n" * 1_000_000)


def write_strings(path):
    line = b"1 999 1048576H" + b"x" * 1_048_576 + b"\n"
    with open(path, "wb") as out:
        out.write(b"A5Hceder\n")
        for _ in range(200):
            out.write(line)


def seconds(command, path):
    with open(path, "rb") as source, open(os.devnull, "wb") as sink:
        begin = time.perf_counter()
        subprocess.run(command, stdin=source, stdout=sink, check=False)
        return time.perf_counter() - begin


def compare(name, komd, code, write_input, folder, *flags):
    path = os.path.join(folder, name + ".in")
    program = os.path.join(folder, name)
    source = program + ".c"
    with open(source, "w", encoding="ascii") as out:
        out.write(code)
    compile_c(source, program, *flags)
    write_input(path)
    seconds([program], path)
    ours, theirs = [], []
    for _ in range(5):
        theirs.append(seconds([program], path))
        ours.append(seconds([komd, "once"], path))
    mine, other = statistics.median(ours), statistics.median(theirs)
    print(f"{name}: komd {mine:.3f} s, C {other:.3f} s, ratio {mine / other:.2f}")
    os.remove(path)


def main(words):
    komd = program_of(words)
    with tempfile.TemporaryDirectory() as folder:
        compare("lines", komd, LINES_C, write_lines, folder)
        compare("duties", komd, LINES_C, write_lines, folder, "-DDUTIES")
        compare("strings", komd, STRINGS_C, write_strings, folder)


if __name__ == "__main__":
    script(main, __doc__)
