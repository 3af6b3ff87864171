#!/usr/bin/env python3
"""Benchmarks `komd once STORE` against a small C program, and prints ratios taken in one run: bench_store.py [KOMD [FOLDER]]

one      create-text of 500 bytes, each sent once the one before it was answered; the C program writes as many bytes to a file for
         each, syncs, writes a byte and syncs, and does no more; then it does so for lines that it is sent, which it answers
four     the same in pieces of four calls, each sent once the one before it was answered; the C program does the same once for each
         piece, and the store must have one batch for each piece
opening  `komd check` of the store that has 100,000 such texts; the C program reads the file in pieces of as many bytes

Who is asked is asked by the same C program, over two pipes. There two processes wake each other for each piece; where nobody asks,
none is woken. So both are asked as well by one that is a piece ahead: it sends the next piece once the one before it was read, not
once that was answered. The next piece then stands there already when one is answered, and never do two, which would share a flush.

The files stand in FOLDER, which should be on a disk (/var/tmp if left out). All take turns, nine times, and medians are compared.
"""
import pathlib
import statistics
import subprocess
import sys
import tempfile
import time

sys.path.insert(0, str(pathlib.Path(__file__).resolve().parents[1] / "common"))
from built import check_store, compile_c, make_store, program_of, script

CALLS, ROUNDS, TEXTS = 200, 9, 100_000
BODY = b"500H" + b"x" * 500
# `FILE TIMES SIZE` writes as said above, and `FILE TIMES SIZE PIECE` does so for each so many lines of its standard input, and
# answers them; `FILE 0 0` reads the file; and `- TIMES PIECE REFERENCE AHEAD` asks a server at its standard input and output so
# often for so many texts, from this reference number on, and is so many pieces ahead, 0 or 1.
LOOP_C = r"""
#include <fcntl.h>
#include <poll.h>
#include <sched.h>
#include <stdio.h>
#include <stdlib.h>
#include <string.h>
#include <sys/ioctl.h>
#include <unistd.h>
static char bytes[1 << 16];
static int read_lines(long count) {
    static char input[1 << 16];
    static long lines; /* that came with those before them */
    for (long got; lines < count; ) {
        if ((got = read(0, input, sizeof input)) <= 0) return 0;
        for (long place = 0; place < got; place++) lines += input[place] == '\n';
    }
    lines -= count;
    return 1;
}
static int all_read(void) {
    int unread = 1;
    struct pollfd reader = { .fd = 1 }; /* poll counts it once nobody reads any more */
    while (ioctl(1, FIONREAD, &unread) == 0 && unread > 0 && poll(&reader, 1, 0) == 0) sched_yield();
    return unread == 0;
}
static int ask(long times, long piece, long reference, long ahead) {
    static char body[501];
    memset(body, 'x', 500);
    for (long sent = 0; sent < times; sent++) {
        long size = 0;
        for (long place = 0; place < piece; place++)
            size += sprintf(bytes + size, "%ld 86 500H%s 0 { } 0 { }\n", reference++, body);
        if (!all_read() || write(1, bytes, size) != size || (sent >= ahead && !read_lines(piece))) return 1;
    }
    return !read_lines(ahead * piece);
}
int main(int count, char **words) {
    long times = atol(words[2]), size = atol(words[3]), end = 0;
    if (strcmp(words[1], "-") == 0) return ask(times, size, atol(words[4]), atol(words[5]));
    int file = open(words[1], O_RDWR | O_CREAT, 0600);
    if (file < 0) return 1;
    if (times == 0) {
        while ((size = read(file, bytes, sizeof bytes)) > 0) end += size;
        return end == 0;
    }
    memset(bytes, 'x', sizeof bytes);
    long piece = count > 4 ? atol(words[4]) : 0;
    for (; times > 0; times--, end += size) {
        if (!read_lines(piece)) return 1;
        if (pwrite(file, bytes, size, end + 1) != size || fdatasync(file)) return 1;
        if (pwrite(file, "\1", 1, end) != 1 || fdatasync(file)) return 1;
        if (piece > 0 && write(1, "=1\n=2\n=3\n=4\n", 3 * piece) != 3 * piece) return 1;
    }
    return 0;
}
"""


def ask(loop, process, piece, reference, ahead):
    words = [loop, "-", str(CALLS), str(piece), str(reference), str(ahead)]
    subprocess.run(words, stdin=process.stdout, stdout=process.stdin, check=True)


class Talk:
    """A session of `komd once STORE` that is logged in."""

    def __init__(self, komd, store):
        self.process = subprocess.Popen([komd, "once", store], stdin=subprocess.PIPE, stdout=subprocess.PIPE, bufsize=0)
        self.reference = 1
        self.process.stdin.write(b"A1Ha\n1 62 5 0H 0\n")
        self.lines(2)

    def lines(self, count):
        for _ in range(count):
            if not self.process.stdout.readline():
                sys.exit("the server ended")

    def ask(self, loop, piece, ahead):
        """Has the C program ask for texts, a measured number of times so many in a piece."""
        ask(loop, self.process, piece, self.reference + 1, ahead)
        self.reference += CALLS * piece

    def create(self, count):
        """Sends so many create-texts in one piece, and waits for their replies."""
        piece = b"".join(b"%d 86 %s 0 { } 0 { }\n" % (self.reference + 1 + place, BODY) for place in range(count))
        self.reference += count
        while piece:
            piece = piece[self.process.stdin.write(piece):]
        self.lines(count)

    def end(self):
        self.process.stdin.close()
        if self.process.wait() != 0:
            sys.exit(f"the server ended with {self.process.returncode}")


def seconds(work):
    begun = time.perf_counter()
    work()
    return time.perf_counter() - begun


def counts(komd, store):
    status, told = check_store(komd, store)
    if status != 0:
        sys.exit(f"check ends with {status}")
    return told


def asked(loop, file, size, piece, ahead):
    """Has the C program asked as a server is."""
    words = [loop, file, str(CALLS), str(size), str(piece)]
    with subprocess.Popen(words, stdin=subprocess.PIPE, stdout=subprocess.PIPE, bufsize=0) as it:
        ask(loop, it, piece, 1, ahead)


def create_texts(komd, loop, folder, piece):
    """The ratios of the C program's time to that of the server, where nobody asks it and where it is asked, for pieces of so many
    calls; first those where who asks waits for each reply, then those where it is a piece ahead."""
    store = folder / f"store{piece}"
    make_store(komd, store)
    talk, ours, theirs, likewise = Talk(komd, store), ([], []), [], ([], [])
    for number in range(ROUNDS):
        before = store.stat().st_size
        for ahead in (0, 1):
            ours[ahead].append(seconds(lambda: talk.ask(loop, piece, ahead)))
        size = (store.stat().st_size - before) // (2 * CALLS)
        file = folder / f"loop{piece}.{number}"
        theirs.append(seconds(lambda: subprocess.run([loop, file, str(CALLS), str(size - 1)], check=True)))
        for ahead in (0, 1):
            file = folder / f"asked{piece}.{number}.{ahead}"
            likewise[ahead].append(seconds(lambda: asked(loop, file, size - 1, piece, ahead)))
    talk.end()
    told, pieces = counts(komd, store), 2 * ROUNDS * CALLS
    # The store was made by one batch, and the login is another.
    if (told["batches"], told["texts"]) != (2 + pieces, piece * pieces):
        sys.exit(f"the store has {told}")
    return [statistics.median(times) / statistics.median(ours[ahead]) for ahead in (0, 1) for times in (theirs, likewise[ahead])]


def opening(komd, loop, folder):
    """How long opening takes, and how often the reading of the file."""
    store = make_store(komd, folder / "large")
    talk = Talk(komd, store)
    for _ in range(TEXTS // 1000):
        talk.create(1000)
    talk.end()
    ours, theirs = [], []
    for _ in range(ROUNDS):
        ours.append(seconds(lambda: counts(komd, store)))
        theirs.append(seconds(lambda: subprocess.run([loop, store, "0", "0"], check=True)))
    return statistics.median(ours), statistics.median(ours) / statistics.median(theirs)


def main(words):
    komd = program_of(words)
    with tempfile.TemporaryDirectory(dir=words[1] if len(words) > 1 else "/var/tmp", prefix="komd-bench-") as room:
        folder = pathlib.Path(room)
        source = folder / "loop.c"
        source.write_text(LOOP_C)
        loop = compile_c(source, folder / "loop")
        for name, piece in [("one", 1), ("four", 4)]:
            alone, likewise, alone_ahead, likewise_ahead = create_texts(komd, loop, folder, piece)
            print(f"{name}: the C program takes {alone:.2f} of the server's time, and {likewise:.2f} where it is asked; "
                  f"and {alone_ahead:.2f} and {likewise_ahead:.2f} where the next piece stands there already")
        took, times = opening(komd, loop, folder)
        print(f"opening: {took * 1000:.0f} ms, {times:.1f} times what reading the file takes")


if __name__ == "__main__":
    script(main, __doc__)
