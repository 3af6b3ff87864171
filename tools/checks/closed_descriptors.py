#!/usr/bin/env python3
"""Runs `komd` and `komc` with standard descriptors closed: closed_descriptors.py [KOMD [KOMC]]

A file that a program opens gets the lowest number that is free: with standard output closed, 1, and what is printed then goes into it.
Each word of both programs' usage lines is tried with each subset of the descriptors 0, 1 and 2 closed. Wanted are these:

- a report into a closed output ends with 7, and is not in the store; after `init` the store is there, and whole;
- a closed input ends a session, and a closed output too, both with status 0; the store is as it was, byte by byte;
- `serve` serves, whatever is closed, and the store only grows;
- `komc` sends its server what is typed, and nothing of what it shows; it ends with 1 where it cannot show it;
- where `/dev/null` cannot be opened `komd` ends with 5 and `komc` with 1, and the store is as it was.

It prints a count, and a line for each run that is otherwise, and ends with 1 if there is one, else with 0. It takes some ten seconds.
KOMD and KOMC are the built programs unless they are named.
"""
import itertools
import os
import pathlib
import resource
import socket
import subprocess
import sys
import tempfile
import threading

sys.path.insert(0, str(pathlib.Path(__file__).resolve().parents[1] / "common"))
from built import check_store, make_store, program_of, script
from served import PATIENCE, Server, Session, stop
from tried import Tried

INPUT, OUTPUT, ERRORS = 0, 1, 2
SUBSETS = [closed for count in range(4) for closed in itertools.combinations((INPUT, OUTPUT, ERRORS), count)]
# A session that changes nothing.
ASKS = b"A1Ha\n1 56\n"
# A line of a client's keys, and what it sends and shows.
KEYS, SENT, SHOWN = b"read 1\n", b"A1Hu\n1 25 1 0 4294967295\n", b"ok 3Hone\n"
USAGE_STATUS, STORE_STATUS, REPORT_STATUS, STANDARD_STATUS = 2, 4, 7, 5


class Closed(Tried):
    """What was looked at with some descriptors closed, of both programs."""

    def __init__(self, komd, komc, folder, closed):
        super().__init__(komd, folder)
        self.client, self.closed = komc, closed
        self.store = folder / "store"

    def looks(self, what, wanted, got):
        self.same(f"{what}, with {', '.join(map(str, self.closed)) or 'nothing'} closed", wanted, got)

    def run(self, words, given=b"", files=None):
        """The status of a run, and what it printed and reported; with no number from `files` on that it may open."""
        process = subprocess.Popen(
            words, stdin=subprocess.PIPE, stdout=subprocess.PIPE, stderr=subprocess.PIPE, preexec_fn=begin(self.closed, files)
        )
        try:
            printed, reported = process.communicate(given, PATIENCE)
        except subprocess.TimeoutExpired:
            process.kill()
            process.communicate()
            return "not done", b"", b""
        return process.returncode, printed, reported


def begin(closed, files=None):
    """What a process does before a program begins: it closes these descriptors, and may open no number from `files` on."""

    def close():
        for number in closed:
            os.close(number)
        if files is not None:
            resource.setrlimit(resource.RLIMIT_NOFILE, (files, files))

    return close


def try_reports(tried):
    """The words that print a report."""
    komd, failed = tried.program, OUTPUT in tried.closed
    store, before = tried.store, tried.store.read_bytes()
    report = b"" if failed else b"batches 1\nconferences 5\npersons 1\ntexts 0\n"
    status = REPORT_STATUS if failed else 0
    tried.looks("check STORE", (status, report, b""), tried.run([komd, "check", store]))
    tried.looks("the store after check", before, store.read_bytes())
    loads = tried.run([komd, "load", "8"])
    tried.looks("load 8", (status, b"" if failed else b"calls 8\nok 8\nrefused 0\nconferences 7\ntexts 2\n", b""), loads)
    made = tried.folder / "made"
    made.unlink(missing_ok=True)
    said = b"" if failed else b"store made\n"
    tried.looks("init STORE PASSWORD", (status, said, b""), tried.run([komd, "init", made, "secret"]))
    counts = {"batches": 1, "conferences": 5, "persons": 1, "texts": 0}
    tried.looks("the store that init made", (0, counts), check_store(komd, made))
    swept = tried.run([komd, "sweep", made, "5", "secret"])
    tried.looks("sweep STORE PERSON PASSWORD", (status, b"" if failed else b"swept 0\nkept 0\n", b""), swept)
    # (there is a store now)
    tried.looks("a second init", STORE_STATUS, tried.run([komd, "init", made, "other"])[0])
    status, printed, reported = tried.run([komd])
    tried.looks("no word", (USAGE_STATUS, not failed, b""), (status, printed.startswith(b"usage: "), reported))


def try_sessions(tried):
    """A session on standard input and output."""
    store, before = tried.store, tried.store.read_bytes()
    told = b"" if INPUT in tried.closed or OUTPUT in tried.closed else b"LysKOM\n=1 1\n"
    for words in (["once"], ["once", store]):
        what = " ".join(["once", "STORE"][: len(words)])
        tried.looks(what, (0, told, b""), tried.run([tried.program, *words], ASKS))
    tried.looks("the store after once", before, store.read_bytes())


def try_serve(tried):
    """Sessions at a port."""
    store, before = tried.store, tried.store.read_bytes()
    server = Server(tried.program, str(store), 1, begin=begin(tried.closed))
    try:
        session = Session(server.port)
        tried.looks("serve, a session's number", "1", session.ask("56"))
        session.end()
        tried.looks("the store that is served", before, store.read_bytes())
        stop(server).rest()
        tried.looks("serve, stopped", 0, server.wait())
    finally:
        server.kill()
    # (the last byte was a closed gate)
    tried.looks("the store that was served", before[:-1], store.read_bytes()[: len(before) - 1])
    tried.looks("its check", 0, check_store(tried.program, store)[0])


def answer_client(listener, came):
    """Answers one client by a text, and notes what comes from it."""
    connection, _ = listener.accept()
    with connection:
        connection.settimeout(PATIENCE)
        connection.sendall(b"LysKOM\n")
        while piece := connection.recv(4096):
            came.append(piece)
            if b"".join(came) == SENT:
                connection.sendall(b"=1 3Hone\n")


def try_client(tried):
    """The client, at a server that notes what it sends."""
    came = []
    with socket.create_server(("127.0.0.1", 0)) as listener:
        listener.settimeout(PATIENCE)
        answering = threading.Thread(target=answer_client, args=(listener, came), daemon=True)
        answering.start()
        words = [tried.client, "--port", str(listener.getsockname()[1]), "--user", "u"]
        done = tried.run(words, KEYS)
        answering.join(PATIENCE)
    if INPUT in tried.closed:
        wanted = (0, b"", b""), SENT[: SENT.index(b"\n") + 1]
    elif OUTPUT in tried.closed:
        wanted = (1, b"", b""), SENT
    else:
        wanted = (0, SHOWN, b""), SENT
    tried.looks("komc", wanted, (done, b"".join(came)))
    tried.looks("komc without words", (1, b"", b""), tried.run([tried.client]))


def try_full(tried):
    """Programs that may open two files at a time, which their loader needs: what is closed cannot be filled."""
    files = 5 - len(tried.closed)
    store, before = tried.store, tried.store.read_bytes()
    for words in (["once"], ["once", store], ["serve", store, "4894", "1"], ["init", tried.folder / "none", ""], ["check", store]):
        done = tried.run([tried.program, *words], ASKS, files)
        tried.looks(f"{words[0]} without files", (STANDARD_STATUS, b"", b""), done)
    tried.looks("a store that nobody could make", False, (tried.folder / "none").exists())
    tried.looks("komc without files", (1, b"", b""), tried.run([tried.client, "--port", "4894", "--user", "u"], KEYS, files))
    tried.looks("the store without files", before, store.read_bytes())


def main(words):
    komd, komc = program_of(words), program_of(words, 1, "komc")
    count = failed = 0
    for closed in SUBSETS:
        with tempfile.TemporaryDirectory() as folder:
            tried = Closed(komd, komc, pathlib.Path(folder), closed)
            make_store(komd, tried.store)
            for part in (try_reports, try_sessions, try_client, try_full, try_serve):
                part(tried)
        count, failed = count + tried.count, failed + tried.failed
    print(f"{count} things were looked at with standard descriptors closed; {failed} are otherwise")
    return 1 if failed else 0


if __name__ == "__main__":
    script(main, __doc__)
