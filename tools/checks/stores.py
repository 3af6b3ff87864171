#!/usr/bin/env python3
"""Opens copies of the stores of tests/stores with the built program `komd`: stores.py [PROGRAM]

What the files there say is in tests/stores/README.md. Of each store it looks at what `check` prints, its status and what it leaves
of the file; at a second `check`, which changes nothing; and at `once`, which is answered as the store's files say, keeps all
batches, or is refused as `check` is. Then it looks at the words themselves: a store that `init` makes, its mode and what may stand in
its place; a path where nothing is, a folder, and a store that another process has open. And at a sparse file of four gigabytes, which
declares that many read ranges: it is refused with little memory, and in a moment.

It prints a line for each thing that is otherwise, and a count, and ends with 1 if there is one, else with 0. PROGRAM is the built `komd` unless it is named.
"""
import json
import pathlib
import resource
import shutil
import struct
import subprocess
import sys
import tempfile
import time

sys.path.insert(0, str(pathlib.Path(__file__).resolve().parents[1] / "common"))
from built import ROOT, USAGE, program_of, script
from tried import Tried

STORES = ROOT / "tests" / "stores"
OWNER_ALONE = 0o600
GREETING = b"A1Hq\n"
# The length of a store that `init` has made with an empty password, whatever the moment.
LENGTH_OF_INITIAL = 327
STORE_FAILED, UNFIT, REFUSED_WORDS = 3, 4, 2
# What is declared of a sparse file, and what its refusal may take.
KIND_OF_READ_SET = 19
PERSON, CONFERENCE, MOMENT = 5, 5, 0
RANGES = 500_000_000
BYTES_OF_MEMORY = 200 << 20
SECONDS = 5


class Openings(Tried):
    """Opens stores in a folder."""

    def run(self, *words, given=b""):
        """The status of a run with these words, what it prints and what it reports."""
        done = subprocess.run([self.program, *words], input=given, capture_output=True, timeout=300)
        return done.returncode, done.stdout, done.stderr


def left_of(store, after):
    """What an opening leaves of a file."""
    bytes_left = bytearray(store[: after["length"]] if "length" in after else store)
    if "closed_gate" in after:
        bytes_left[after["closed_gate"]] = 0
    return bytes(bytes_left)


def try_store(tried, name):
    """Opens copies of one store."""
    store = (STORES / f"{name}.store").read_bytes()
    said = json.loads((STORES / f"{name}.json").read_text())
    copy = tried.folder / "copy"
    left = left_of(store, said["after"])
    copy.write_bytes(store)
    for time in ["check", "a second check"]:
        tried.same(f"{name}: {time}", (said["status"], said["prints"].encode(), b""), tried.run("check", copy))
        tried.same(f"{name}: the file after {time}", left, copy.read_bytes())
    copy.write_bytes(store)
    lines = STORES / f"{name}.in"
    if said["status"] != 0:
        tried.same(f"{name}: once", (said["status"], b"", b""), tried.run("once", copy, given=GREETING))
        tried.same(f"{name}: the file after once", left, copy.read_bytes())
    elif lines.exists():
        answered = lines.with_suffix(".out").read_bytes()
        tried.same(f"{name}: once", (0, answered, b""), tried.run("once", copy, given=lines.read_bytes()))
        tried.same(f"{name}: what once kept of the file", left[:-1], copy.read_bytes()[: len(left) - 1])
        tried.same(f"{name}: check after once", 0, tried.run("check", copy)[0])
    copy.unlink()


def try_making(tried):
    """Makes stores, where nothing is and where something is."""
    made = tried.folder / "made"
    printed = json.loads((STORES / "initial.json").read_text())["prints"].encode()
    tried.same("init", (0, b"store made\n", b""), tried.run("init", made, ""))
    tried.same("the mode of a store that was made", OWNER_ALONE, made.stat().st_mode & 0o777)
    tried.same("the length of a store that was made", LENGTH_OF_INITIAL, made.stat().st_size)
    tried.same("check of a store that was made", (0, printed, b""), tried.run("check", made))
    kept = made.read_bytes()
    tried.same("init on a store", (UNFIT, b"", b""), tried.run("init", made, ""))
    tried.same("the store after init on it", kept, made.read_bytes())
    made.write_bytes(b"abc")
    tried.same("init on three bytes", (UNFIT, b"", b""), tried.run("init", made, ""))
    tried.same("the bytes after init on them", b"abc", made.read_bytes())
    made.write_bytes(b"")
    tried.same("init on an empty file", (0, b"store made\n", b""), tried.run("init", made, "secret"))
    lines = GREETING + b"1 62 5 0H 0\n2 62 5 6Hsecret 0\n"
    tried.same("the password of a store", (0, b"LysKOM\n%1 4 5\n=2\n", b""), tried.run("once", made, given=lines))
    made.unlink()


def try_places(tried):
    """Opens what is no file, or none that may be opened."""
    missing = tried.folder / "missing"
    for word in ["check", "once"]:
        tried.same(f"{word} where nothing is", (UNFIT, b"", b""), tried.run(word, missing, given=GREETING))
        tried.same(f"what {word} leaves where nothing is", False, missing.exists())
    folder = tried.folder / "folder"
    folder.mkdir()
    for words in [("check", folder), ("once", folder), ("init", folder, "")]:
        tried.same(f"{words[0]} of a folder", (STORE_FAILED, b"", b""), tried.run(*words, given=GREETING))
    folder.rmdir()
    for words in [("check", missing / "store"), ("init", missing / "store", "")]:
        tried.same(f"{words[0]} in no folder", (STORE_FAILED, b"", b""), tried.run(*words))
    tried.same("init on a full device", (STORE_FAILED, b"", b""), tried.run("init", "/dev/full", ""))


def try_lock(tried):
    """Opens a store that another process serves."""
    store = tried.folder / "store"
    shutil.copyfile(STORES / "initial.store", store)
    with subprocess.Popen([tried.program, "once", store], stdin=subprocess.PIPE, stdout=subprocess.PIPE) as first:
        first.stdin.write(GREETING)
        first.stdin.flush()
        tried.same("the answer of the one that serves", b"LysKOM\n", first.stdout.readline())
        for words in [("check", store), ("once", store), ("init", store, "")]:
            tried.same(f"{words[0]} of a store that is served", (STORE_FAILED, b"", b""), tried.run(*words, given=GREETING))
        first.stdin.write(b"1 62 5 0H 0\n2 86 4Hkept 0 { } 0 { }\n")
        first.stdin.close()
        tried.same("what is answered meanwhile", b"=1\n=2 1\n", first.stdout.read())
        tried.same("the status of the one that serves", 0, first.wait())
    report = tried.run("check", store)
    tried.same("the text that was written meanwhile", b"texts 1\n", report[1][-8:])
    store.unlink()


def try_sparse(tried):
    """Opens stores whose last batch declares many read ranges, of which the first is faulty: all bytes of them are zeros."""
    effect = bytes([KIND_OF_READ_SET]) + struct.pack("<IIQI", PERSON, CONFERENCE, MOMENT, RANGES)
    size = len(effect) + 8 * RANGES
    sparse = tried.folder / "sparse"
    for name in ["empty", "initial"]:
        before = (STORES / f"{name}.store").read_bytes()[:-1]
        head = before + b"\x01" + struct.pack("<Q", size) + effect
        with sparse.open("wb") as file:
            file.write(head)
            file.truncate(len(before) + 9 + size + 1)
        length = sparse.stat().st_size
        began = time.monotonic()
        limits = BYTES_OF_MEMORY, BYTES_OF_MEMORY
        done = subprocess.run(
            [tried.program, "check", sparse],
            capture_output=True,
            timeout=300,
            preexec_fn=lambda: resource.setrlimit(resource.RLIMIT_AS, limits),
        )
        took = time.monotonic() - began
        tried.same(f"{name}, many ranges", (UNFIT, b"", b""), (done.returncode, done.stdout, done.stderr))
        tried.same(f"{name}, many ranges: refused within {SECONDS} seconds", True, took < SECONDS)
        tried.same(f"{name}, many ranges: the length after it", length, sparse.stat().st_size)
        with sparse.open("rb") as file:
            tried.same(f"{name}, many ranges: the file after it", head, file.read(len(head)))
        sparse.unlink()


def try_words(tried):
    """Words that are no command."""
    usage = REFUSED_WORDS, USAGE, b""
    for words in [("once", "a", "b"), ("check",), ("check", ""), ("init", "s"), ("init", "", "p"), ("init", "s", "p" * 129), ("once", "")]:
        tried.same(f"the words {' '.join(words)!r:.40}", usage, tried.run(*words))
    tried.same("a password of 128 bytes", 0, tried.run("init", tried.folder / "long", "p" * 128)[0])


def main(words):
    program = program_of(words)
    names = sorted(store.stem for store in STORES.glob("*.store"))
    with tempfile.TemporaryDirectory() as folder:
        tried = Openings(program, pathlib.Path(folder))
        for name in names:
            try_store(tried, name)
        try_making(tried)
        try_places(tried)
        try_lock(tried)
        try_sparse(tried)
        try_words(tried)
    print(f"{len(names)} stores, {tried.count} things looked at, {tried.failed} are otherwise")
    return 1 if tried.failed or not names else 0


if __name__ == "__main__":
    script(main, __doc__)
