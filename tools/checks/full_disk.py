#!/usr/bin/env python3
"""Has the built program `komd` serve a store on a file system that gets full: full_disk.py [PROGRAM]

The visit `evening` of tests/streams goes through `komd once STORE`, call by call, on a file system of 64 KiB of which all is used but
the rest of the store's last page. An aux-item before it sets where that page ends, so that the store is full before and within each
of the visit's writes, or after them all. What is answered has to be a prefix of what the visit gets, with status 3, or all of it,
with status 0.
With room again the store is checked: it has each change that was answered, and the one that was under way or not; and it is served on.

Only root may make such a file system: where it cannot be made this says so and ends with 0. It prints a count, and a line for each
fault, and ends with 1 if there is one. PROGRAM is the built `komd` unless it is named.
"""
import pathlib
import subprocess
import sys
import tempfile

sys.path.insert(0, str(pathlib.Path(__file__).resolve().parents[1] / "common"))
from built import ROOT, check_store, make_store, program_of, script
from once import in_pieces
from protocol import pattern_of, string

VISIT = ROOT / "tests" / "streams" / "worked_rows" / "evening"
LOGIN = b"A1Ha\n1 62 5 0H 0\n"
# By how much each answered line of the visit makes the counts of a check greater: conferences, persons and texts.
GROWS = {b"=2": (1, 0, 0), b"=3": (1, 1, 0), b"=4": (0, 0, 1), b"=13": (0, 0, 1)}
# By how many bytes the place differs, from visit to visit, at which the page ends.
STEP, PAGE = 12, 4096


def visit(program, store):
    """The visit's lines as they are answered, each sent once the one before it was, and the status."""
    lines = VISIT.with_suffix(".in").read_bytes().splitlines(keepends=True)
    answered, status = in_pieces(program, store, [(line, 1) for line in lines])
    return answered.splitlines(), status


def check(program, store):
    """The counts of conferences, persons and texts, where the store is checked well."""
    status, counts = check_store(program, store)
    return None if status else tuple(counts[name] for name in ("conferences", "persons", "texts"))


def fill(folder):
    """A file that takes what room there is."""
    with open(folder / "filler", "wb", buffering=0) as filler:
        try:
            while filler.write(bytes(4096)) == 4096:
                pass
        except OSError:
            pass


def made(program, folder, length):
    """A store whose person has an aux-item of so many bytes."""
    store = folder / "store"
    for file in folder.iterdir():
        file.unlink()
    make_store(program, store)
    item = b"2 93 5 0 { } 1 { 10 00000000 0 %s }\n" % string(b"x" * length)
    done = subprocess.run([program, "once", store], check=True, input=LOGIN + item, stdout=subprocess.PIPE)
    if not done.stdout.endswith(b"\n=2\n"):
        sys.exit(f"the aux-item is answered {done.stdout!r}")
    return store


def fault_of(program, folder, length):
    """What is otherwise after an aux-item of so many bytes, and whether the store was full."""
    store = made(program, folder, length)
    before = check(program, store)
    fill(folder)
    answered, status = visit(program, store)
    wanted = VISIT.with_suffix(".out").read_bytes().splitlines()
    if len(answered) > len(wanted) or not all(pattern_of(want).fullmatch(line) for want, line in zip(wanted, answered)):
        return f"it is answered {answered[-1]!r}", True
    if status != (0 if len(answered) == len(wanted) else 3):
        return f"the status is {status} after {len(answered)} lines", True
    (folder / "filler").unlink()
    least = [sum(grows) for grows in zip(before, *(GROWS.get(line.split()[0], (0, 0, 0)) for line in answered))]
    under_way = wanted[len(answered)] if status else b""
    most = [sum(grows) for grows in zip(least, GROWS.get(under_way.split(b" ")[0], (0, 0, 0)))]
    after = check(program, store)
    if after is None or list(after) not in (least, most):
        return f"the store has {after} after {len(answered)} lines", True
    more = subprocess.run([program, "once", store], capture_output=True, input=LOGIN + b"2 88 4HMore 0000 0 { }\n", check=False)
    if more.returncode or not more.stdout.splitlines()[-1].startswith(b"=2 "):
        return f"it is not served on: {more.stdout!r}", True
    return None, status == 3


def lengths(program, folder):
    """The lengths of an aux-item after which the last page ends where the visit writes, and one after which it writes no more."""
    store = made(program, folder, 1000)
    begun = store.stat().st_size
    visit(program, store)
    written = store.stat().st_size - begun
    return [1000 + (-begun - rest) % PAGE for rest in [*range(0, written + STEP, STEP), written + 2 * STEP]]


def main(words):
    program = program_of(words)
    with tempfile.TemporaryDirectory() as room:
        if subprocess.run(["mount", "-t", "tmpfs", "-o", "size=64k", "tmpfs", room], capture_output=True, check=False).returncode:
            print("no small file system can be made here, so none was filled")
            return 0
        try:
            tried = {length: fault_of(program, pathlib.Path(room), length) for length in lengths(program, pathlib.Path(room))}
        finally:
            subprocess.run(["umount", room], check=True)
    faults = [f"after an aux-item of {length} bytes {fault}" for length, (fault, _) in tried.items() if fault]
    full = sum(was_full for _, was_full in tried.values())
    if not 0 < full < len(tried):
        faults.append("the store was full in each visit or in none")
    for fault in faults:
        print(fault)
    print(f"{len(tried)} visits on a small file system, which was full in {full}; {len(faults)} are otherwise")
    return 1 if faults else 0


if __name__ == "__main__":
    script(main, __doc__)
