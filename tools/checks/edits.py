#!/usr/bin/env python3
"""Looks after the edits that must fail: edits.py [--check | CRATE..]

Without a word, or with --check, it sees that each edit of crates/CRATE/must-fail, tests/edits/CRATE and tests/wrong_bodies/CRATE still
applies to that crate, and asks no prover: each `old:` text stands exactly once in its file, where a later pair meets what the earlier
ones made. It prints a line for each edit that does not apply, and a count, and ends with 1 if there is one, else with 0.

With names of crates it tries their shelves, which the gate does not: in a copy of the working tree, which it removes, the edits
of tests/edits/CRATE take the place of those in must-fail, and `rt must-fail CRATE..` says of each whether it is refused. That
begins with what `rt check` kept of the crates, and takes as many processors as there are, or RT_JOBS. It ends with the status of
`rt must-fail`.
"""
import os
import pathlib
import re
import shutil
import signal
import subprocess
import sys
import tempfile

sys.path.insert(0, str(pathlib.Path(__file__).resolve().parents[1] / "common"))
from built import ROOT, script

CRATES = ROOT / "crates"
SHELVES = ROOT / "tests" / "edits"
WRONG_BODIES = ROOT / "tests" / "wrong_bodies"
NAME = re.compile(r"[A-Za-z0-9_-][A-Za-z0-9_.-]*\.edit")
PARTS = ("src/", "specs/", "proofs/")


def applied(edit, crate):
    """Why the edit does not apply to the files of the crate as they stand, or None, and the files that it changes with what they become.
    It is read as `rt must-fail` reads it."""
    texts = {}
    return why_not(edit, crate, texts), texts


def why_not(edit, crate, texts):
    """Why the edit does not apply; what it makes of the files is left in these texts."""
    if not NAME.fullmatch(edit.name):
        return "its name is not one of letters, digits, _, - and . that ends in .edit"
    path, old, earlier, pairs = None, None, {}, 0
    for line in edit.read_text(encoding="utf-8", errors="replace").split("\n"):
        if line.startswith("file: "):
            path = line.removeprefix("file: ").strip()
            if os.path.normpath(path) != path or not path.startswith(PARTS):
                return f"{path} is no file below src/, specs/ or proofs/"
        elif line.startswith("old: "):
            old = line.removeprefix("old: ")
        elif line.startswith("new:"):
            if not path or not old:
                return "a 'new:' line stands before a 'file:' or an 'old:' line"
            if path not in texts:
                if not (crate / path).is_file():
                    return f"there is no file {path}"
                texts[path] = earlier[path] = (crate / path).read_text(encoding="utf-8")
            found = texts[path].count(old)
            if found != 1:
                return f"this text is in {path} {found} times, and not once: {old.strip()}"
            texts[path] = texts[path].replace(old, line.removeprefix("new:").removeprefix(" "))
            old, pairs = None, pairs + 1
        elif line.strip() and not line.startswith(("#", "--", "//")):
            return f"a line is not read, since it begins with none of 'file: ', 'old: ', 'new:': {line.strip()}"
    if not pairs:
        return "it has no pair of 'old:' and 'new:'"
    return None if texts != earlier else "it changes nothing"


def edits_in(folder):
    """The files below a folder of edits, without those that are only to be read."""
    return [file for file in sorted(folder.rglob("*")) if file.is_file() and file.suffix != ".md"]


def check():
    """Sees that each edit applies, and returns the status to end with."""
    found = [(edit, folder) for folder in sorted(CRATES.glob("*/must-fail")) for edit in edits_in(folder)]
    places = [(edit, folder.parent, edit.parent == folder) for edit, folder in found]
    for shelf in (SHELVES, WRONG_BODIES):
        places += [(edit, CRATES / edit.parent.name, edit.parent.parent == shelf) for edit in edits_in(shelf)]
    lost = 0
    for edit, crate, is_there in places:
        why = applied(edit, crate)[0] if is_there else "an edit stands in crates/CRATE/must-fail, tests/edits/CRATE or tests/wrong_bodies/CRATE"
        if why:
            print(f"{edit.relative_to(ROOT)} does not apply: {why}")
            lost += 1
    print(f"edits that must fail: {len(places) - lost} apply, {lost} do not")
    return 1 if lost else 0


def put_on_trial(copy, name):
    """In the copy, puts the shelf of the crate in the place of its edits that the gate tries."""
    trial = copy / "crates" / name / "must-fail"
    shutil.rmtree(trial, ignore_errors=True)
    shutil.copytree(SHELVES / name, trial)


def try_shelves(names):
    """Tries the shelves of these crates, and returns the status to end with."""
    lacking = [name for name in names if not (SHELVES / name).is_dir() or not (CRATES / name).is_dir()]
    if lacking:
        sys.exit(f"edits.py: {lacking[0]} is no crate with a folder in tests/edits")
    with tempfile.TemporaryDirectory(prefix="edits-of-a-shelf-") as room:
        copy = pathlib.Path(room) / "copy"
        shutil.copytree(CRATES, copy / "crates", ignore=shutil.ignore_patterns("out"))
        for name in ("crates.txt", "HANDLES"):
            shutil.copyfile(ROOT / name, copy / name)
        for name in names:
            put_on_trial(copy, name)
        return subprocess.run(["rt", "must-fail", *names], cwd=copy).returncode


def main(words):
    if words in ([], ["--check"]):
        return check()
    if any(word.startswith("-") for word in words):
        sys.exit(__doc__.split("\n")[0])
    # (so that the copy is removed)
    signal.signal(signal.SIGTERM, lambda *_: sys.exit(143))
    return try_shelves(words)


if __name__ == "__main__":
    script(main, __doc__)
