#!/usr/bin/env python3
"""Builds programs with wrong bodies that no contract refuses, and sees that a check refuses each: wrong_bodies.py [CRATE[/NAME.edit]..]

For each edit of tests/wrong_bodies, or those of the crates that are named, or those that are named, it makes the edit in a copy of the
working tree, has `tools/unproved` build `komd` of that, and runs the script that the edit's first line names. The script has to end with 1:
it then saw what is otherwise. It prints for each the last line that the script printed, and how long it took. It ends with 1 where a
script ends otherwise, else with 0, and removes the copies. A build takes some three minutes of processor time, so it runs by hand.
"""
import pathlib
import shutil
import subprocess
import sys
import tempfile
import time

sys.path.insert(0, str(pathlib.Path(__file__).resolve().parents[1] / "common"))
from built import ROOT, Wrong, script
from edits import CRATES, WRONG_BODIES, applied, edits_in

REFUSED_BY = "# refused by: "


def build(edit, room):
    """The program that comes of an edit."""
    why, texts = applied(edit, CRATES / edit.parent.name)
    if why:
        raise Wrong(f"{edit.name} does not apply: {why}")
    copy = room / "copy"
    for folder in ("crates", "tools"):
        shutil.copytree(ROOT / folder, copy / folder, ignore=shutil.ignore_patterns("out", "__pycache__"))
    for name in ("crates.txt", "HANDLES"):
        shutil.copyfile(ROOT / name, copy / name)
    for path, text in texts.items():
        (copy / "crates" / edit.parent.name / path).write_text(text, encoding="utf-8")
    done = subprocess.run([copy / "tools" / "unproved", "komd", room / "komd"], capture_output=True, text=True, check=False)
    if done.returncode != 0:
        raise Wrong(f"the program of {edit.name} is not built: {(done.stdout + done.stderr).strip()[-400:]}")
    return room / "komd"


def is_refused(edit):
    """Whether the script that an edit names refuses its program."""
    first = edit.read_text(encoding="utf-8").split("\n")[0]
    if not first.startswith(REFUSED_BY):
        raise Wrong(f"{edit.name} does not begin with '{REFUSED_BY}'")
    name, *more = first.removeprefix(REFUSED_BY).split()
    with tempfile.TemporaryDirectory(prefix="wrong-body-") as folder:
        program = build(edit, pathlib.Path(folder))
        begun = time.monotonic()
        done = subprocess.run([ROOT / "tools" / "checks" / name, program, *more], capture_output=True, text=True, check=False)
        took = time.monotonic() - begun
    said = (done.stdout.strip().split("\n") or [""])[-1]
    told = "refused" if done.returncode == 1 else f"NOT REFUSED, status {done.returncode}"
    print(f"{edit.parent.name}/{edit.name}: {told} by {' '.join([name, *more])} in {took:.0f} s: {said:.200}", flush=True)
    return done.returncode == 1


def main(words):
    found = [edit for edit in edits_in(WRONG_BODIES)
             if not words or edit.parent.name in words or f"{edit.parent.name}/{edit.name}" in words]
    if not found:
        sys.exit(f"wrong_bodies.py: there is no {words[0] if words else 'edit'} in {WRONG_BODIES.relative_to(ROOT)}")
    return 0 if all([is_refused(edit) for edit in found]) else 1


if __name__ == "__main__":
    script(main, __doc__)
