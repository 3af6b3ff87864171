#!/usr/bin/env python3
"""Tells stores as snapshots, reads these again and tells what was read: retell.py [KOMD [RETELL]]

Each stream of tests/streams goes to a store, and each store of tests/stores that is opened is taken as it is. Of each the program
`retell` says whether its rows, and those that their snapshot was read as, are told with the same bytes. It prints a line for each
store of which that is not so, and a count, and ends with 1 if there is one, else with 0. KOMD and RETELL are the built programs
unless they are named.
"""
import pathlib
import shutil
import subprocess
import sys
import tempfile

sys.path.insert(0, str(pathlib.Path(__file__).resolve().parents[1] / "common"))
from built import ROOT, check_store, make_store, program_of, script


def told(retell, store):
    """Whether a store is told the same again."""
    done = subprocess.run([retell, "again", store], capture_output=True, timeout=300)
    return done.returncode == 0 and done.stdout.endswith(b"same true\n")


def main(words):
    komd, retell = program_of(words), program_of(words, 1, "retell")
    differ, count = [], 0
    with tempfile.TemporaryDirectory() as folder:
        store = pathlib.Path(folder) / "store"
        for stream in sorted((ROOT / "tests" / "streams").glob("*/*.in")):
            store.unlink(missing_ok=True)
            make_store(komd, store)
            with stream.open("rb") as given:
                subprocess.run([komd, "once", store], stdin=given, stdout=subprocess.DEVNULL, timeout=300, check=True)
            count += 1
            differ += [] if told(retell, store) else [stream]
        for kept in sorted((ROOT / "tests" / "stores").glob("*.store")):
            shutil.copyfile(kept, store)
            if check_store(komd, store)[0] == 0:
                count += 1
                differ += [] if told(retell, store) else [kept]
    for path in differ:
        print(f"{path.relative_to(ROOT)}: told otherwise")
    print(f"{count} stores, {len(differ)} told otherwise")
    return 1 if differ or not count else 0


if __name__ == "__main__":
    script(main, __doc__)
