#!/usr/bin/env python3
"""Sees that each public function that can run out of memory is called with ample memory: reached.py [PROGRAM]

Such a function is public or a method of a trait, of a crate that neither measures nor holds tests alone, and its result may be an
error that says that memory ran out. Each must be reached by a stream of tests/streams, all of which streams.py compares and of
which none is answered that memory ran out, or by a run like those that stores.py and runs_of_komd.py compare (a store is
made, served and checked, a server is loaded), or stand in reached_by_tests.txt beside the test that calls it. It prints a line
for each that does neither, for each line of that file whose function or test there is not, and a count, and ends with 1 if it
printed any line but the count, else with 0.

What a stream reaches is seen by gdb, at breakpoints that are deleted at their first hit, in a program that no compiler has made
faster, since the one that `rt ci` leaves has most functions inlined. It is built by `rt try`, without proof, and copied while it
runs there; that takes most of the time. PROGRAM is such a program of an earlier run, which `--keep FILE` copied to FILE. Where there
is no gdb it says so, and ends with 0.
"""
import collections
import json
import os
import pathlib
import re
import shutil
import signal
import subprocess
import sys
import tempfile
import time

try:
    import gdb
except ImportError:
    gdb = None

sys.path.insert(0, str(pathlib.Path(__file__).resolve().parents[1] / "common"))
from built import ROOT, script

STREAMS = ROOT / "tests" / "streams"
LIST = pathlib.Path(__file__).resolve().parent / "reached_by_tests.txt"
# The errors that may say that memory ran out, but for the enums with a variant of that name, which are looked up.
ERRORS = {"Memory", "AllocError", "AllocFailed"}
NAME = re.compile(r"\w+")
# Breakpoints stay in the program while it stands still: else each stop would write all of them twice.
SETTINGS = [
    "pagination off",
    "confirm off",
    "auto-solib-add off",
    "print inferior-events off",
    "startup-with-shell on",
    "breakpoint always-inserted on",
    "environment ASAN_OPTIONS=detect_leaks=0",
]

# A function: its name as symbols have it, what it stands in, its result, and whether it is a test or stands among tests.
Function = collections.namedtuple("Function", "name is_public of result has_body is_test is_for_tests")
# Crates of which no function is called by the program: they measure, or hold tests.
OTHER_CRATES = re.compile(r"bench|\w+_tests")


def closed(text, place, opened="{", closing="}"):
    """The place after the bracket that closes the one at a place."""
    depth = 0
    for place in range(place, len(text)):
        if text[place] == opened:
            depth += 1
        elif text[place] == closing and text[place - 1 : place] not in ("-", "="):
            depth -= 1
            if depth == 0:
                return place + 1
    raise ValueError("a bracket is not closed")


def plain(text):
    """A file without its comments, and with its strings emptied."""
    text = re.sub(r"//[^\n]*", "", text)
    text = re.sub(r'b?"(?:[^"\\]|\\.)*"', '""', text, flags=re.DOTALL)
    return re.sub(r"b?'(?:[^'\\]|\\.[^']*)'", "0", text)


def type_name(text):
    """The name of a type as symbols have it, without its arguments."""
    text, is_borrowed = text.strip(), text.strip().startswith("&")
    found = re.match(r"[\w:]+", re.sub(r"^&('\w+\s*)?(mut\s+)?", "", text))
    name = found[0].split("::")[-1] if found else "?"
    name = name[0].upper() + name[1:] if is_primitive(name) else name
    return ("Ref" if is_borrowed else "") + name


def is_primitive(name):
    return re.fullmatch(r"[ui](8|16|32|64|128|size)|bool|char|str", name) is not None


def split_impl(head):
    """The trait of an impl, if it is of one, and the type that it is for."""
    depth = 0
    for place, letter in enumerate(head):
        if letter == "<":
            depth += 1
        elif letter == ">" and head[place - 1] != "-":
            depth -= 1
        elif depth == 0 and re.match(r"\bfor\s", head[place:]):
            return head[:place], head[place + 3 :]
    return None, head


def end_of_result(text, place):
    """Where a result's type ends that begins at a place."""
    depth = 0
    while True:
        letter = text[place]
        if letter in "<([":
            depth += 1
        elif letter in ")]" or letter == ">" and text[place - 1] != "-":
            depth -= 1
        if depth == 0 and (letter in "{;" or re.compile(r"\s(ensures|requires|where)\b").match(text, place)):
            return place
        place += 1


def start_of_body(text, place):
    """The brace of a function's body, or its semicolon, after its clauses."""
    while True:
        found = re.compile(r"\b(?:ensures|requires)\b|[{;]").search(text, place)
        if found[0] in "{;":
            return found.start()
        clause = re.compile(r"\*?\s*\w*\*?\s*\{").match(text, found.end())
        place = closed(text, clause.end() - 1) if clause else found.end()


def functions_in(text, start, end, path, of, is_for_tests):
    """The functions of a part of a file. `of` is what they stand in: a trait, an impl of one or of none, or nothing."""
    item = re.compile(r"\b(mod|impl|trait|fn|struct|enum)\b")
    place = start
    while found := item.search(text, place, end):
        kind, place = found[1], found.end()
        line = text.rfind("\n", 0, found.start()) + 1
        attributes = re.split(r"[;}]", text[:line])[-1]
        for_tests = is_for_tests or "cfg(test)" in attributes
        if kind in ("struct", "enum"):
            opened = re.compile(r"[;{(]").search(text, place)
            if opened[0] != ";":
                place = closed(text, opened.start(), opened[0], {"{": "}", "(": ")"}[opened[0]])
        elif kind == "mod":
            named = re.compile(r"\s+(\w+)\s*\{").match(text, place)
            if named:
                place = closed(text, named.end() - 1)
                yield from functions_in(text, named.end(), place - 1, [*path, named[1]], None, for_tests)
        elif kind == "impl":
            head = closed(text, place, "<", ">") if text[place] == "<" else place
            brace = text.index("{", head)
            place = closed(text, brace)
            trait, own = split_impl(re.split(r"\bwhere\b", text[head:brace])[0])
            name = type_name(own)
            if trait is not None:
                name += type_name(trait) + "".join(NAME.findall(trait.partition("<")[2]))
            inside = "type" if trait is None else "impl"
            yield from functions_in(text, brace + 1, place - 1, [*path, name], inside, for_tests)
        elif kind == "trait":
            named = re.compile(r"\s+(\w+)").match(text, place)
            brace = text.index("{", named.end())
            place = closed(text, brace)
            yield from functions_in(text, brace + 1, place - 1, [*path, named[1]], "trait", for_tests)
        else:
            named = re.compile(r"\s+(\w+)").match(text, place)
            if not named:
                continue
            place = closed(text, named.end(), "<", ">") if text[named.end()] == "<" else named.end()
            if text[place] != "(":
                continue
            place = closed(text, place, "(", ")")
            arrow = re.compile(r"\s*->\s*").match(text, place)
            result = ""
            if arrow:
                place = end_of_result(text, arrow.end())
                result = " ".join(text[arrow.end() : place].split())
            body = start_of_body(text, place)
            has_body = text[body] == "{"
            is_public = re.search(r"\bpub\s+(const\s+)?$", text[line : found.start()]) is not None
            place = closed(text, body) if has_body else body + 1
            is_test = "#[test]" in attributes
            name = "::".join([*path, named[1]])
            yield Function(name, is_public, of, result, has_body, is_test, for_tests or is_test)


def sources():
    """The files of all crates: of each the path of its module, and its text."""
    for file in sorted(ROOT.glob("crates/*/src/**/*.rt")):
        crate, _, *words = file.relative_to(ROOT / "crates").with_suffix("").parts
        yield [crate, *(word for word in words if word not in ("lib", "main", "mod"))], plain(file.read_text())


def all_functions():
    """Each function of the crates, and the names of the errors."""
    files = list(sources())
    errors = set(ERRORS)
    homes = {}
    for path, text in files:
        for name in re.findall(r"\b(?:struct|enum)\s+(\w+)", text):
            homes.setdefault((path[0], name), path)
        for found in re.finditer(r"\benum\s+(\w+)[^{;]*\{", text):
            if re.search(r"\bMemory\s*[,}(]", text[found.end() - 1 : closed(text, found.end() - 1)]):
                errors.add(found[1])
    functions = []
    for path, text in files:
        # a module of tests has a file of its own, which says so by its name alone
        is_for_tests = any("test" in word for word in path)
        copied = {f"{name}Clone" for name in re.findall(r"\bimpl Copy for (\w+)", text)}
        for function in functions_in(text, 0, len(text), path, None, is_for_tests):
            words = function.name.split("::")
            if words[-2] in copied:
                # a copy of what is copied takes no memory
                continue
            if function.of == "type" and (path[0], words[-2]) in homes:
                function = function._replace(name="::".join([*homes[path[0], words[-2]], *words[-2:]]))
            functions.append(function)
    return functions, errors


def wanted(functions, errors):
    """The names of the functions that must be reached."""
    may_say = re.compile(r"\bResult<.*\b(%s)\b" % "|".join(sorted(errors)))
    names = set()
    for function in functions:
        counts = function.is_public or function.of in ("impl", "trait")
        counts = counts and function.has_body and not function.is_for_tests
        if counts and not OTHER_CRATES.fullmatch(function.name.split("::")[0]) and may_say.search(function.result):
            names.add(function.name)
    return names


def listed():
    """What reached_by_tests.txt has: of each function the test that calls it."""
    lines = [line for line in LIST.read_text().split("\n") if line and not line.startswith("#")]
    return dict(line.split(": ") for line in lines)


def addresses(program, names):
    """Where the functions of these names are in a program, each place with the name. A generic one has a place for each instance."""
    found = {}
    told = subprocess.run(["nm", "--defined-only", program], capture_output=True, check=True, text=True).stdout
    for line in told.split("\n"):
        place, _, symbol = line.partition(" ")
        name = symbol[2:].partition("::<")[0]
        if symbol[:2] in ("t ", "T ") and name in names:
            found[int(place, 16)] = name
    return found


def build(file):
    """Has `rt try` build the program without proof, and copies it while it runs there. Returns why it could not, or None."""
    with tempfile.TemporaryDirectory(prefix="komd-reached-") as room:
        given = pathlib.Path(room) / "given"
        # blank lines, which keep it at work until it is copied
        given.write_bytes(b"A1Ha\n" + b"\n" * 40_000_000)
        told = pathlib.Path(room) / "told"
        with given.open("rb") as stdin, told.open("wb") as out:
            trying = subprocess.Popen(
                ["rt", "try", "--", "once"],
                cwd=ROOT / "crates" / "komd",
                stdin=stdin,
                stdout=out,
                stderr=subprocess.STDOUT,
                env={**os.environ, "TMPDIR": room},
                start_new_session=True,
            )
            try:
                while trying.poll() is None:
                    time.sleep(0.2)
                    if program := running(room):
                        shutil.copy(program, file)
                        return None
            finally:
                if trying.poll() is None:
                    os.killpg(trying.pid, signal.SIGTERM)
                    trying.wait()
        return told.read_text(errors="replace")[-600:]


def running(room):
    """A file below a folder that a process runs now as a program, if there is one."""
    for process in pathlib.Path("/proc").glob("[0-9]*"):
        try:
            words = (process / "cmdline").read_bytes().split(b"\0")
        except OSError:
            continue
        for word in words[:6]:
            if word.startswith(os.fsencode(room)) and b"once" in words and os.access(word, os.X_OK) and os.path.isfile(word):
                return os.fsdecode(word)
    return None


def trace(program, places, runs):
    """In gdb: makes runs, each with words and a file for its input, until each name was reached. Prints the names that were, as one line of JSON."""
    for setting in SETTINGS:
        gdb.execute(f"set {setting}", to_string=True)
    gdb.execute(f"file {program}", to_string=True)
    left, reached, base, breakpoints = dict(places), set(), None, {}
    for said, stream in runs:
        gdb.execute(f"starti {said} < '{stream}' > /dev/null 2> /dev/null", to_string=True)
        told = gdb.execute("info proc mappings", to_string=True)
        now = int(re.search(r"0x([0-9a-f]+)\s[^\n]*" + re.escape(os.path.basename(program)), told)[1], 16)
        if now != base:
            for breakpoint, _ in breakpoints.values():
                breakpoint.delete()
            base, breakpoints = now, {}
            for place in left:
                breakpoint = gdb.Breakpoint(f"*{now + place:#x}", internal=True)
                breakpoint.silent = True
                breakpoints[now + place] = (breakpoint, place)
        while True:
            gdb.execute("continue", to_string=True)
            try:
                at = int(gdb.parse_and_eval("$pc"))
            except gdb.error:
                break
            if at not in breakpoints:
                break
            breakpoint, place = breakpoints.pop(at)
            breakpoint.delete()
            reached.add(left.pop(place))
        if reached >= set(places.values()):
            break
    print("reached " + json.dumps(sorted(reached)), flush=True)


def reached_in(program, names, room):
    """Which of these names the streams and the other runs reach, the streams with most to do first."""
    streams = sorted(STREAMS.glob("*/*.in"), key=lambda stream: -stream.stat().st_size)
    places = addresses(program, names)
    store = f"'{room}/store'"
    runs = [("once", str(stream)) for stream in streams]
    runs += [(f"init {store} ''", os.devnull), (f"once {store}", str(streams[0])), (f"check {store}", os.devnull), ("load 8", os.devnull)]
    given = json.dumps([str(program), {str(place): name for place, name in places.items()}, runs])
    with tempfile.NamedTemporaryFile("w", suffix=".json") as file:
        file.write(given)
        file.flush()
        words = ["gdb", "-nx", "-q", "-batch", "-x", __file__]
        done = subprocess.run(words, env={**os.environ, "REACHED": file.name}, capture_output=True, text=True)
    found = re.search(r"^reached (.*)$", done.stdout, re.MULTILINE)
    if not found:
        sys.exit(f"gdb did not end well: {done.stdout[-300:]}{done.stderr[-900:]}")
    return set(json.loads(found[1]))


def main(words):
    if not shutil.which("gdb"):
        print("gdb is not here, so it was not looked which functions the streams reach")
        return 0
    functions, errors = all_functions()
    names, by_tests = wanted(functions, errors), listed()
    # A crate of tests may be a program, whose output is compared.
    tests = {function.name for function in functions if function.is_test or OTHER_CRATES.fullmatch(function.name.split("::")[0])}
    faults = []
    for name, test in by_tests.items():
        if name not in names:
            faults.append(f"{LIST.name}: {name} is no function that must be reached")
        if test not in tests:
            faults.append(f"{LIST.name}: {test} is no test")
    needed = names - set(by_tests)
    with tempfile.TemporaryDirectory(prefix="komd-reached-") as room:
        program = pathlib.Path(room) / "komd"
        if words and words[0] != "--keep":
            program = pathlib.Path(words[0]).resolve()
        elif why := build(program):
            print(f"rt try did not build the program: {why}")
            return 1
        if words[:1] == ["--keep"]:
            shutil.copy(program, words[1])
        reached = reached_in(program, needed, room)
    faults += [f"{name}: no stream or run reaches it, and {LIST.name} names no test" for name in sorted(needed - reached)]
    for fault in faults:
        print(fault)
    print(f"{len(names)} functions: {len(reached)} are reached by streams and runs, {len(by_tests)} are called by tests")
    return 1 if faults else 0


if gdb is not None:
    with open(os.environ["REACHED"]) as file:
        PROGRAM, PLACES, GIVEN = json.load(file)
    trace(PROGRAM, {int(place): name for place, name in PLACES.items()}, GIVEN)
elif __name__ == "__main__":
    script(main, __doc__)
