#!/usr/bin/env python3
"""Checks docs/promises.md, docs/theorem.md and docs/sweep.md against the sources: promises.py [--mend]

Of the tables of promises each function stands in the file that is named, its contract has each clause that is named, and each edit lies
in must-fail/ or tests/edits. Of the tables of the theorem and of a sweep each definition stands at its line; with --mend those that stand
at another line of their file get that one. Prints what is wrong, and ends with 1 if anything is, else with 0."""
import glob
import os
import pathlib
import re
import sys

sys.path.insert(0, str(pathlib.Path(__file__).resolve().parents[1] / "common"))
from built import ROOT, script

# The heads of impls and traits, of functions, and of clauses.
OWNER = re.compile(r"^(?:pub(?:\([a-z]+\))? )?(?:unsafe )?(?:impl|trait)\b(.*)$")
FUNCTION = re.compile(r"^\s*(?:pub(?:\([a-z]+\))? )?(?:const )?(?:unsafe )?fn (\w+)")
CLAUSE = re.compile(r"^\s*ensures (\w+ )?\{")
# A definition or a type, where it is cited, and where it stands.
CITED = re.compile(r"`(\w+)` \(`([\w/.]+):(\d+)`\)")
DEFINES = r"\s*(?:(?:abbrev|unfoldable) pub|pub (?:record|data|struct|enum)) %s\b"
PAGES = (pathlib.Path("docs/theorem.md"), pathlib.Path("docs/sweep.md"))


def contracts_of(path):
    """Returns for each function of a file its type's name, or '', its own, and the names of its clauses."""
    found, owner = [], ""
    for line in open(path, encoding="utf-8"):
        if head := OWNER.match(line):
            owner = head[1]
        elif line.startswith("}"):
            owner = ""
        elif name := FUNCTION.match(line):
            found.append((owner, name[1], set()))
        elif (clause := CLAUSE.match(line)) and found:
            found[-1][2].add((clause[1] or "").strip())
    return found


def rows():
    """Gives each row of a table of promises, with the number of its line."""
    for number, line in enumerate(open("docs/promises.md", encoding="utf-8"), 1):
        cells = [it.strip() for it in re.split(r"(?<!\\)\|", line)[1:-1]]
        if len(cells) == 4 and cells[0] != "promise" and not set(cells[0]) <= set("-"):
            yield number, cells


def faults_of(cells):
    """Gives what is wrong with a row."""
    parts = re.match(r"^(?:law )?`([\w:]+)`(?:: (.*))?$", cells[1])
    if not parts:
        yield f"no function is named: {cells[1]}"
        return
    *owners, name = parts[1].split("::")
    path = f"crates/{cells[2].strip('`')}"
    if not os.path.exists(path):
        yield f"there is no file {path}"
        return
    told = [it for it in contracts_of(path) if it[1] == name and all(re.search(rf"\b{one}\b", it[0]) for one in owners)]
    if not told:
        yield f"{path} has no function {parts[1]}"
        return
    wanted = re.findall(r"`(\w+)`", parts[2] or "") or [""]
    for clause in wanted:
        if not any(clause in it[2] for it in told):
            yield f"{parts[1]} has no clause {clause or 'without a name'}"
    for edit in re.findall(r"`(\w+)`", cells[3]):
        if not glob.glob(f"crates/*/must-fail/{edit}.edit") + glob.glob(f"tests/edits/*/{edit}.edit"):
            yield f"there is no edit {edit}"


def place_of(name, path):
    """The line at which a file defines a name, or None."""
    source = pathlib.Path("crates", path)
    lines = source.read_text(encoding="utf-8").splitlines() if source.is_file() else []
    return next((number for number, line in enumerate(lines, 1) if re.match(DEFINES % name, line)), None)


def look_at(page, mends):
    """How many definitions a page cites, and how many of them stand elsewhere than it says."""
    text, wrong = page.read_text(encoding="utf-8"), 0
    for name, path, line in CITED.findall(text):
        place = place_of(name, path)
        if place and mends:
            text = text.replace(f"`{name}` (`{path}:{line}`)", f"`{name}` (`{path}:{place}`)")
        elif place != int(line):
            wrong += 1
            print(f"{page}: {name} is not defined at line {line} of {path}" + (f", but at {place}" if place else ""))
    if mends:
        page.write_text(text, encoding="utf-8")
    return len(CITED.findall(text)), wrong


def main(words):
    if words not in ([], ["--mend"]):
        print(__doc__, file=sys.stderr)
        return 2
    os.chdir(ROOT)
    wrong = count = 0
    for number, cells in rows():
        count += 1
        for fault in faults_of(cells):
            wrong += 1
            print(f"docs/promises.md:{number}: {fault}")
    cited, misplaced = (sum(numbers) for numbers in zip(*(look_at(page, bool(words)) for page in PAGES)))
    print(f"{count} promises, {wrong} faults; {cited} definitions of the theorem and of a sweep, {misplaced} elsewhere")
    return 1 if wrong or misplaced or not count or not cited else 0


if __name__ == "__main__":
    script(main, __doc__)
