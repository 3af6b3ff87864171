#!/usr/bin/env python3
"""Looks whether crates.txt says of each crate how many of its functions may wait for ever: waits.py

A function may wait where a bound `Wait` stands on it, or on the impl that it is in; and so may the `main` of a program of which a
function, or a crate that it names, may wait. crates.txt has their number as `may_wait=N` behind the crate's name, and none where there are
none. Functions of tests do not count. `rt verdict` compares the same number with what the prover found. It prints what is otherwise, and
ends with 1 then, else with 0.
"""
import pathlib
import re
import sys

sys.path.insert(0, str(pathlib.Path(__file__).resolve().parents[1] / "common"))
from built import ROOT, Wrong, script

HEAD = re.compile(r"\b(?:fn\s+\w+|impl\b)")
# A bound on a type of one of the generics: `R: Threads + Wait`.
BOUND = re.compile(r"[:+]\s*(?:sync::)?Wait\b")


def code(text):
    """The code without comments, texts and contracts' braces, each letter of them a blank."""
    return re.sub(r'//[^\n]*|b?"(?:\\.|[^"\\])*"|b?\'(?:\\.|[^\'\\])\'', lambda found: " " * len(found[0]), text, flags=re.S)


def block(text, place):
    """From where to where the body goes that begins behind a head; contracts in braces come before it."""
    while True:
        opening = re.compile(r"[{;]").search(text, place)
        if opening is None or opening[0] == ";":
            return None
        depth, at = 0, opening.start()
        while True:
            depth += {"{": 1, "}": -1}.get(text[at], 0)
            if depth == 0:
                break
            at += 1
        before = text[place:opening.start()]
        if not re.search(r"\b(?:ensures|requires|ghost)\b[^{}]*$", before):
            return opening.start(), at
        place = at + 1


def waiting(text):
    """How many functions of a file may wait."""
    text, count, impls = code(text), 0, []
    for found in HEAD.finditer(text):
        place = found.end()
        generics = ""
        if (opened := re.compile(r"\s*<").match(text, place)) is not None:
            depth, at = 1, opened.end()
            while depth:
                depth += {"<": 1, ">": -1}.get(text[at], 0) if text[at - 1:at + 1] != "->" else 0
                at += 1
            generics = text[opened.end():at - 1]
        whole = block(text, place)
        if found[0].startswith("impl"):
            if whole is not None and BOUND.search(generics):
                impls.append(whole)
        elif whole is not None and (BOUND.search(generics) or any(begin < found.start() < end for begin, end in impls)):
            count += 1
    return count


def main(_words):
    faults, counts = [], {}
    for line in (ROOT / "crates.txt").read_text(encoding="utf-8").splitlines():
        head, _, below = line.split("#")[0].partition(":")
        words = head.split()
        if not words:
            continue
        told = next((int(word.split("=")[1]) for word in words[1:] if word.startswith("may_wait=")), 0)
        source = ROOT / "crates" / words[0] / "src"
        texts = [file.read_text(encoding="utf-8") for file in sorted(source.rglob("*.rt"))]
        found = sum(waiting(text) for text in texts if "#[test]" not in text)
        if (source / "main.rt").exists() and (found or any(counts.get(other) for other in below.split())):
            found += 1
        counts[words[0]] = found
        if found != told:
            faults.append(f"{words[0]}: crates.txt has may_wait={told}, and {found} functions may wait")
    if faults:
        raise Wrong("\n".join(faults))
    print("crates.txt tells how many functions of each crate may wait")
    return 0


if __name__ == "__main__":
    script(main, __doc__)
