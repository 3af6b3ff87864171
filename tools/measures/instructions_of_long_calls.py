#!/usr/bin/env python3
"""Counts the instructions that the built program `komd` takes for calls that could hold up all others, and prints ratios.

usage: instructions_of_long_calls.py [KOMD [MANY]]      (KOMD: the built program if left out)

With 10 conferences, or MANY, 60,000 if left out, a name is looked up that is found once, and one that is found nowhere, and one
more conference is made: where all names begin with the same words, where each begins with a word of its own, and where all have the
same words and tell themselves apart in parentheses. Then texts are made with 100 comments, or with 1,000. Counted by callgrind: the
instructions of a run with some such calls less those of the same run without them. Runs with 60,000 take minutes each.
"""
import pathlib
import sys

sys.path.insert(0, str(pathlib.Path(__file__).resolve().parents[1] / "common"))
from built import program_of, script
from callgrind import FIRST, instructions, login, tell
from protocol import string

FEW = 10
LINKS, MORE_LINKS = 100, 1_000
LOOK_UPS, MADE, WRITTEN = 100, 100, 10


NAMES = {
    "names of the same first words": (lambda n: b"Conference of number %d" % n, lambda n: b"conf of number %d" % n),
    "names of different first words": (lambda n: b"%d is a conference" % n, lambda n: b"%d i a c" % n),
    "names that differ in parentheses": (lambda n: b"Meeting (%d)" % n, lambda n: b"meeting nowhere"),
}


def made(name):
    return b"2 88 %s 00000000 0 { }" % string(name)


def conferences(size, name_of):
    return [b"A5Hceder", login(5)] + [made(name_of(number)) for number in range(FIRST, FIRST + size)]


def compare_names(program, kind, many):
    name_of, pattern_of = NAMES[kind]
    found, missed, one_more = [], [], []
    for size in (FEW, many):
        lines = conferences(size, name_of)
        before = instructions(program, lines)

        def each(calls):
            return (instructions(program, lines + calls) - before) / len(calls)

        last = FIRST + size - 1
        found.append(each([b"3 76 %s 0 1" % string(pattern_of(last))] * LOOK_UPS))
        missed.append(each([b"3 76 %s 0 1" % string(pattern_of(last) + b"x")] * LOOK_UPS))
        one_more.append(each([made(name_of(last + more)) for more in range(1, MADE + 1)]))
    for name, (low, high) in (("lookup-z-name", found), ("lookup-z-name, none found", missed), ("create-conf", one_more)):
        tell(f"{name}, {kind}", low, high, (FEW, many))


def compare_links(program):
    texts = [login(5), b"2 88 5HTexts 00000000 0 { }"] + [b"3 86 5HHello 1 { 0 %d } 0 { }" % FIRST] * MORE_LINKS
    before = instructions(program, [b"A5Hceder"] + texts)
    each = []
    for links in (LINKS, MORE_LINKS):
        misc = b" ".join(b"2 %d" % number for number in range(1, links + 1))
        calls = [b"4 86 5HHello %d { 0 %d %s } 0 { }" % (links + 1, FIRST, misc)] * WRITTEN
        each.append((instructions(program, [b"A5Hceder"] + texts + calls) - before) / WRITTEN)
    tell("create-text with so many comments", each[0], each[1], (LINKS, MORE_LINKS))


def main(words):
    program = program_of(words)
    many = int(words[1]) if words[1:] else 60_000
    for kind in NAMES:
        compare_names(program, kind, many)
    compare_links(program)


if __name__ == "__main__":
    script(main, __doc__)
