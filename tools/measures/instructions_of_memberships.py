#!/usr/bin/env python3
"""Counts the instructions that the built program `komd` takes for calls about memberships, and prints ratios.

usage: instructions_of_memberships.py [KOMD]      (KOMD: the built program if left out)

A person has 20 memberships, or 1,990, and a conference 20 members, or 10,000. The person itself, and one from whom nothing is
hidden though it supervises neither, ask for the last of them, for the last ten and the first ten, without ranges, and for how many
they are; and the person marks a text as read. Where one membership is secret, or half of them are, a stranger's calls are counted
too. Counted by callgrind, so the figures are nearly the same in each run, whatever else the machine does: the instructions of a run with so
many calls less those of the same run without them.
"""
import pathlib
import sys

sys.path.insert(0, str(pathlib.Path(__file__).resolve().parents[1] / "common"))
from built import program_of, script
from callgrind import FIRST, Prepared, login, tell
from protocol import string

FEW, MANY, MEMBERS = 20, 1_990, 10_000


def person_stream(memberships, secret, asker):
    """The administrator makes a person, then conferences, each of which that person joins, so many of the first ones
    secretly, and a second person; one of the two asks. The conferences have the numbers from FIRST on, the persons the next."""
    person = FIRST + memberships
    lines = [b"A5Hceder", login(5)]
    for number in range(FIRST, person):
        lines.append(b"2 88 %s 00000000 0 { }" % string(b"C%d" % number))
    lines += [b"2 89 2HBo 0H 00000000 0 { }", b"2 89 2HCy 0H 00000000 0 { }"]
    lines.append(b"2 86 1Ha 1 { 0 %d } 0 { }" % (person - 1))
    lines.append(login(person))
    for number in range(FIRST, person):
        kind = b"00100000" if number < FIRST + secret else b"00000000"
        lines.append(b"3 100 %d %d 100 5000 %s" % (number, person, kind))
    lines.append(login(person + asker))
    return lines


def conference_stream(members, secret):
    """Persons are made and join a conference, so many of the first ones secretly; the last one asks."""
    lines = [b"A5Hceder", login(5), b"2 88 4HOpen 00000000 0 { }"]
    for number in range(FIRST + 1, FIRST + 1 + members):
        lines.append(b"2 89 %s 0H 00000000 0 { }" % string(b"P%d" % number))
    for number in range(FIRST + 1, FIRST + 1 + members):
        kind = b"00100000" if number < FIRST + 1 + secret else b"00000000"
        lines += [login(number), b"3 100 %d %d 100 1 %s" % (FIRST, number, kind)]
    return lines


def compare_persons(program, who, secret, asker, marks):
    few, many = (Prepared(program, person_stream(memberships, secret(memberships), asker)) for memberships in (FEW, MANY))
    # The place of the last one: the letterbox comes first, and a stranger is not shown a secret one.
    calls = {
        "query-read-texts of the last": lambda n: b"4 107 %d %d 0 0" % (FIRST + n, FIRST + n - 1),
        "get-membership, the last ten": lambda n: b"4 108 %d %d 10 0 0" % (FIRST + n, n - 9 - secret(n)),
        "get-membership, the first ten": lambda n: b"4 108 %d 0 10 0 0" % (FIRST + n),
        "get-person-stat": lambda n: b"4 49 %d" % (FIRST + n),
    }
    if marks:
        calls["mark-as-read of one text"] = lambda n: b"4 27 %d 1 { 1 }" % (FIRST + n - 1)
    for name, call in calls.items():
        tell(f"{name}, by {who}", few.each(call(FEW)), many.each(call(MANY)), (FEW, MANY))


def compare_conferences(program, who, secret):
    few, many = (Prepared(program, conference_stream(members, secret(members))) for members in (FEW, MEMBERS))
    calls = {
        "get-members, the last ten": lambda n: b"4 101 %d %d 10" % (FIRST, n - 10 - secret(n)),
        "get-members, the first ten": lambda n: b"4 101 %d 0 10" % FIRST,
        "get-conf-stat": lambda n: b"4 91 %d" % FIRST,
    }
    for name, call in calls.items():
        tell(f"{name}, by {who}", few.each(call(FEW)), many.each(call(MEMBERS)), (FEW, MEMBERS))


def none(count):
    return 0


def one(count):
    return 1


def half(count):
    return count // 2


def main(words):
    program = program_of(words)
    compare_persons(program, "the person", none, 0, True)
    compare_persons(program, "a stranger", none, 1, False)
    compare_conferences(program, "a member", none)
    for how_many, secret in (("one is", one), ("half are", half)):
        compare_persons(program, f"a stranger from whom {how_many} hidden", secret, 1, False)
        compare_conferences(program, f"a member from whom {how_many} hidden", secret)


if __name__ == "__main__":
    script(main, __doc__)
