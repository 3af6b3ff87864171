#!/usr/bin/env python3
"""Tries limits on the built program `komd`: limits.py [PROGRAM]

Each case is a list of calls with what each is to be answered; the calls are too many, or too long, to stand in a file. The
limits: bytes of a text, recipients of a text, comments and footnotes in and out of a text, marks of a person, the aux-items of
a text and of a conference with the bytes of their contents, memberships of a person, numbers of conferences, and bytes of a
reply's line. It also tries which refusal is the first where another guard fails at a limit too. It prints a line for each call
that is answered otherwise, and a count, and ends with 1 if there is one, else with 0. PROGRAM is the built `komd` unless it is named.
"""
import pathlib
import subprocess
import sys

sys.path.insert(0, str(pathlib.Path(__file__).resolve().parents[1] / "common"))
from built import program_of, script
from protocol import string

LONGEST_BODY = 1_048_576
MOST_RECIPIENTS = 100
MOST_COMMENTS = 1_000
MOST_FOOTNOTES = 100
MOST_MARKS = 2_000
MOST_ITEMS = 100
MOST_MEMBERSHIPS = 2_000
LAST_CONFERENCE = 65_535
LONGEST_NAME = 60
LONGEST_REPLY = 4_194_304
# With so many conferences, the name of the last one so long, a reply that names all of them is the longest one.
LAST_FOUND = 56_077
LAST_FOUND_NAME = 33
LONGEST_CONTENT = 16_384


def listed(elements):
    """An array, as a client spells it."""
    return b"%d { " % len(elements) + b" ".join(elements) + b" }"


def create(body, items, aux_items=()):
    """The arguments of create-text: a body, items as pairs of a tag and a number, and aux-items."""
    return b"86 " + string(body) + b" " + listed([b"%d %d" % item for item in items]) + b" " + listed(aux_items)


def create_anonymous(body, items):
    """The same of create-anonymous-text, without aux-items."""
    return b"87" + create(body, items).removeprefix(b"86")


def aux_item(tag, content, flags=b"00000000"):
    return b"%d %s 0 " % (tag, flags) + string(content)


class Case:
    """Calls of a person that is logged in, each with its wanted answer, all after the reference."""

    def __init__(self, name):
        self.name, self.calls, self.wanted = name, [], []

    def call(self, line, answer):
        self.calls.append(line)
        self.wanted.append(answer)

    def good(self, line, result=b""):
        self.call(line, (b"=", result))

    def refused(self, line, code, status):
        self.call(line, (b"%", b"%d %d" % (code, status)))

    def stream(self):
        lines = [b"A5Hceder\n", b"1 62 5 0H 0\n"]
        lines += [b"%d %s\n" % (place + 2, line) for place, line in enumerate(self.calls)]
        return b"".join(lines)

    def answers(self):
        lines = [b"LysKOM\n", b"=1\n"]
        for place, (mark, result) in enumerate(self.wanted):
            lines.append(mark + b"%d" % (place + 2) + (b" " + result if result else b"") + b"\n")
        return lines


def bodies():
    case = Case("bodies of texts")
    longest = b"a" * (LONGEST_BODY - 1) + b"\n"
    odd = b"\n\n{ } 3 { 1\n%2 4 0\n=2 1\n"
    case.good(create(b"", []), b"1")
    case.good(create(longest, []), b"2")
    case.refused(create(longest + b"b", []), 5, LONGEST_BODY)
    case.refused(create_anonymous(longest + b"b", []), 5, LONGEST_BODY)
    case.refused(create(longest + b"b", [(3, 0)]), 5, LONGEST_BODY)
    case.good(create(odd, []), b"3")
    case.good(b"25 1 0 100", b"0H")
    case.refused(b"25 1 1 100", 19, 1)
    case.good(b"25 2 %d %d" % (LONGEST_BODY - 2, LONGEST_BODY + 5), b"2Ha\n")
    case.good(b"25 2 %d 0" % LONGEST_BODY, b"0H")
    case.refused(b"25 2 %d 0" % (LONGEST_BODY + 1), 19, LONGEST_BODY + 1)
    case.good(b"25 3 0 4294967295", string(odd))
    case.good(b"115", b"4")
    return case


def recipients():
    case = Case("recipients of a text")
    for number in range(6, 6 + MOST_RECIPIENTS + 1):
        case.good(b"88 " + string(b"Conference %d" % number) + b" 00001000 0 { }", b"%d" % number)
    most = [(0, number) for number in range(6, 6 + MOST_RECIPIENTS)]
    one_more = 6 + MOST_RECIPIENTS
    case.refused(create(b"x", most + [(15, one_more)]), 33, 0)
    case.refused(create_anonymous(b"x", most + [(1, one_more)]), 33, 0)
    case.refused(create(b"x", most + [(15, 6)]), 27, 6)
    case.good(create(b"x", most), b"1")
    case.refused(b"30 1 %d 0" % one_more, 33, 1)
    case.refused(b"30 1 %d 2" % one_more, 26, 2)
    case.refused(b"30 1 6 0", 27, 6)
    case.good(b"19 %d 4" % one_more)
    case.good(b"18 %d 0" % one_more)
    case.refused(b"30 1 %d 0" % one_more, 11, one_more)
    case.good(b"42 255")
    case.refused(b"30 1 %d 0" % one_more, 33, 1)
    case.good(b"31 1 6")
    case.good(b"30 1 %d 0" % one_more)
    case.refused(b"30 1 6 0", 33, 1)
    case.good(b"103 %d 1 255" % one_more, b"1 2 0 1 1 1 { 1 }")
    case.good(b"103 6 1 255", b"1 2 0 0 0 *")
    case.good(b"29 1")
    case.good(b"103 %d 1 255" % one_more, b"1 2 0 0 0 *")
    return case


def links(name, tag, most, code, add, take, linked):
    """So many links, by the tag that names a parent and by the calls that add and take one; linked refuses a second one."""
    case = Case(name)
    for number in range(1, most + 2):
        case.good(create(b"x", []), b"%d" % number)
    parents = [(tag, number) for number in range(1, most + 1)]
    case.refused(create(b"y", parents + [(tag, most + 1)]), code, 0)
    case.refused(create(b"y", parents + [(tag, 1)]), linked, 1)
    case.refused(create_anonymous(b"y", parents + [(tag, most + 1)]), *((code, 0) if tag == 2 else (37, 1)))
    case.good(create(b"y", parents), b"%d" % (most + 2))
    case.refused(b"%d %d %d" % (add, most + 2, most + 1), code, most + 2)
    last = most + 2
    for child in range(last + 1, last + most):
        case.good(create(b"z", [(tag, 1)]), b"%d" % child)
    full = last + most
    case.refused(create(b"z", [(tag, 1)]), code, 1)
    case.good(create(b"z", []), b"%d" % full)
    case.refused(create_anonymous(b"z", [(tag, 1)]), *((code, 1) if tag == 2 else (37, 1)))
    case.refused(b"%d %d 1" % (add, full), code, 1)
    case.refused(b"%d %d 1" % (add, full + 1), 14, full + 1)
    case.refused(b"%d %d %d" % (add, last, full + 1), 14, full + 1)
    case.refused(b"%d 1 1" % add, 12, 1)
    case.refused(b"%d %d 1" % (add, last), linked, last)
    case.good(b"%d %d 1" % (take, last))
    case.good(b"%d %d %d" % (add, last, most + 1))
    case.refused(b"%d %d 2" % (add, last), linked, last)
    case.good(b"%d %d 1" % (add, full))
    case.refused(b"%d %d 1" % (add, last), code, 1)
    case.refused(b"%d %d %d" % (add, last, full), code, last)
    return case


def marks():
    case = Case("marks of a person")
    for number in range(1, MOST_MARKS + 2):
        case.good(create(b"x", []), b"%d" % number)
    for number in range(1, MOST_MARKS + 1):
        case.good(b"72 %d 7" % number)
    case.refused(b"72 %d 7" % (MOST_MARKS + 1), 36, 0)
    case.refused(b"72 %d 7" % (MOST_MARKS + 2), 14, MOST_MARKS + 2)
    case.good(b"72 1 8")
    case.good(b"73 2")
    case.good(b"72 %d 9" % (MOST_MARKS + 1))
    kept = [(1, 8)] + [(number, 7) for number in range(3, MOST_MARKS + 1)] + [(MOST_MARKS + 1, 9)]
    case.good(b"23", b"%d { " % len(kept) + b" ".join(b"%d %d" % mark for mark in kept) + b" }")
    return case


def ring():
    case = Case("links of a text with itself and in a ring")
    for number in (1, 2, 3):
        case.good(create(b"x", []), b"%d" % number)
    case.refused(b"32 1 1", 12, 1)
    case.refused(b"37 1 1", 12, 1)
    for child, parent in ((1, 2), (2, 3), (3, 1)):
        case.good(b"32 %d %d" % (child, parent))
        case.good(b"37 %d %d" % (child, parent))
    case.refused(b"32 2 3", 28, 2)
    case.refused(b"37 2 3", 29, 2)
    case.good(b"29 2")
    case.refused(b"33 1 2", 14, 2)
    case.good(b"33 3 1")
    case.refused(b"33 3 1", 31, 3)
    case.good(b"38 3 1")
    return case


def aux_items():
    case = Case("aux-items of a text and of a conference")
    most = [aux_item(2, b"%d" % place) for place in range(MOST_ITEMS)]
    one = aux_item(2, b"one")
    case.refused(create(b"x", [], most + [one]), 48, MOST_ITEMS)
    case.good(create(b"x", [], most), b"1")
    case.refused(b"92 1 0 { } " + listed([one]), 48, 0)
    case.good(b"92 1 1 { 7 } " + listed([one]))
    case.refused(b"92 1 1 { 7 } 0 { }", 48, 0)
    case.refused(b"92 1 1 { 8 } " + listed([one, one]), 48, 1)
    case.good(b"92 1 " + listed([b"%d" % place for place in range(8, MOST_ITEMS + 2)]) + b" 0 { }")
    handed = [aux_item(2, b"%d" % place, b"01000000") for place in range(MOST_ITEMS)]
    case.good(create(b"x", [], handed), b"2")
    case.good(create(b"y", [(2, 2)], [one]), b"3")
    case.refused(b"92 3 0 { } " + listed([one]), 48, 0)
    longest = b"a" * LONGEST_CONTENT
    case.good(create(b"z", [], [aux_item(2, longest)]), b"4")
    case.refused(create(b"z", [], [one, aux_item(2, longest + b"b")]), 48, 1)
    case.refused(b"92 4 0 { } " + listed([aux_item(2, longest + b"b")]), 48, 0)
    faqs = [aux_item(14, b"%d" % place) for place in range(MOST_ITEMS)]
    conference = b"88 4HOpen 00000000 "
    case.refused(conference + listed(faqs + [aux_item(14, b"1")]), 48, MOST_ITEMS)
    case.good(conference + listed(faqs), b"6")
    case.refused(b"93 6 0 { } " + listed([aux_item(14, b"1")]), 48, 0)
    case.good(b"11 6")
    case.good(b"29 3")
    return case


def memberships():
    case = Case("memberships of a person")
    case.good(b"89 2HBo 2Hbo 00000000 0 { }", b"6")
    case.good(b"88 4HOpen 00000100 0 { }", b"7")
    ends = range(8, 8 + MOST_MEMBERSHIPS - 1)
    for number in ends:
        case.good(b"88 " + string(b"Conference %d" % number) + b" 00000000 0 { }", b"%d" % number)
    for number in ends:
        case.good(b"100 %d 5 100 4294967295 00000000" % number)
    case.refused(b"100 7 5 100 0 00000000", 45, 5)
    case.refused(b"100 7 5 100 0 00100000", 54, 0)
    case.refused(b"100 6 5 100 0 00000000", 11, 6)
    case.refused(b"100 %d 5 100 0 00000000" % ends.stop, 9, ends.stop)
    case.good(b"42 255")
    case.refused(b"100 6 5 100 0 00000000", 45, 5)
    case.good(b"100 8 5 100 0 01000000")
    case.good(b"101 7 0 10", b"0 *")
    case.good(b"15 8 5")
    case.good(b"100 7 5 100 4294967295 00000000")
    case.refused(b"100 8 5 100 0 00000000", 45, 5)
    return case


def conferences():
    """All numbers of conferences are used; the names of the first ones make the longest line of a reply."""
    case = Case("numbers of conferences and a long reply")
    first, tail, one = 6, b"a" * (LONGEST_NAME - 6), b" 1 { 9 00000000 0 0H }"
    found = [b"a%05d" % number + tail for number in range(first, LAST_FOUND + 1)]
    found[-1] = found[-1][:LAST_FOUND_NAME]
    for number in range(first, LAST_CONFERENCE + 1):
        name = found[number - first] if number <= LAST_FOUND else b"b%05d" % number + tail
        case.good(b"88 " + string(name) + b" 0000 0 { }", b"%d" % number)
    case.refused(b"88 3HOne 0000 0 { }", 45, 0)
    case.refused(b"88 3HOne 0000" + one, 45, 0)
    case.refused(b"88 4HNews 0000 0 { }", 20, 0)
    case.refused(b"89 3HOne 0H 00000000 0 { }", 45, 0)
    case.refused(b"89 3HOne 0H 00000000" + one, 45, 0)
    case.refused(b"89 13Hadministrator 0H 00000000 0 { }", 21, 0)
    case.good(b"114", b"%d" % (LAST_CONFERENCE + 1))
    elements = [string(name) + b" 0000 %d" % number for number, name in enumerate(found, first)]
    case.good(b"76 1Ha 0 1", listed(elements))
    assert len(case.answers()[-1]) == LONGEST_REPLY
    case.good(b"3 %d " % LAST_FOUND + string(found[-1] + b"a"))
    case.refused(b"76 1Ha 0 1", 46, 0)
    case.good(b"11 %d" % LAST_CONFERENCE)
    case.refused(b"88 3HOne 0000 0 { }", 45, 0)
    return case


def cases():
    yield bodies()
    yield recipients()
    yield links("comments in and out of a text", 2, MOST_COMMENTS, 34, 32, 33, 28)
    yield links("footnotes in and out of a text", 4, MOST_FOOTNOTES, 35, 37, 38, 29)
    yield marks()
    yield ring()
    yield aux_items()
    yield memberships()
    yield conferences()


def main(words):
    program = program_of(words)
    failed = calls = 0
    for case in cases():
        done = subprocess.run([program, "once"], input=case.stream(), capture_output=True, timeout=600)
        given, there = done.stdout, 0
        calls += len(case.calls)
        for place, line in enumerate(case.answers()):
            if not given.startswith(line, there):
                failed += 1
                asked = case.calls[place - 2][:60] if place > 1 else b"the beginning"
                print(f"{case.name}: {asked!r} is answered {given[there:there + 60]!r}, not {line[:60]!r}")
                break
            there += len(line)
        else:
            rest = given[there:]
            if rest or done.returncode or done.stderr:
                failed += 1
                print(f"{case.name}: after the answers {rest[:60]!r}, status {done.returncode}, {done.stderr[:60]!r}")
    print(f"{calls} calls at limits, {failed} cases are answered otherwise")
    return 1 if failed else 0


if __name__ == "__main__":
    script(main, __doc__)
