"""The walks over conferences and texts by which a strong session finds what is due, and the deletion of that."""
from typing import NamedTuple

from protocol_a import NO_SUCH_TEXT, UNDEFINED_CONFERENCE, Broken, Refused, Reply, conference, person, text
from sweeping.plain import FORM, Plain, judged_of
from sweeping.rule import FOREVER, Days, Names, faq_texts, rule_by
from sweeping.seen import without_links

# How many calls are under way at a time.
TOGETHER = 16
NUMBERS = 2**32
LETTERBOX = 16


class Due(NamedTuple):
    """A text that may be due, with what the server told of it: all, and what is judged of that."""
    number: int
    told: bytes
    recipients: tuple
    children: tuple
    age: int

    def row(self):
        return text(Reply(self.told))


class Walk(NamedTuple):
    """A walk over the texts: those that may be due, rising, the age of each text that was told, and how many texts there are."""
    old: list
    ages: dict
    count: int

    def due(self, names):
        """Those that are due by what the conferences tell. One is not of which a comment or a footnote was not told."""
        lets_go = rule_by(names)
        return [one for one in self.old if (youngest := self.youngest(one.children)) is not None
                and lets_go(one.number, one.recipients, one.age, youngest)]

    def youngest(self, children):
        """The age of the youngest of some comments and footnotes, or None if one of them was not told."""
        if not children:
            return FOREVER
        ages = [self.ages.get(child) for child in children]
        return None if None in ages else min(ages)


def parts(rows):
    """Rows, as many at a time as calls may be under way."""
    return (rows[place : place + TOGETHER] for place in range(0, len(rows), TOGETHER))


def good(replies):
    """Replies, all of which are to be good."""
    for reply in replies:
        if isinstance(reply, Refused):
            raise reply
    return replies


def numbers(session, call, end):
    """The numbers that a call finds which looks for the next one, from 0 until it is refused with `end`: rising, some at a time."""
    at, is_over = 0, False
    while not is_over:
        found = []
        starts = range(at, min(at + TOGETHER, NUMBERS))
        for start, reply in zip(starts, session.ask_all([(call, start) for start in starts])):
            if isinstance(reply, Refused):
                if reply.code != end:
                    raise reply
                is_over = True
                continue
            number = reply.number()
            if number <= start:
                raise Broken(f"call {call} of {start} is answered {number}")
            if not found or found[-1] < number:
                found.append(number)
        yield found
        at = found[-1] if found else at


def names_of(session):
    """What the conferences and persons tell. Where one of them is not told of this fails."""
    names = Names({}, {}, set())
    for found in numbers(session, 116, UNDEFINED_CONFERENCE):
        letterboxes = []
        for number, reply in zip(found, good(session.ask_all([(91, number) for number in found]))):
            row = conference(reply)
            names.names[number], names.days[number] = row.name, Days(row.nice, row.keep, row.expire)
            names.named.update((row.presentation, row.motd, *faq_texts(row.items)))
            if row.kind & LETTERBOX:
                letterboxes.append(number)
        for reply in good(session.ask_all([(49, number) for number in letterboxes])):
            names.named.add(person(reply).area)
    return names


def texts(session, last):
    """The texts up to one: their numbers, rising, some at a time, each with what is told of it, or its refusal. Numbers are asked for one
    after the other, and where few of them are texts, fewer together, and then what the next one is. While what is told of some is used,
    the next ones are asked for."""
    at, width, found = 0, 0, []
    while at < last:
        some = range(at + 1, min(at + width, last) + 1)
        calls, at = [(90, number) for number in some], at + len(some)
        if width < TOGETHER:
            calls.append((60, at))
        replies = session.told(calls, FORM)
        yield found
        replies = list(replies)
        if width < TOGETHER:
            at = next_text(replies.pop(), at) - 1
        found = [both for both in zip(some, replies) if type(both[1]) is not Refused or is_there(session, *both)]
        width = min(max(2 * width, 1), TOGETHER) if 2 * len(found) >= width else max(2 * len(found) - 1, 1)
    yield found


def next_text(told, number):
    """The next text after a number, by what call 60 tells, or the number that no text reaches."""
    if isinstance(told, Refused):
        if told.code != NO_SUCH_TEXT:
            raise told
        return NUMBERS
    found = Reply(told).number()
    if found <= number:
        raise Broken(f"call 60 of {number} is answered {found}")
    return found


def is_there(session, number, refusal):
    """Whether there is a text although it was refused to tell of it."""
    if refusal.code == NO_SUCH_TEXT:
        return False
    (told,) = session.told([(60, number - 1)])
    return next_text(told, number - 1) == number


def walk(session, moment, names, progress):
    """The walk over the texts at a moment. What is made after it began is as old as nothing that is due, and is not walked over."""
    last = session.ask(115).number() - 1
    old, ages, count = [], {}, 0
    plain, lets_go = Plain(moment), rule_by(names)
    for found in texts(session, last):
        count += len(found)
        for number, told in found:
            judged = None
            if type(told) is tuple:
                judged, told = plain.judged(told), told[1]
            elif isinstance(told, Refused):
                continue
            is_held, recipients, children, age = judged or judged_of(told, moment)
            ages[number] = age
            # (whether its comments let it go can be said once all of them were met)
            if not is_held and lets_go(number, recipients, age, FOREVER):
                old.append(Due(number, told, recipients, children, age))
        progress.tell(count, last)
    progress.end()
    for some in parts(sorted({child for one in old for child in one.children if child not in ages})):
        for number, told in zip(some, session.told([(90, number) for number in some])):
            if not isinstance(told, Refused):
                ages[number] = judged_of(told, moment)[3]
    return Walk(old, ages, count)


def is_as_judged(one, told, gone):
    """Whether a text is told as when it was judged, but for its links to those that are gone since."""
    if isinstance(told, Refused):
        return False
    if told == one.told or told.split() == without_links(one.told, gone):
        return True
    row = one.row()
    return text(Reply(told)) == row._replace(parents=[parent for parent in row.parents if parent.text not in gone],
                                             children=[child for child in row.children if child[1] not in gone])


def delete(session, due, gone, is_left, progress):
    """Deletes texts that are due, and adds to `gone` each one whose deletion was answered. `is_left` is told of each other one, and why."""
    for some in parts(due):
        same = []
        for one, told in zip(some, session.told([(90, one.number) for one in some])):
            if is_as_judged(one, told, gone):
                same.append(one.number)
            else:
                is_left(one.number, told if isinstance(told, Refused) else "it changed meanwhile")
        for number, told in zip(same, session.told([(29, number) for number in same])):
            if isinstance(told, Refused):
                is_left(number, told)
            else:
                gone.add(number)
        progress.tell(len(gone), len(due))
    progress.end()
