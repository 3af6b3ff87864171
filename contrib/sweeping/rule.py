"""Which text is due to be deleted, by what the server tells of it, of its comments and footnotes, and of conferences. A text that is not
told of enough is not due. docs/operating.md says the rule in words."""
import functools
from typing import NamedTuple

DAY = 86_400
DONT_GARB = 0b0000_1000
FAQ_TEXT = 14
# The days of comments and footnotes where there are none.
FOREVER = float("inf")


class Days(NamedTuple):
    """For how many days a conference keeps its texts."""
    nice: int
    keep: int
    expire: int


WITHOUT_RECIPIENTS = Days(77, 77, 0)


class Names(NamedTuple):
    """What conferences tell: the name and the days of each, and the texts that they name."""
    names: dict
    days: dict
    named: set


def age_of(made, moment):
    """The whole days from the moment at which a text was made, or 0 where that is yet to come."""
    return max(moment - made, 0) // DAY


def faq_texts(items):
    """The texts that the faq-text items among these name."""
    for item in items:
        if item.tag == FAQ_TEXT and item.content.isdigit():
            # (what has more digits than any text's number names none)
            yield int(item.content.lstrip(b"0")[:11] or 0)


def releases(days, age, youngest):
    """Whether a conference of these days lets a text go that has this age, and whose youngest comment or footnote has that one."""
    return 0 < days.expire < age or (days.nice < age and days.keep < youngest)


def is_held(row):
    """Whether a mark or an item keeps a text, whatever its recipients say."""
    return row.marks > 0 or any(item.flags & DONT_GARB for item in row.items)


def let_go(recipients, age, youngest, names):
    """Whether every recipient lets a text go, or there is none and those without go. One of which nothing is told does not."""
    for conference in recipients:
        days = names.days.get(conference)
        if days is None or not releases(days, age, youngest):
            return False
    return bool(recipients) or releases(WITHOUT_RECIPIENTS, age, youngest)


def rule_by(names):
    """The rule by what conferences tell: of a text's number, its recipients, its age and that of its youngest comment or footnote, whether
    nobody names it, and its recipients let it go. What was said of the same recipients and ages is said again."""
    let = functools.lru_cache(1 << 14)(lambda recipients, age, youngest: let_go(recipients, age, youngest, names))
    return lambda number, recipients, age, youngest: let(recipients, age, youngest) and number not in names.named
