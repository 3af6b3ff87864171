"""Texts as nearly all are told: no marks, one recipient, then what they comment, then their comments and footnotes, and no aux-items. What
is judged of one is found by a form, for all replies that came together. What is told otherwise is seen by seen.py."""
import re

from protocol_a import midnight, moment_of
from sweeping.rule import DAY, age_of
from sweeping.seen import seen

# A reply: its reference; what is told, and of that the hour, the day with its month and year, how many links there
# are, the recipient, and the comments and footnotes with their tags. From the first reply that is otherwise on, all is found at once,
# without a reference.
FORM = re.compile(
    rb"=(\d+) ([1-5]?\d [1-5]?\d (\d+) (\d+ \d+ \d+) \d+ \d+ \d+ \d+ \d+ \d+ 0 (\d+) \{ 0 (\d+) 6 \d+ (?:[24] \d+ )*((?:[35] \d{1,10} )*)\} 0 \*\n)"
    rb"|.+", re.DOTALL)
HOUR = 3600
# How many spaces there are in what is told with so many links.
SPACES = {b"%d" % links: 17 + 2 * links for links in range(100)}


class Recipients(dict):
    """The recipients of a text, by the word of its only one."""

    def __missing__(self, word):
        self[word] = found = (int(word),)
        return found


class Ages(dict):
    """The ages at a moment of what was made on a day before the moment's time of day, by the words of the day."""

    def __init__(self, moment):
        super().__init__()
        self.moment = moment

    def __missing__(self, words):
        first = midnight(*words.split())
        if first < 0:
            raise ValueError("a day before all others")
        self[words] = found = (self.moment - first) // DAY
        return found


class Plain:
    """What is judged of such texts at a moment."""

    def __init__(self, moment):
        self.moment, self.ages, self.recipients = moment, Ages(moment), Recipients()
        # by how many days what was made in an hour is younger than what was made before the moment's time of day
        within = moment % DAY // HOUR
        self.younger = {b"%d" % hour: int(hour > within) for hour in range(24) if hour != within}

    def judged(self, row):
        """What is judged of what the form found, or None if it is to be read otherwise."""
        _, told, hour, day, links, recipient, children = row
        try:
            if told.count(b" ") == SPACES[links]:
                if (younger := self.younger.get(hour)) is None:
                    age = age_of(moment_of(told.split(None, 6)), self.moment)
                elif (age := self.ages[day] - younger) < 0:
                    age = 0
                numbers = tuple(map(int, children.split()[1::2])) if children else ()
                return False, self.recipients[recipient], numbers, age
        except (KeyError, ValueError, OverflowError):
            pass
        return None


def judged_of(told, moment):
    """What is judged of any text: whether a mark or an item holds it, its recipients, its comments and footnotes, and its age."""
    made, is_held, recipients, children = seen(told)
    return is_held, tuple(recipients), tuple(children), age_of(made, moment)
