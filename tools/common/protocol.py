"""How the lines of the protocol are spelled, and how those that are answered are compared with those that are wanted."""
import re

# A string of a line, from its length on.
STRING = re.compile(rb"(\d+)H")
# A time: seconds, minutes, hours, day, month, year, day of the week, day of the year, and no summer time.
TIME = r"(?:\d{1,2} ){5}\d{1,3} [0-6] \d{1,3} 0"
# The time of moment 0, which stands in a file of answers for any time.
BEGINNING = b"0 0 0 1 0 70 4 0 0"


def string(text):
    """A string as a client spells it, of letters or of bytes."""
    return b"%dH%s" % (len(text), text) if isinstance(text, bytes) else f"{len(text)}H{text}"


def pattern_of(line):
    """What matches a line of the answers, its line feed left out."""
    return re.compile(TIME.encode().join(re.escape(part) for part in line.split(BEGINNING)), re.DOTALL)


def difference(wanted, answered):
    """The first line that differs, as a text, or None. Lines end at line feeds, also those inside a string."""
    ours, theirs = wanted.split(b"\n"), answered.split(b"\n")
    for place in range(max(len(ours), len(theirs))):
        line = ours[place] if place < len(ours) else None
        other = theirs[place] if place < len(theirs) else None
        if line is None or other is None or not pattern_of(line).fullmatch(other):
            return f"line {place + 1} is {other!r:.200}, not {line!r:.200}"
    return None
