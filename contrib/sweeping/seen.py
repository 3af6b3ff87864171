"""What is judged of a text, of the bytes that the server tells of it. Nearly all texts are told *plainly*: their links are a tag and a
number each, and they have no aux-items, so no strings either. These are split into words; what is told otherwise is read as a record."""
from protocol_a import Reply, moment_of, text
from sweeping.rule import is_held

# How a plain text ends: its links, and no items.
PLAIN_END = b" } 0 *\n"
# Where the words of a text are, after its moment: the author, the length, the marks, how many links there are, and, of a plain one, these.
AUTHOR, LENGTH, MARKS, COUNT, LINKS = 9, 11, 12, 13, slice(15, -3)
# The tags of links that are told plainly: recipients, comments and footnotes, and what is not judged; those that name texts; and all.
RECIPIENTS, CHILDREN, OTHERS = {b"0", b"1", b"15"}, {b"3", b"5"}, {b"2", b"4", b"6"}
TEXTS, TAGS = {b"2", b"3", b"4", b"5"}, RECIPIENTS | CHILDREN | OTHERS


def plain_words(told):
    """The words of a text that ends as a plain one does, or None."""
    return told.split() if told.endswith(PLAIN_END) and b"H" not in told else None


def seen_plainly(told):
    """What is seen of a text that is told plainly, or None of another one."""
    if not (words := plain_words(told)) or 2 * int(words[COUNT]) != len(links := words[LINKS]):
        return None
    recipients, children, links = [], [], iter(links)
    for tag, number in zip(links, links):
        if tag in RECIPIENTS:
            recipients.append(int(number))
        elif tag in CHILDREN:
            children.append(int(number))
        elif tag not in OTHERS:
            return None
    return moment_of(words), words[MARKS] != b"0", recipients, children


def seen(told):
    """When a text was made, whether a mark or an item holds it, its recipients, and its comments and footnotes."""
    try:
        found = seen_plainly(told)
    except (ValueError, IndexError):
        # (what departs from the protocol is found out as it is read as a record)
        found = None
    if found is None:
        row = text(Reply(told))
        found = row.made, is_held(row), [to.conference for to in row.recipients], [child for _, child in row.children]
    return found


def head_of(told):
    """When a text was made, its author and its length, of any text that was seen: no string comes before these."""
    words = told.split(None, MARKS)
    return moment_of(words), int(words[AUTHOR]), int(words[LENGTH])


def without_links(told, gone):
    """The words of a plain text but its links to the texts in `gone`, or None of another one."""
    words = plain_words(told)
    if words is None or not set(words[LINKS][::2]) <= TAGS:
        return None
    links, left = iter(words[LINKS]), []
    for tag, number in zip(links, links):
        if tag not in TEXTS or int(number) not in gone:
            left += tag, number
    words[LINKS], words[COUNT] = left, b"%d" % (len(left) // 2)
    return words
