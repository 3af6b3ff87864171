"""What is known of a person who makes random calls on what is its own: the calls with what each changes, and what the server is to
tell of it all. soak.py uses it.

A change is a line and what becomes of what is known once the line is answered. All that a person owns is read-protected, and what
others do is kept from it, so what the server tells is known exactly, but for moments and for counts of logins and of fetched
texts."""
import re

from built import Wrong
from protocol import string

MOST_TEXTS = 40
MOST_CONFERENCES = 4
USUAL_BODY = 2_000
LONGEST_BODY = 60_000
KIND = "10001000"
LETTERBOX = "10011000"
LAST_PLACE = 4_294_967_295
EVERYTHING = "0 4294967295"
TOKEN = re.compile(r"(\d+)H|[^ ]+")


def tokens(line):
    """The tokens of a line; a string stands as it is spelled, but for its length."""
    found, place = [], 0
    while place < len(line):
        token = TOKEN.match(line, place)
        if token[1]:
            place = token.end() + int(token[1])
            found.append(line[token.end() : place])
        else:
            place = token.end()
            found.append(token[0])
        place += 1
    return found


class Fields:
    """The fields of a reply, from left to right."""

    def __init__(self, line):
        self.tokens, self.place = tokens(line), 0

    def next(self):
        self.place += 1
        return self.tokens[self.place - 1]

    def number(self):
        return int(self.next())

    def skip(self, count):
        self.place += count

    def moment(self):
        self.skip(9)

    def many(self, element):
        """An array, each element of which is read so."""
        count = self.number()
        if self.next() == "*":
            if count:
                raise Wrong("an array without its elements")
            return []
        found = [element() for _ in range(count)]
        self.skip(1)
        return found

    def aux_item(self):
        """The number, the tag, the creator and the content of an aux-item."""
        number, tag, creator = self.number(), self.number(), self.number()
        self.moment()
        self.skip(2)
        return number, tag, creator, self.next()


class Known:
    """What is known of a person."""

    def __init__(self, name, person, shared, password):
        self.name, self.person, self.shared, self.password = name, person, shared, password
        self.flags, self.area = "00000000", 0
        self.lines = self.bytes = self.read_texts = self.created_conferences = 0
        self.created, self.next_created = {}, 1
        self.texts, self.marks = {}, {}
        self.conferences = {person: conference(f"{name} person", LETTERBOX)}
        # The memberships in their order, each with its priority, and what is read of those that are its own.
        self.members = [(person, 255), (shared, 100)]
        self.read = {person: set()}

    def copy(self):
        """The same, which can change by itself."""
        other = Known.__new__(Known)
        for name, value in vars(self).items():
            other.__dict__[name] = plain_copy(value)
        return other

    def map_of(self, conf):
        """The texts of a conference by their local numbers."""
        return {text["to"][conf][1]: number for number, text in self.texts.items() if conf in text["to"]}

    def expected(self):
        """What the server is to tell, as `observed` has it."""
        told = {("person", self.person): (
            self.flags, self.area, self.lines, self.bytes, self.read_texts, self.created_conferences,
            min(self.created, default=self.next_created), self.next_created - min(self.created, default=self.next_created),
            len(self.marks), len(self.members))}
        told["created"] = dict(self.created)
        told["marks"] = dict(self.marks)
        told["members"] = [(conf, priority, ranges_of(self.read[conf]) if conf in self.read else None)
                           for conf, priority in self.members]
        for number, conf in self.conferences.items():
            local = self.map_of(number)
            first = min(local, default=conf["next"])
            told["conference", number] = (
                conf["name"], conf["kind"], self.person, conf["presentation"], self.person, conf["motd"], conf["nice"],
                conf["keep"], sum(1 for member, _ in self.members if member == number), first, conf["next"] - first, conf["expire"],
                [(aux, tag, self.person, content) for aux, (tag, content) in conf["aux"].items()])
            told["map", number] = local
        for number, text in self.texts.items():
            told["text", number] = (
                self.person, text["body"].count("\n"), len(text["body"]), int(number in self.marks),
                [(tag, conf, local if conf != self.shared else None, sent) for conf, (tag, local, sent) in text["to"].items()],
                text[2], text[3], text[4], text[5],
                [(aux, tag, self.person, content) for aux, (tag, content) in text["aux"].items()], text["body"])
        return told


def plain_copy(value):
    """A copy of lists, sets and dictionaries; what else there is does not change."""
    if isinstance(value, dict):
        return {key: plain_copy(part) for key, part in value.items()}
    if isinstance(value, list):
        return [plain_copy(part) for part in value]
    return set(value) if isinstance(value, set) else value


def conference(name, kind):
    """A conference that was made now."""
    return {"name": name, "kind": kind, "presentation": 0, "motd": 0, "nice": 77, "keep": 77, "expire": 0, "next": 1,
            "aux": {}, "drawn": 1}


def ranges_of(numbers):
    """The ranges of a set of numbers."""
    found = []
    for number in sorted(numbers):
        if found and found[-1][1] == number - 1:
            found[-1] = (found[-1][0], number)
        else:
            found.append((number, number))
    return found


# --- what the server tells

def mapping(session, call):
    """All of a mapping, by its pages."""
    found, first, later = {}, 1, 1
    while later:
        fields = Fields(session.ask(f"{call} {first} 255"))
        fields.skip(1)
        first, later = fields.number(), fields.number()
        if fields.number():
            local = fields.number()
            found.update(enumerate(fields.many(fields.number), local))
        else:
            found.update(fields.many(lambda: (fields.number(), fields.number())))
    return found


def observed(session, known):
    """What the server tells of what a person owns, by `session`, in which it is logged in."""
    person, told = known.person, {}
    fields = Fields(session.ask(f"49 {person}"))
    fields.skip(2)
    flags = fields.next()
    fields.moment()
    area = fields.number()
    fields.skip(2)
    lines, count = fields.number(), fields.number()
    read = fields.number()
    fields.skip(2)
    told["person", person] = (flags, area, lines, count, read, *(fields.number() for _ in range(5)))
    told["created"] = mapping(session, f"104 {person}")
    fields = Fields(session.ask("23"))
    told["marks"] = dict(fields.many(lambda: (fields.number(), fields.number())))
    told["members"] = members(Fields(session.ask(f"108 {person} 0 2000 1 0")), person, known.shared)
    fields = Fields(session.ask(f"76 {string(known.name)} 1 1"))
    conferences = fields.many(lambda: (fields.skip(2), fields.number())[1])
    texts = set(told["created"].values())
    for conf in conferences:
        told["conference", conf] = conference_of(Fields(session.ask(f"91 {conf}")))
        told["map", conf] = mapping(session, f"103 {conf}")
        texts.update(told["map", conf].values())
    order = sorted(texts)
    stats = session.ask_all([f"90 {text}" for text in order])
    bodies = session.ask_all([f"25 {text} {EVERYTHING}" for text in order])
    for text, stat, body in zip(order, stats, bodies):
        told["text", text] = (*text_of(Fields(stat), known.shared), body.split("H", 1)[1])
    return told


def members(fields, person, shared):
    """The memberships: the conference, its priority and what is read there, of the shared one nothing."""

    def one():
        fields.skip(1)
        fields.moment()
        conf, priority = fields.number(), fields.number()
        ranges = fields.many(lambda: (fields.number(), fields.number()))
        adder = fields.number()
        fields.moment()
        kind = fields.next()
        if kind != "00000000" or (conf != shared and adder != person and conf != person):
            raise Wrong(f"a membership in {conf} of type {kind}, added by {adder}")
        return conf, priority, ranges if conf != shared else None

    return fields.many(one)


def conference_of(fields):
    name, kind = fields.next(), fields.next()
    fields.moment()
    fields.moment()
    creator, presentation, supervisor = fields.number(), fields.number(), fields.number()
    fields.skip(2)
    motd, nice, keep, count = (fields.number() for _ in range(4))
    first, numbers, expire = (fields.number() for _ in range(3))
    return (name, kind, creator, presentation, supervisor, motd, nice, keep, count, first, numbers, expire,
            fields.many(fields.aux_item))


def text_of(fields, shared):
    fields.moment()
    head = tuple(fields.number() for _ in range(4))
    groups = {2: [], 3: [], 4: [], 5: []}
    to = []

    def one():
        tag = fields.number()
        if tag in (7, 9):
            fields.moment()
            return
        value = fields.number()
        if tag in (0, 1, 15):
            to.append([tag, value, None, False])
        elif tag == 6:
            to[-1][2] = value if to[-1][1] != shared else None
        elif tag == 8 and last[0] in (0, 1, 15, 6):
            to[-1][3] = True
        elif tag in groups:
            groups[tag].append(value)
        last[0] = tag

    last = [0]
    fields.many(one)
    return (*head, [tuple(row) for row in to], groups[2], groups[3], groups[4], groups[5], fields.many(fields.aux_item))


# --- random calls; each returns a line and a change, or None where there is nothing to make it of

def body_of(random):
    size = random.randrange(LONGEST_BODY) if random.random() < 0.02 else random.randrange(USUAL_BODY)
    return "".join(random.choices("ab{}* \n:=%0123456789H\xe5\x00\xff", k=size))


def items_of(random, most, tags):
    return [(random.choice(tags), f"{random.randrange(10**6)}") for _ in range(random.randrange(most + 1))]


def spelled_items(items):
    return f"{len(items)} {{ {' '.join(f'{tag} 00000000 0 {string(content)}' for tag, content in items)} }}"


def add_items(owner, items):
    for item in items:
        owner["aux"][owner["drawn"]] = item
        owner["drawn"] += 1


def create_text(known, random):
    if len(known.texts) >= MOST_TEXTS:
        return delete_text(known, random)
    body, items = body_of(random), items_of(random, 2, (2, 3))
    to = [(random.choice((0, 1, 15)), conf) for conf in known.conferences if random.random() < 0.5]
    to += [(0, known.shared)] if random.random() < 0.2 else []
    named = random.sample(sorted(known.texts), min(len(known.texts), random.randrange(3)))
    parents = [(random.choice((2, 4)), text) for text in named]
    misc = " ".join(f"{tag} {number}" for tag, number in to + parents)
    line = f"86 {string(body)} {len(to) + len(parents)} {{ {misc} }} {spelled_items(items)}"

    def change(known, result):
        number = int(result)
        text = {"body": body, "to": {}, "aux": {}, "drawn": 1, 2: [], 3: [], 4: [], 5: []}
        for tag, conf in to:
            text["to"][conf] = (tag, next_local(known, conf), False)
        for tag, parent in parents:
            link(known, tag, number, parent, text)
        add_items(text, items)
        known.texts[number] = text
        known.created[known.next_created] = number
        known.next_created += 1
        known.lines += body.count("\n")
        known.bytes += len(body)

    return line, change


def next_local(known, conf):
    if conf == known.shared:
        return None
    known.conferences[conf]["next"] += 1
    return known.conferences[conf]["next"] - 1


def link(known, tag, child, parent, text=None):
    """Links a text to its parent by the tag of comments or of footnotes."""
    (text or known.texts[child])[tag].append(parent)
    known.texts[parent][tag + 1].append(child)


def a_text(known, random):
    return random.choice(sorted(known.texts)) if known.texts else None


def two_texts(known, random):
    return random.sample(sorted(known.texts), 2) if len(known.texts) > 1 else (None, None)


def delete_text(known, random):
    text = a_text(known, random)
    if text is None:
        return None

    def change(known, _result):
        gone = known.texts.pop(text)
        for tag, other in ((2, 3), (3, 2), (4, 5), (5, 4)):
            for linked in gone[tag]:
                known.texts[linked][other].remove(text)
        known.marks.pop(text, None)
        known.created = {local: number for local, number in known.created.items() if number != text}

    return f"29 {text}", change


def add_recipient(known, random):
    text, conf = a_text(known, random), random.choice(sorted(known.conferences))
    tag = random.choice((0, 1, 15))
    if text is None or conf in known.texts[text]["to"]:
        return None

    def change(known, _result):
        known.texts[text]["to"][conf] = (tag, next_local(known, conf), True)

    return f"30 {text} {conf} {tag}", change


def sub_recipient(known, random):
    text = a_text(known, random)
    own = [conf for conf in known.texts[text]["to"] if conf != known.shared] if text is not None else []
    if not own:
        return None
    conf = random.choice(own)
    return f"31 {text} {conf}", lambda known, _result: known.texts[text]["to"].pop(conf) and None


def add_link(known, random):
    child, parent = two_texts(known, random)
    tag, call = random.choice(((2, 32), (4, 37)))
    if child is None or parent in known.texts[child][tag]:
        return None
    return f"{call} {child} {parent}", lambda known, _result: link(known, tag, child, parent)


def sub_link(known, random):
    text = a_text(known, random)
    tag, call = random.choice(((2, 33), (4, 38)))
    if text is None or not known.texts[text][tag]:
        return None
    parent = random.choice(known.texts[text][tag])

    def change(known, _result):
        known.texts[text][tag].remove(parent)
        known.texts[parent][tag + 1].remove(text)

    return f"{call} {text} {parent}", change


def mark(known, random):
    text, kind = a_text(known, random), random.randrange(256)
    if text is None:
        return None

    def change(known, _result):
        known.marks[text] = kind

    return f"72 {text} {kind}", change


def unmark(known, random):
    if not known.marks:
        return None
    text = random.choice(sorted(known.marks))
    return f"73 {text}", lambda known, _result: known.marks.pop(text) and None


def an_own_membership(known, random):
    conf = random.choice(sorted(known.read))
    return conf, known.conferences[conf]["next"] - 1


def mark_as_read(known, random):
    conf, highest = an_own_membership(known, random)
    locals_ = [random.randint(1, highest) for _ in range(random.randrange(6))] if highest else []

    def change(known, _result):
        known.read_texts += len(set(locals_) - known.read[conf])
        known.read[conf] |= set(locals_)

    return f"27 {conf} {len(locals_)} {{ {' '.join(map(str, locals_))} }}", change


def read_otherwise(known, random):
    """One of the four calls that set what is read, or take a number out of it."""
    conf, highest = an_own_membership(known, random)
    number = random.randint(0, highest)
    ranges, place = [], 0
    while (begin := place + random.randint(1, 3)) <= highest and len(ranges) < 5:
        place = random.randint(begin, highest)
        ranges.append((begin, place))
    spelled = " ".join(f"{first} {last}" for first, last in ranges)
    line, wanted = random.choice((
        (f"40 {conf} {number}", set(range(1, highest - number + 1))),
        (f"77 {conf} {number}", set(range(1, number + 1))),
        (f"110 {conf} {len(ranges)} {{ {spelled} }}", {one for first, last in ranges for one in range(first, last + 1)}),
        (f"109 {conf} {number}", known.read[conf] - {number}) if number else (f"77 {conf} 0", set())))

    def change(known, _result):
        known.read[conf] = set(wanted)

    return line, change


def change_items(known, random):
    """Aux-items of a text or of a conference go, and others come."""
    text, conf = a_text(known, random), random.choice(sorted(known.conferences))
    of_text = text is not None and random.random() < 0.6
    owner = known.texts[text] if of_text else known.conferences[conf]
    gone = [number for number in owner["aux"] if random.random() < 0.5]
    items = items_of(random, 3, (2, 3) if of_text else (3, 14))

    def change(known, _result):
        owner = known.texts[text] if of_text else known.conferences[conf]
        for number in gone:
            del owner["aux"][number]
        add_items(owner, items)

    number, call = (text, 92) if of_text else (conf, 93)
    return f"{call} {number} {len(gone)} {{ {' '.join(map(str, gone))} }} {spelled_items(items)}", change


def set_part(known, random):
    """A number of a conference, or a text that tells something of it."""
    conf, number = random.choice(sorted(known.conferences)), random.randrange(2**32)
    text = random.choice([0, *known.texts])
    part, call, value = random.choice((
        ("presentation", 16, text), ("motd", 17, text), ("nice", 22, number), ("expire", 97, number), ("keep", 105, number)))

    def change(known, _result):
        known.conferences[conf][part] = value

    return f"{call} {conf} {value}", change


def rename(known, random):
    conf, name = random.choice(sorted(known.conferences)), f"{known.name} {random.randrange(2**60):x}"

    def change(known, _result):
        known.conferences[conf]["name"] = name

    return f"3 {conf} {string(name)}", change


def set_flags(known, random):
    flags = "".join(random.choices("01", k=8))

    def change(known, _result):
        known.flags = flags

    return f"106 {known.person} {flags}", change


def set_area(known, random):
    text = random.choice([0, *known.texts])

    def change(known, _result):
        known.area = text

    return f"57 {known.person} {text}", change


def set_password(known, random):
    old, password = known.password, f"{random.randrange(10**9)}"

    def change(known, _result):
        known.password = password

    change.password = password
    return f"8 {known.person} {string(old)} {string(password)}", change


def create_conference(known, random):
    if len(known.conferences) > MOST_CONFERENCES:
        return delete_conference(known, random)
    name = f"{known.name} {random.randrange(2**60):x}"

    def change(known, result):
        known.conferences[int(result)] = conference(name, KIND)
        known.created_conferences += 1

    return f"88 {string(name)} {KIND} 0 {{ }}", change


def delete_conference(known, random):
    if len(known.conferences) < 2:
        return None
    conf = random.choice(sorted(known.conferences)[1:])

    def change(known, _result):
        del known.conferences[conf]
        for text in known.texts.values():
            text["to"].pop(conf, None)
        leave(known, conf)

    return f"11 {conf}", change


def leave(known, conf):
    known.members = [row for row in known.members if row[0] != conf]
    known.read.pop(conf, None)


def add_member(known, random):
    conf, priority = random.choice(sorted(known.conferences)), random.randrange(256)
    first = random.random() < 0.5

    def change(known, _result):
        others = [row for row in known.members if row[0] != conf]
        known.members = [(conf, priority), *others] if first else [*others, (conf, priority)]
        known.read.setdefault(conf, set())

    return f"100 {conf} {known.person} {priority} {0 if first else LAST_PLACE} 00000000", change


def sub_member(known, random):
    own = [conf for conf, _ in known.members if conf not in (known.person, known.shared)]
    if not own:
        return None
    conf = random.choice(own)
    return f"15 {conf} {known.person}", lambda known, _result: leave(known, conf)


def of_session(known, random):
    """A call that changes the session alone."""
    conf = random.choice([0] + [conf for conf, _ in known.members])
    line = random.choice((
        f"2 {conf}", f"4 {string(str(random.random()))}", "82", "35", "56", "75", "81", "83 1 1 0", "94", "96", "85", "114", "115",
        f"53 {known.person} {string('to myself')}", f"80 3 {{ {random.choice((5, 9, 12))} 12 {random.choice((13, 15, 16))} }}",
        f"42 {random.randrange(256)}", f"62 {known.person} {string(known.password)} {random.randrange(2)}", "60 0", "116 0"))
    return ("115" if line == "60 0" and not known.texts else line), None


def look(known, random):
    """A call that is told what is known."""
    text, conf = a_text(known, random), random.choice(sorted(known.conferences))
    if text is None:
        return "23", None
    body = known.texts[text]["body"]
    begin, last = random.randint(0, len(body)), random.randrange(2 * USUAL_BODY)
    part = string(body[begin : last + 1])

    def is_part(_known, result):
        if result != part:
            raise Wrong(f"text {text} from {begin} to {last} is {result!r:.100}, not {part!r:.100}")

    def is_text(known, result):
        if text_of(Fields(result), known.shared) != known.expected()["text", text][:-1]:
            raise Wrong(f"text {text} is told as {result!r:.300}")

    def is_conference(known, result):
        if (told := conference_of(Fields(result))) != known.expected()["conference", conf]:
            raise Wrong(f"conference {conf} is told as {told!r:.300}, not {known.expected()['conference', conf]!r:.300}")

    line, check = random.choice(((f"25 {text} {begin} {last}", is_part), (f"90 {text}", is_text), (f"91 {conf}", is_conference)))
    check.looks = True
    return line, check


CALLS = (
    [create_text] * 10 + [look] * 10 + [of_session] * 6 + [delete_text, add_recipient, sub_recipient, add_link, sub_link] * 2
    + [mark, unmark, mark_as_read, mark_as_read, read_otherwise, change_items, set_part, rename, set_flags, set_area, set_password]
    + [create_conference, delete_conference, add_member, add_member, sub_member]
)


def random_call(known, random):
    """A call that is good, with what it changes, or what is looked at in its result, or None."""
    while True:
        if made := random.choice(CALLS)(known, random):
            return made
