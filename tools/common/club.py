"""A club that has lived a while, for the scripts that read one: persons, conferences and what they did, by random calls of its members
and of its administrator; and all that a server tells of it, call by call, to compare two servers."""
import collections
import random

from served import Session, string

PERSONS, CONFERENCES, LOGGED_IN = 24, 10, 8
FIRST = "Anna Bo Cecilia David Eva Fredrik Gunnar Hanna Åke Östen Ärla Zoë".split()
LAST = "Ek Berg Sjö Lind".split()
KINDS = ("00000000", "00001000", "10000000", "10100000", "00000100", "01000000")
WORDS = "jag tror att det är en bra idé men vi får se om någon annan vill vara med { } * 5Habc :15 =1\n\x00\xff".split(" ")
RECIPIENT_KINDS = (0, 0, 0, 1, 15)
TEXT_TAGS, CONFERENCE_TAGS = (1, 2, 3, 4, 5, 6, 15), (3, 10, 13, 14)
ITEM_FLAGS = ("00000000", "01000000", "00100000", "00010000", "01110000")
MEMBERSHIP_KINDS = ("00000000", "00000000", "01000000", "00100000", "01010000")
EVERYTHING, PAGE = "0 4294967295", 255


class Club:
    """What the members of a club at a port do. `done` counts the calls that were answered well, by their numbers."""

    def __init__(self, port, password="", seed=1):
        self.port, self.random, self.done = port, random.Random(seed), collections.Counter()
        self.strong = Session(port, "administrator").login(5, password)
        self.strong.ask("42 255")
        self.persons, self.conferences = [], [1, 2, 3, 4]
        for number in range(PERSONS):
            name = f"{FIRST[number % len(FIRST)]} {LAST[number % len(LAST)]} {number}"
            self.persons.append(self.added(f"89 {string(name)} {string(password_of(number))} 00000000"))
        for number in range(CONFERENCES):
            name = f"{self.words(2)} (möte {number}) {number}"
            self.conferences.append(self.added(f"88 {string(name[:60])} {KINDS[number % len(KINDS)]}"))
        self.sessions = [Session(port, f"user {number}").login(person, password_of(number))
                         for number, person in enumerate(self.persons[:LOGGED_IN])]
        for person in self.persons:
            for conference in self.random.sample(self.conferences, 6):
                self.strong.ask(f"100 {conference} {person} {self.random.randrange(256)} {self.random.randrange(4)} 00000000")
        self.last = 0

    def added(self, line):
        """The number of a person, or a conference, that is made, with aux-items."""
        number = int(self.strong.ask(f"{line} 0 {{ }}"))
        self.make(self.strong, f"93 {number} 0 {{ }} {self.items(CONFERENCE_TAGS)}")
        return number

    def words(self, count):
        return " ".join(self.random.choices(WORDS[:12], k=count))

    def body(self):
        return self.words(2) + "\n" + " ".join(self.random.choices(WORDS, k=self.random.randrange(60)))

    def items(self, tags):
        """A list of aux-items."""
        drawn = self.random.sample(tags, self.random.choice((0, 0, 0, 1, 2)))
        spelled = [f"{tag} {self.random.choice(ITEM_FLAGS)} {self.random.randrange(4)} {string(self.words(3))}" for tag in drawn]
        return f"{len(spelled)} {{ {' '.join(spelled)} }}"

    def text(self):
        """A text, mostly a late one."""
        return max(1, self.last - int(self.random.expovariate(1 / 20)))

    def conference(self):
        return self.random.choice(self.conferences + self.persons[:4])

    def write(self, call=86):
        misc = [f"{self.random.choice(RECIPIENT_KINDS)} {number}" for number in {self.conference() for _ in range(self.random.randrange(3))}]
        misc += [f"{self.random.choice((2, 2, 2, 4))} {number}" for number in {self.text() for _ in range(self.random.choice((0, 1, 1, 2)))}]
        return f"{call} {string(self.body())} {len(misc)} {{ {' '.join(misc)} }} {self.items(TEXT_TAGS)}"

    def ranges(self):
        """Ranges that rise."""
        ends = sorted(self.random.sample(range(1, 60), 6))
        return f"3 {{ {' '.join(map(str, ends))} }}"

    def change(self):
        """A call that changes something, and who makes it: a member, the administrator, or the person whom it logs in."""
        draw, text, other, conference = self.random, self.text(), self.text(), self.conference()
        person, number = draw.choice(self.persons), draw.randrange(300)
        member, strong, place = False, True, number % LOGGED_IN
        kind = draw.choices("write text reading join conference person login".split(), (40, 20, 12, 10, 12, 3, 3))[0]
        if kind == "write":
            return self.write(draw.choice((86, 86, 86, 87))), member
        if kind == "login":
            return f"62 {self.persons[place]} {string(password_of(place))} 0", place
        return draw.choice({
            "text": [
                (f"30 {text} {conference} {draw.choice(RECIPIENT_KINDS)}", member), (f"31 {text} {conference}", strong),
                (f"32 {text} {other}", member), (f"33 {text} {other}", strong), (f"37 {text} {other}", member), (f"38 {text} {other}", strong),
                (f"92 {text} 0 {{ }} {self.items(TEXT_TAGS)}", member), (f"92 {text} 1 {{ {draw.randrange(1, 3)} }} 0 {{ }}", strong),
                (f"29 {text}", draw.random() < 0.5), (f"25 {text} {EVERYTHING}", member), (f"72 {text} {number % 256}", member),
                (f"73 {text}", member)],
            "reading": [
                (f"27 {conference} 2 {{ {draw.randrange(1, 60)} {draw.randrange(1, 60)} }}", member), (f"110 {conference} {self.ranges()}", member),
                (f"77 {conference} {draw.randrange(40)}", member), (f"40 {conference} {draw.randrange(40)}", member)],
            "join": [
                (f"100 {conference} {person} {number % 256} {number % 7} {draw.choice(MEMBERSHIP_KINDS)}", draw.random() < 0.7),
                (f"15 {conference} {person}", draw.random() < 0.5)],
            "conference": [
                (f"93 {conference} 1 {{ {draw.randrange(1, 3)} }} {self.items(CONFERENCE_TAGS)}", strong),
                (f"93 {conference} 0 {{ }} {self.items(CONFERENCE_TAGS)}", strong), (f"3 {conference} {string(f'{self.words(2)} {number}')}", strong),
                (f"16 {conference} {text}", strong), (f"17 {conference} {text}", strong), (f"22 {conference} {number}", strong),
                (f"18 {conference} {draw.choice(self.conferences)}", strong), (f"19 {conference} {draw.choice((0, 0, 0, conference))}", strong),
                (f"20 {conference} {draw.choice(self.conferences)}", strong), (f"97 {conference} {number}", strong),
                (f"105 {conference} {number}", strong)],
            "person": [(f"57 {person} {text}", strong), (f"7 {person} {number:016b}", strong), (f"106 {person} {number % 256:08b}", strong)],
        }[kind])

    def live(self, changes):
        """So many random changes; at the end some of what was made last is gone."""
        for _ in range(changes):
            line, who = self.change()
            if who is True:
                session = self.strong
            else:
                session = self.random.choice(self.sessions) if who is False else self.sessions[who]
            self.make(session, line)
        for conference in self.conferences[-2:]:
            self.make(self.strong, f"11 {conference}")
        for line in (self.write(), self.write(87)):
            self.make(self.sessions[0], line)
            self.make(self.strong, f"29 {self.last}")
        self.make(self.strong, f"11 {self.persons[-1]}")
        gone = self.strong.ask(f"88 {string('drawn last')} 00000000 0 {{ }}")
        self.make(self.strong, f"11 {gone}")

    def make(self, session, line):
        answer = session.try_to(line)
        if answer.startswith("="):
            call = int(line.split()[0])
            self.done[call] += 1
            if call in (86, 87):
                self.last = int(answer[1:])

    def close(self):
        for session in [self.strong, *self.sessions]:
            session.close()


def password_of(number):
    return f"password {number}"


def told(port, administrator=5, password=""):
    """All that a server tells an administrator of each number, but of itself as a person: what was asked, and what was answered."""
    session = Session(port, "looks").login(administrator, password)
    session.ask("42 255")
    conferences, texts = (int(session.ask(call)) for call in ("114", "115"))
    answers = {"next numbers": (conferences, texts)}

    def note(call):
        answers[call] = session.try_to(call)
        return answers[call]

    for number in range(1, conferences):
        for call in (f"91 {number}", f"78 {number}", f"101 {number} 0 2000", f"108 {number} 0 2000 1 0", f"52 {number}"):
            note(call)
        if number != administrator:
            note(f"49 {number}")
        for call in (103, 104):
            first = 1
            # (a part that is followed by others says so in its third word, and where they begin in its second)
            while (part := note(f"{call} {number} {first} {PAGE}").lstrip("=").split(" ", 3))[2:3] == ["1"]:
                first = int(part[1])
    for number in range(1, texts):
        note(f"90 {number}")
        note(f"25 {number} {EVERYTHING}")
    session.close()
    return answers


def told_marks(port, administrator=5, password=""):
    """The marks of each person, as which the administrator logs in: to a strong session any password is right."""
    session, answers = Session(port, "looks"), {}
    session.login(administrator, password).ask("42 255")
    for person in range(1, int(session.ask("114"))):
        session.login(administrator, password).ask("42 255")
        if session.try_to(f"62 {person} 0H 0").startswith("="):
            answers[f"marks of {person}"] = session.ask("23")
    session.close()
    return answers


def different(one, other):
    """What of two such tellings is not the same, a line each."""
    return [f"{call}: {one.get(call)!r:.200} and {other.get(call)!r:.200}" for call in one.keys() | other.keys() if one.get(call) != other.get(call)]
