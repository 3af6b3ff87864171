#!/usr/bin/python3
"""Lives evenings of a club in headless Chromium: club_in_browser.py [--front FRONT] [--pictures FOLDER] [--only PART] [KOMD]

It serves stores of its own by `komd serve`, opens contrib/komd-front before them, and uses contrib/web there as members do:

    evening       two browsers: each writes, the other is told within a second, and reads, comments, marks, sends messages
    order         a member's unread texts come in the order that the rule gives, which is worked out here by itself
    secrets       a secret conference is seen by its member alone
    letters       markup, scripts, steering and directions in bodies, subjects, names and messages are shown as letters
    drafts        a reload in the middle of a draft, a second tab, a text of which the answer was lost
    return        the server is killed and returns: the bar, the place, the marks, and what was being written
    keys          reading and writing by keys alone, and where the focus is
    views         each view, narrow and wide, light and dark, by the rules of page_rules.js; --pictures keeps how they look
    emacs         the page beside the Emacs client: each writes, the other is told, and both read in the same order
    large         2,000 memberships and 20,000 unread texts: the first text within two seconds

The page may load nothing from elsewhere and nothing may be refused by its Content-Security-Policy: what a browser complains of is
a departure. It prints a line for each part, says that it skips all where chromium, chromium-driver, python3-selenium or the door is
not there, and ends with 1 where a part fails, else with 0. How long something took is judged only where the machine has a processor
free for it, and told in any case. KOMD is crates/komd/out/komd unless it is named. It takes some minutes.
"""
import argparse
import os
import pathlib
import random
import re
import shutil
import subprocess
import sys
import tempfile
import time

sys.path.insert(0, str(pathlib.Path(__file__).resolve().parents[1] / "common"))
import browsers
from browsers import NARROW, POLL, WIDE, Browser, Front
from built import ROOT, Wrong, built, make_store, script
from protocol import string
from served import ADMINISTRATOR, PATIENCE, Server, Session, folder_in_memory, is_free

PAGE = ROOT / "contrib" / "web"
RULES = pathlib.Path(__file__).with_name("page_rules.js").read_text(encoding="utf-8")
NO_BITS = 8 * "0"
SOON, FIRST_TEXT = 1, 2
UTF8 = f"1 {{ 1 {NO_BITS} 0 {string('text/plain;charset=utf-8')} }}"
NO_ITEMS = "0 { }"


def as_utf8(text):
    """The bytes of a text in UTF-8, as sessions here take them."""
    return text.encode("utf-8").decode("latin-1")


class Club:
    """A store that is served, a door for browsers, and an administrator's session."""

    def __init__(self, komd, front, folder, workers=40):
        self.komd, self.folder, self.browsers, self.persons = komd, folder, [], {}
        self.store = make_store(komd, folder / "store", "secret")
        self.server = Server(komd, self.store, workers)
        port = next(port for port in random.sample(range(30_000, 32_000), 50) if is_free(port))
        self.front = Front(front, PAGE, self.server.port, port)
        self.admin = Session(self.server.port, "admin").login(ADMINISTRATOR, "secret")
        self.admin.ask("42 255")

    def person(self, name, password="pw"):
        """Makes a person."""
        number = int(self.admin.ask(f"89 {string(name)} {string(password)} {NO_BITS} {NO_ITEMS}"))
        self.persons[number] = password
        return number

    def conference(self, name, *members, kind=NO_BITS):
        """Makes a conference with these members."""
        number = int(self.admin.ask(f"88 {string(name)} {kind} {NO_ITEMS}"))
        for person in members:
            self.join(number, person)
        return number

    def join(self, conference, person, priority=100):
        """Makes a person a member, behind its other memberships."""
        self.admin.ask(f"100 {conference} {person} {priority} 65535 {NO_BITS}")
        self.admin.ask(f"102 {person} {conference} {NO_BITS}")

    def session(self, person):
        """A session of a person."""
        return Session(self.server.port, "other").login(person, self.persons[person])

    def browser(self, name=None, size=WIDE, dark=False, password="pw"):
        """A browser, logged in where it has a name."""
        browser = Browser(self.front.address, size, dark)
        self.browsers.append(browser)
        if name:
            browser.login(name, password)
        return browser

    def kill(self):
        """Ends the server by signal 9."""
        self.server.kill()

    def serve_again(self):
        """Serves the store again, at the port that the door knows."""
        again = Server.__new__(Server)
        again.port, reached = self.server.port, False
        while not reached:
            words = [self.komd, "serve", self.store, str(again.port), "40"]
            again.process = subprocess.Popen(words, stdout=subprocess.PIPE, stderr=subprocess.STDOUT)
            reached = again.is_reached(PATIENCE)
        self.server = again

    def end_all(self):
        """Ends what is not ended yet."""
        for browser in self.browsers:
            browser.end()
        self.front.end()
        if not self.server.process.stdout.closed:
            self.server.kill()

    def end(self):
        """Ends all, and fails if a browser complained."""
        logs = [line for browser in self.browsers for line in browser.log()]
        self.end_all()
        wrong = [line for line in logs if "WebSocket" not in line and "favicon" not in line]
        if wrong:
            raise Wrong("a browser complains: " + "\n".join(wrong[:5]))


def write(session, text, *misc, items=NO_ITEMS):
    """Writes a text to what the misc-infos name."""
    return int(session.ask(f"86 {string(text)} {len(misc)} {{ {' '.join(misc)} }} {items}"))


def is_busy():
    """Whether others use the processors, so that a clock tells of them."""
    return os.getloadavg()[0] > (os.cpu_count() or 1)


def soon(what, act):
    """Has something come within a second, and tells how long it took."""
    began = time.monotonic()
    act()
    took = time.monotonic() - began
    if took > SOON and not is_busy():
        raise Wrong(f"{what} took {took:.2f} s")
    return took


def evening(club):
    """Two members write, read and talk."""
    anna, bo = club.person("Anna Ek"), club.person("Bo Berg")
    birds = club.conference("Birds", anna, bo)
    club.conference("Fish")
    one, two = club.browser("an ek"), club.browser(str(bo))
    times = []

    # Anna writes; Bo is told.
    one.click("#conferences button", "All memberships")
    one.click("#conferences a", "Birds")
    one.click("main button", "Write to it")
    one.fill("main input:not([type=search])", "Sparrows")
    one.fill("textarea", "Many of them – and a € for you.\nhttps://example.org/birds?a=1&b=2.")
    one.click("main button", "Preview")
    one.wants(".preview a[href='https://example.org/birds?a=1&b=2'][rel='noopener noreferrer']")
    one.click("main button.main", "Send")
    times.append(soon("the first text", lambda: two.wants("#next", "Go to Birds (1 unread)")))
    two.wants_title("(1)")
    one.wants("article h1", "Sparrows")
    if one.find("#next", "Nothing is unread") is None:
        raise Wrong("one's own text is unread")

    # Bo reads by one key, and comments; Anna reads on.
    two.keys(" ")
    two.wants("article .body", "Many of them – and a € for you.")
    two.wants_not("#next", "Go to Birds")
    two.keys("c")
    two.fill("textarea", "I saw jays.")
    two.click("main button.main", "Send")
    times.append(soon("the comment", lambda: one.wants("#next", "Go to Birds (1 unread)")))
    one.click("#next")
    one.wants("article .body", "I saw jays.")
    one.wants("article .links", "Comment to text 1 by Anna Ek")
    one.wants(".conversation [aria-current]", "Bo Berg")

    # A footnote to one's own text, a private answer, a mark.
    one.go("text/1")
    one.wants("article h1", "Sparrows")
    one.keys("f")
    one.fill("textarea", "Not all of them.")
    one.click("main button.main", "Send")
    times.append(soon("the footnote", lambda: two.wants("#next", "next comment")))
    two.keys("n")
    two.wants("article .links", "Footnote to text 1")
    two.keys("p")
    two.wants("summary", "To Anna Ek; To Bo Berg")
    two.fill("textarea", "Between us.")
    two.click("main button.main", "Send")
    times.append(soon("the letter", lambda: one.wants("#conferences .unread", "Your letters")))
    two.wants("article .links", "Footnote to text 1")
    two.keys("m")
    two.wants("article .meta", "marked by you")
    two.go("marks")
    two.wants(".texts a", "Sparrows")
    if club.session(bo).ask("23") != "1 { 3 100 }":
        raise Wrong("the mark is another")

    # Messages.
    two.go(f"messages/{anna}")
    two.fill("main textarea", "are you there? — <b>yes</b>")
    two.click("main button.main", "Send")
    times.append(soon("a message", lambda: one.wants(".toast .said", "are you there? — <b>yes</b>")))
    one.click(".toast button", "Answer")
    one.wants(".receiver", "To Bo Berg")
    one.fill("main textarea", "I am")
    one.click("main button.main", "Send")
    times.append(soon("the answer", lambda: two.wants(".log .said", "I am")))
    one.go("who")
    one.wants("td", "Bo Berg")

    # Looking for a conference, joining, its priority, leaving.
    one.go("find")
    one.fill(".finder input", "fis")
    one.click(".found button", "Fish")
    one.click("main button.main", "Join")
    one.wants("main summary", "Your membership")
    one.open(one.run("return document.querySelector('main input[type=number]')"))
    one.fill("main input[type=number]", "200")
    one.click("main button", "Change it")
    one.wants(".toast", "changed")
    if club.session(anna).ask(f"107 {anna} {birds + 1} 0 0").split()[11] != "200":
        raise Wrong("the priority is another")
    one.open(one.run("return document.querySelector('main input[type=number]')"))
    one.click("main button", "Leave the conference")
    one.wants("main button.main", "Join")

    # A text is sent on to another conference; a conference is made; another name.
    one.go("text/1")
    one.click("article summary", "More")
    one.click("article button", "Send it on")
    one.fill("dialog .finder input", "fis")
    one.click("dialog .found button", "Fish")
    one.wants("article .links", "To Fish")
    one.go("make")
    one.fill("main input", "Insects")
    one.click("main button.main", "Make it")
    one.wants("main h1", "Insects")
    one.wants("main summary", "Your membership")
    two.go("settings")
    two.fill("main section:nth-of-type(3) input", "Bo B Berg")
    two.click("main button", "Change the name")
    one.go(f"person/{bo}")
    one.wants("main h1", "Bo B Berg")
    two.fill("main section:nth-of-type(3) input", "Bo Berg")
    two.click("main button", "Change the name")
    one.wants("main h1", "Bo Berg")

    # A presentation, the last texts, an own text that is deleted, another password.
    two.go(f"person/{bo}")
    two.click("main a", "Write your presentation")
    two.fill("textarea", "I keep bees.")
    two.click("main button.main", "Send")
    two.wants(".presented .body", "I keep bees.")
    one.go(f"by/{bo}")
    one.wants(".texts a", "Sparrows")
    one.go(f"last/{birds}")
    one.wants(".texts li", "by Anna Ek")
    one.go("text/3")
    one.wants("article", "Footnote to text 1")
    one.click("article summary", "More")
    one.click("article button", "Delete")
    one.click("dialog button", "Delete it")
    one.wants("main h1", "Not shown")
    one.go("settings")
    passwords = [f"main section:nth-of-type(2) .field:nth-of-type({place}) input" for place in (1, 2, 3)]
    for selector, words in zip(passwords, ["pw", "nytt lösen", "nytt lösen"]):
        one.fill(selector, words)
    one.click("main button", "Change the password")
    one.wants(".toast", "Your password is another now.")
    Session(club.server.port, "x").login(anna, "nytt lösen")
    kept = one.run("return JSON.stringify([{ ...localStorage }, { ...sessionStorage }, document.cookie])")
    if "pw" in kept or "lösen" in kept or "l\\u00f6sen" in kept:
        raise Wrong(f"the password is kept: {kept}")
    one.click("#menu button", "Log out")
    one.wants("main h1", "Log in")
    for browser in club.browsers:
        foreign = browser.run("return performance.getEntriesByType('resource').map(({ name }) => name).filter((name) => !name.startsWith(location.origin))")
        if foreign:
            raise Wrong(f"the page loads {foreign}")
    return f"told within {max(times):.2f} s" + (", while others use the processors" if is_busy() else "")


def pairs_of(mapping):
    """The pairs of local and global numbers of a Text-Mapping."""
    words = mapping.split()
    dense, numbers = words[3] == "1", [int(word) for word in words[4:] if word.isdigit()]
    if dense:
        return [(numbers[0] + place, text) for place, text in enumerate(numbers[2:])]
    return list(zip(numbers[1::2], numbers[2::2]))


def stat_of(session, text):
    """Recipients with local numbers, and answers, of a text that has no times in its misc-infos."""
    words = session.ask(f"90 {text}").split()
    count, recipients, answers = int(words[13]), [], []
    infos = [(int(words[15 + 2 * place]), int(words[16 + 2 * place])) for place in range(count)]
    for tag, value in infos:
        if tag in (0, 1, 15):
            recipients.append([value, 0])
        elif tag == 6:
            recipients[-1][1] = value
        elif tag in (3, 5):
            answers.append((-tag, value))
    return [tuple(each) for each in recipients], [value for _, value in sorted(answers)]


def order_by_rule(session, person, conferences):
    """The order of all unread texts by the rule: footnotes and comments first, what was left of those above, then the least local
    number of the conference, then the next conference. `conferences` are the person's, in the order of reading."""
    unread, stats = {}, {}
    for conference in conferences:
        ranges = session.ask(f"107 {person} {conference} 1 0").split()
        read = set()
        if ranges[12] != "0":
            numbers = [int(word) for word in ranges[14 : 14 + 2 * int(ranges[12])]]
            for first, last in zip(numbers[::2], numbers[1::2]):
                read |= set(range(first, last + 1))
        unread[conference] = {local: text for local, text in pairs_of(session.ask(f"103 {conference} 1 255")) if local not in read}
    order, waiting, here = [], [], 0
    while True:
        left = {text for texts in unread.values() for text in texts.values()}
        waiting = [text for text in waiting if text in left]
        if not (waiting or left):
            return order
        if waiting:
            text = waiting[0]
        else:
            if not unread.get(here):
                here = next(each for each in conferences if unread[each])
            text = unread[here][min(unread[here])]
        if text not in stats:
            stats[text] = stat_of(session, text)
        recipients, answers = stats[text]
        for conference, local in recipients:
            unread.get(conference, {}).pop(local, None)
        order.append(text)
        left = {each for texts in unread.values() for each in texts.values()}
        new = [each for each in answers if each in left]
        waiting = new + [each for each in waiting if each not in new and each != text]


def wants_all_read(session, person, conferences):
    """Waits until nothing is unread to the server."""
    end = time.monotonic() + PATIENCE
    while left := order_by_rule(session, person, conferences):
        if time.monotonic() > end:
            raise Wrong(f"to the server {left} are unread")
        time.sleep(POLL)


def read_on(browser, shown):
    """Goes on by a key, and returns the number of the text that comes after those that were shown."""
    browser.keys("n")
    end = time.monotonic() + PATIENCE
    while (number := browser.text_number()) == (shown[-1] if shown else 0) or not number:
        if time.monotonic() > end:
            raise Wrong(f"after {shown} nothing comes")
        time.sleep(0.01)
    browser.wants("article .meta", f"Text {number} ")
    return number


def order(club):
    """Trees of comments over conferences, read to their end."""
    dice = random.Random(5)
    reader, writer = club.person("Rut Holm"), club.person("Vera Dahl")
    names = ["Letters", "Music", "Film"]
    conferences = [club.conference(name, reader, writer) for name in names]
    for conference, priority in zip(conferences, (50, 200, 100)):
        club.admin.ask(f"100 {conference} {reader} {priority} 65535 {NO_BITS}")
    session, texts = club.session(writer), []
    for number in range(80):
        misc, where = [], dice.sample(conferences, 1 if dice.random() < 0.8 else 2)
        if texts and dice.random() < 0.7:
            above = dice.choice(texts[-12:])
            misc.append(f"{4 if dice.random() < 0.2 else 2} {above}")
            if dice.random() < 0.1 and len(texts) > 20 and texts[3] != above:
                misc.append(f"2 {texts[3]}")
        misc += [f"0 {conference}" for conference in where]
        texts.append(write(session, f"Subject {number}\nbody {number}", *misc))
    for text in dice.sample(texts, 5):
        session.ask(f"29 {text}")
    own = club.session(reader)
    for conference in conferences:
        some = sorted(dice.sample([local for local, _ in pairs_of(own.ask(f"103 {conference} 1 255"))], 4))
        own.ask(f"27 {conference} {len(some)} {{ {' '.join(map(str, some))} }}")
    wanted = order_by_rule(own, reader, [conferences[1], conferences[2], conferences[0]])
    browser, shown = club.browser("Rut Holm"), []
    while browser.find("#next", "Nothing is unread") is None and len(shown) < 200:
        shown.append(read_on(browser, shown))
    if shown != wanted:
        place = next((at for at, pair in enumerate(zip(shown, wanted)) if pair[0] != pair[1]), min(len(shown), len(wanted)))
        raise Wrong(f"text {place + 1} of {len(wanted)} is {shown[place:place + 3]}, not {wanted[place:place + 3]}")
    wants_all_read(own, reader, conferences)
    return f"{len(shown)} texts in the order of the rule"


def secrets(club):
    """A conference that its member alone sees."""
    inside, outside = club.person("Inge Lind"), club.person("Ulla Sjö")
    board = club.conference("Conspirators", inside, kind="10100000")
    text = write(club.session(inside), "Plan\nat nine", f"0 {board}")
    one, two = club.browser("Inge Lind"), club.browser("Ulla Sjö")
    one.go(f"conference/{board}")
    one.wants("main h1", "Conspirators")
    one.go(f"text/{text}")
    one.wants("article .body", "at nine")
    for place in [f"conference/{board}", f"text/{text}", f"last/{board}", f"members/{board}", f"messages/{board}", f"person/{board}"]:
        two.go(place)
        two.wants("main h1", None)
        time.sleep(0.3)
        if "Conspirators" in two.text() or "Plan" in two.text() or "nine" in two.text():
            raise Wrong(f"{place} shows what is secret:\n{two.text()[:500]}")
    two.go("find")
    two.fill(".finder input", "cons")
    two.wants(".finder [role=status]", "Nothing has such a name.")
    two.click("main button", "All conferences")
    two.wants("main .rows a")
    two.go(f"person/{inside}")
    two.click("summary", "membership")
    time.sleep(0.3)
    one.go("who")
    two.go("who")
    two.wants("td", "Inge Lind")
    if "Conspirators" in two.text():
        raise Wrong("a secret conference is seen")
    return "seen by its member alone"


HOSTILE = "<script>document.title='x'</script><img src=x onerror=alert(1)>&lt;b&gt; \x1b[31m\x9b5m\x07 \u202eevil\u202c \u2066x\u2069 javascript:alert(1)"
SHOWN = "<script>document.title='x'</script><img src=x onerror=alert(1)>&lt;b&gt; ?[31m?5m? ?evil? ?x? javascript:alert(1)"


def letters(club):
    """What would be markup or would steer is shown as letters."""
    name = "<i>Eve</i> <img src=x>"
    eve, reader = club.person(name), club.person("Rut Holm")
    talk = club.conference("<b>Talk</b> &amp;", eve, reader)
    session = club.session(eve)
    text = write(session, as_utf8(f"{HOSTILE}\n{HOSTILE}\nhttps://example.org/\"onclick=alert(1) http://example.org/<b>\n"), f"0 {talk}", items=UTF8)
    write(session, "Gr\xfc\xdfe\nblå ÿ", f"0 {talk}")
    write(session, as_utf8("漢字 🐦\nשלום עולם"), f"0 {talk}")
    write(session, as_utf8("å as Latin-1"), f"0 {talk}", items=f"1 {{ 1 {NO_BITS} 0 {string('text/x-kom-basic;charset=iso-8859-1')} }}")
    session.ask(f"4 {string('<u>doing</u>')}")
    browser = club.browser("Rut Holm")
    browser.wants("#conferences a", "<b>Talk</b> &amp;")
    browser.keys("n")
    browser.wants("article h1", SHOWN)
    browser.wants("article .body", SHOWN)
    browser.wants(".meta a", name)
    links = browser.run("return [...document.querySelectorAll('.body a')].map((each) => [each.getAttribute('href'), each.rel, each.textContent])")
    if [each[0] for each in links] != ["https://example.org/", "http://example.org/"] or any(each[1] != "noopener noreferrer" for each in links):
        raise Wrong(f"the links are {links}")
    for subject, body in [("Grüße", "blå ÿ"), ("漢字 🐦", "שלום עולם"), ("Ã¥ as Latin-1", "")]:
        browser.keys("n")
        browser.wants("article h1", subject)
        browser.wants("article .body", body) if body else None
    session.ask(f"53 {reader} {string(as_utf8(HOSTILE))}")
    browser.wants(".toast .said", SHOWN)
    browser.wants(".toast .from", name)
    for place in ["who", "messages", f"last/{talk}", f"conference/{talk}", f"person/{eve}", f"write/comment-{text}", f"members/{talk}", f"by/{eve}", "find"]:
        browser.go(place)
        browser.wants("main h1")
        time.sleep(0.3)
        strange = browser.run("""return [...document.querySelectorAll('main *, #toasts *, #conferences *')]
            .filter((each) => ['SCRIPT', 'IMG', 'B', 'I', 'U', 'STYLE', 'IFRAME', 'OBJECT'].includes(each.tagName)
              || [...each.attributes].some(({ name, value }) => name.startsWith('on') || /^\\s*javascript:/i.test(value))).map((each) => each.outerHTML)""")
        if strange:
            raise Wrong(f"{place} has markup of others: {strange}")
        if any(letter in browser.run("return document.body.textContent") for letter in "\x1b\x9b\x07\u202e\u2066"):
            raise Wrong(f"{place} has letters that steer")
    browser.go(f"write/comment-{text}")
    subject = browser.run("return document.querySelector('main input:not([type=search])').value")
    if "<script>" not in subject:
        raise Wrong("the subject of a comment is another")
    browser.click("main button", "Preview")
    browser.wants(".preview h2", SHOWN)
    browser.wants_title("")
    if "x" == browser.driver.title:
        raise Wrong("a script ran")
    # What is typed goes as Latin-1 where it can, and else as UTF-8 that says so.
    for typed, sent, kind in [("blå", "blå", ""), ("Ã¥", as_utf8("Ã¥"), "utf-8"), ("3 €", as_utf8("3 €"), "utf-8")]:
        browser.go(f"write/text-{talk}")
        browser.fill("main input:not([type=search])", "S")
        browser.fill("textarea", typed)
        browser.click("main button.main", "Send")
        browser.wants("article .body", typed)
        number = browser.text_number()
        if session.ask(f"25 {number} 2 999") != string(sent) or (kind in session.ask(f"90 {number}")) is not bool(kind) and kind:
            raise Wrong(f"{typed} is stored as {session.ask(f'25 {number} 0 999')}")
    return "shown as letters"


def drafts(club):
    """A reload, a second tab, and a text of which the answer was lost."""
    anna = club.person("Anna Ek")
    birds = club.conference("Birds", anna)
    one = club.browser("Anna Ek")
    one.go(f"write/text-{birds}")
    one.fill("main input:not([type=search])", "Half a")
    one.fill("textarea", "thought – €")
    one.wants("main [role=status]", "kept")
    one.driver.refresh()
    one.wants("input[name=password]")
    if one.run("return document.querySelector('input[name=name]').value") != "Anna Ek":
        raise Wrong("the name is forgotten")
    one.fill("input[name=password]", "pw")
    one.click("form button[type=submit]")
    one.wants("textarea")
    if one.run("return document.querySelector('textarea').value") != "thought – €":
        raise Wrong("the draft is another after a reload")

    # A second tab of the same member: the draft and what is read are the same in both.
    first = one.driver.current_window_handle
    one.driver.switch_to.new_window("tab")
    one.look(WIDE, False)
    one.login("Anna Ek", "pw")
    second = one.driver.current_window_handle
    one.go(f"write/text-{birds}")
    one.fill("textarea", "more of it")
    one.wants("main [role=status]", "kept")
    one.driver.switch_to.window(first)
    end = time.monotonic() + 5
    while one.run("return document.querySelector('textarea').value") != "more of it":
        if time.monotonic() > end:
            raise Wrong("the other tab shows another draft")
        time.sleep(0.05)
    one.click("main button.main", "Send")
    one.wants("article .body", "more of it")
    one.driver.switch_to.window(second)
    one.wants("main [role=status]", "sent or thrown away in another tab")
    if one.run("return document.querySelector('textarea').value") != "more of it":
        raise Wrong("the text is gone in the other tab")
    one.go("")
    bo = club.person("Bo Berg")
    club.join(birds, bo)
    write(club.session(bo), "New\ntext", f"0 {birds}")
    one.wants("#next", "Go to Birds (1 unread)")
    one.driver.switch_to.window(first)
    one.wants("#next", "(1 unread)")
    one.keys("n")
    one.wants("article .body", "text")
    one.driver.switch_to.window(second)
    one.wants("#next", "Nothing is unread")

    # The server goes while a text is sent, after it was written: it is not written twice.
    one.driver.close()
    one.driver.switch_to.window(first)
    one.go(f"write/text-{birds}")
    one.fill("main input:not([type=search])", "Once")
    one.fill("textarea", "and no more")
    one.wants("main [role=status]", "kept")
    one.run("""
        // The next answer to a text is lost with its connection.
        const send = WebSocket.prototype.send;
        WebSocket.prototype.send = function (data) {
          send.call(this, data);
          if (new TextDecoder().decode(data).includes(" 86 ")) {
            const socket = this;
            WebSocket.prototype.send = send;
            const deaf = socket.onmessage;
            socket.onmessage = () => undefined;
            setTimeout(() => { socket.close(); socket.onclose?.({ code: 1006 }); void deaf; }, 300);
          }
        };""")
    one.click("main button.main", "Send")
    one.wants("article .body", "and no more")
    told = club.session(anna).ask(f"104 {anna} 1 99")
    if len(pairs_of(told)) != 2:
        raise Wrong(f"the texts of the member are {told}")
    return "kept over a reload, the same in two tabs, sent once"


def back(club):
    """The server is killed, and returns."""
    anna, bo = club.person("Anna Ek"), club.person("Bo Berg")
    birds = club.conference("Birds", anna, bo)
    other = club.session(bo)
    first = write(other, "One\nfirst", f"0 {birds}")
    write(other, "Answer\nto the first", f"0 {birds}", f"2 {first}")
    write(other, "Two\nsecond", f"0 {birds}")
    browser = club.browser("Anna Ek")
    browser.keys("n")
    browser.wants("article .body", "first")
    browser.wants("#next", "Read the next comment")
    time.sleep(0.3)
    club.kill()
    browser.wants("#bar", "tried again")
    # The comment is there already: it can be read, and is told to the server later.
    browser.keys("n")
    browser.wants("main h1", None)
    time.sleep(1)
    comment_shown = browser.find("article .body", "to the first") is not None
    browser.go("help")
    browser.wants("main h1", "Help")
    club.serve_again()
    began = time.monotonic()
    browser.wants_not("#bar", seconds=120)
    took = time.monotonic() - began
    browser.go("")
    browser.wants("#next", "Read the next text in Birds (1 unread)" if comment_shown else "Read the next comment")
    write(club.session(bo), "Three\nthird", f"0 {birds}")
    for words in [*([] if comment_shown else ["to the first"]), "second", "third"]:
        browser.keys("n")
        browser.wants("article .body", words)
    wants_all_read(club.session(anna), anna, [birds])
    # A pause while a text is being written: it is kept, and sent when the server is there again.
    browser.go(f"write/text-{birds}")
    browser.fill("main input:not([type=search])", "Later")
    browser.fill("textarea", "when you are back")
    club.kill()
    browser.wants("#bar", "tried again")
    browser.click("main button.main", "Send")
    time.sleep(0.5)
    club.serve_again()
    browser.wants_not("#bar", seconds=120)
    if browser.find("article .body", "when you are back") is None:
        browser.wants("main [role=status], .toast", None)
        browser.click("main button.main", "Send")
    browser.wants("article .body", "when you are back")
    # A wrong password after a pause ends in the way in.
    session = Session(club.server.port, "x").login(ADMINISTRATOR, "secret")
    session.ask("42 255")
    session.ask(f"8 {anna} 0H {string('other')}")
    club.kill()
    browser.wants("#bar", "tried again")
    club.serve_again()
    browser.wants("input[name=password]", seconds=120)
    return f"back {took:.1f} s after the server"


def keys(club):
    """All by keys, and the focus."""
    from selenium.webdriver.common.keys import Keys  # pylint: disable=import-outside-toplevel

    anna, bo = club.person("Anna Ek"), club.person("Bo Berg")
    birds = club.conference("Birds", anna, bo)
    other = club.session(bo)
    write(other, "Long\n" + "\n".join(f"line {number}" for number in range(120)), f"0 {birds}")
    write(other, "Short\nthe end", f"0 {birds}")
    browser = club.browser()
    browser.driver.get(browser.address)
    browser.wants("input[name=name]")
    browser.keys("Anna Ek", Keys.TAB, "pw", Keys.ENTER)
    browser.wants("#prompt")
    focus = lambda: browser.run("return document.activeElement.outerHTML.slice(0, 60)")
    browser.keys(" ")
    browser.wants("article h1", "Long")
    time.sleep(0.2)
    if not focus().startswith("<h1"):
        raise Wrong(f"the focus is at {focus()}")
    presses = 0
    while browser.find("article h1", "Short") is None:
        browser.keys(" ")
        time.sleep(0.15)
        presses += 1
        if presses > 20:
            raise Wrong("the space bar does not go on")
    if presses < 3:
        raise Wrong("the space bar passed over a long text")
    browser.keys("c")
    browser.wants("textarea")
    browser.keys("typed alone")
    browser.keys(Keys.CONTROL + Keys.ENTER)
    browser.wants("article h1", "Short")
    browser.keys("?")
    browser.wants("main h1", "Help")
    browser.keys("/")
    browser.wants("main h1", "Find")
    browser.keys("b")
    browser.wants("article h1", "Short")
    # Every control of the view is reached by Tab.
    wanted = browser.run("""return [...document.querySelectorAll("a[href], button, summary, input, select, textarea")]
        .filter((each) => each.checkVisibility() && !each.disabled).length""")
    browser.run("document.activeElement.blur(); window.reached = new Set(); document.addEventListener('focusin', ({ target }) => reached.add(target))")
    for _ in range(wanted + 5):
        browser.keys(Keys.TAB)
    reached = browser.run("return reached.size")
    if reached < wanted:
        raise Wrong(f"Tab reaches {reached} of {wanted} controls")
    # Letters are no keys where the member does not want them.
    browser.go("settings")
    browser.click("label", "Single letters are keys")
    browser.go("")
    browser.wants("main h1", "Conferences")
    browser.keys("?")
    time.sleep(0.3)
    if browser.find("main h1", "Help"):
        raise Wrong("a letter is a key all the same")
    return f"{presses} space bars for a long text, {reached} controls by Tab"


def views(club, pictures=None):
    """Each view by the rules, in four looks."""
    anna, bo, rut = club.person("Anna Ek"), club.person("Bo Berg"), club.person("Rut Holm")
    birds = club.conference("Birds", anna, bo, rut)
    trees = club.conference("Trees and gardens", anna, bo)
    club.conference("Music", anna)
    other, third = club.session(bo), club.session(rut)
    first = write(other, "The first warblers\nI heard a willow warbler by the lake this morning, two days\nearlier than last year. "
                         "The map is at https://example.org/lake/map.\n\nHas somebody seen the swifts?", f"0 {birds}")
    second = write(third, "The first warblers\nNo swifts here yet. They came on the 9th of May last year.", f"0 {birds}", f"2 {first}")
    write(other, "The first warblers\nThen we wait.", f"0 {birds}", f"2 {second}")
    write(third, "The first warblers\nA chiffchaff, too, at the old mill.", f"0 {birds}", f"2 {first}")
    write(other, "Which lake?\nThe one behind the school?", f"0 {birds}", f"2 {first}")
    write(other, "Grafting\nIs it too late for the apple trees?", f"0 {trees}")
    write(third, "Coffee\nAt three?", f"0 {anna}", f"0 {rut}")
    other.ask(f"16 {bo} {write(other, 'Bo Berg' + chr(10) + 'I count birds, and keep bees.', '0 2')}")
    other.ask("72 1 100")
    club.admin.ask(f"2 0")
    looks = [(size, dark) for size in (WIDE, NARROW) for dark in (False, True)]
    browser, count = club.browser(), 0
    places = ["", f"text/{second}", f"text/{first}", f"write/comment-{first}", "write/text-0", "find", "who", f"messages/{bo}", "marks", "drafts",
              "settings", "help", f"conference/{birds}", f"person/{bo}", f"person/{anna}", f"members/{birds}", f"last/{birds}", f"by/{bo}", "text/99999"]

    def look_at(name):
        nonlocal count
        for size, dark in looks:
            browser.look(size, dark)
            time.sleep(0.12)
            departures = browser.run(RULES)
            if departures:
                raise Wrong(f"{name or 'news'}, {size[0]} wide, {'dark' if dark else 'light'}:\n  " + "\n  ".join(departures))
            count += 1
            if pictures:
                browser.picture(pictures / f"{(name or 'news').replace('/', '-')}-{size[0]}-{'dark' if dark else 'light'}.png")

    browser.driver.get(browser.address)
    browser.wants("input[name=name]")
    look_at("login")
    browser.login("Anna Ek", "pw")
    for place in places:
        browser.go(place)
        browser.wants("main h1")
        time.sleep(0.35)
        if place.startswith("conference"):
            browser.run("document.querySelectorAll('main details').forEach((each) => { each.open = true; })")
        look_at(place)
        # Nothing is waited for in a view that is at rest.
        browser.wants_not("#busy", seconds=10)
    other.ask(f"53 {anna} {string('Are you coming along to the lake on Sunday?')}")
    browser.wants(".toast")
    look_at("toast")
    browser.look(NARROW, False)
    browser.click("#menu-button")
    browser.wants("#menu a", "Help")
    browser.click("#menu-button")
    browser.look(WIDE, False)
    browser.click("#next")
    browser.wants("article")
    club.kill()
    browser.wants("#bar", "tried again")
    look_at("gone")
    return f"{count} looks keep the rules"


# Logs in, goes on as soon as that can be done, and keeps when the first text was there.
FIRST_TEXT_OBSERVED = """
    const seen = window.seen = {};
    const next = document.getElementById("next");
    new MutationObserver(() => {
      if (!seen.next && next.textContent.includes("Go to Conference number")) {
        seen.next = performance.now();
        next.click();
      }
      if (!seen.text && document.querySelector("article .body")) seen.text = performance.now();
    }).observe(document.body, { subtree: true, childList: true, characterData: true });
    seen.began = performance.now();
    document.querySelector("form button[type=submit]").click();"""


def large(club):
    """2,000 memberships and 20,000 unread texts."""
    anna, bo = club.person("Anna Ek"), club.person("Bo Berg")
    count, each = 1_999, 10
    names = [f"Conference number {place}" for place in range(count)]
    conferences = [int(number) for start in range(0, count, 200)
                   for number in club.admin.ask_all([f"88 {string(name)} {NO_BITS} {NO_ITEMS}" for name in names[start : start + 200]])]
    for start in range(0, count, 200):
        club.admin.ask_all([f"100 {conference} {anna} 100 65535 {NO_BITS}" for conference in conferences[start : start + 200]])
    session = club.session(bo)
    calls = [f"86 {string(f'Subject {number}' + chr(10) + 'body')} 1 {{ 0 {conference} }} {NO_ITEMS}"
             for number in range(each) for conference in conferences]
    for start in range(0, len(calls), 200):
        session.ask_all(calls[start : start + 200])
    club.admin.ask_all([f"102 {anna} {conference} {NO_BITS}" for conference in conferences])
    browser = club.browser()
    browser.driver.get(browser.address)
    browser.fill("input[name=name]", "Anna Ek")
    browser.fill("input[name=password]", "pw")
    browser.wants("button[type=submit]", "Log in")
    used, began = browser.processor_seconds(), time.monotonic()
    browser.run(FIRST_TEXT_OBSERVED)
    while not (took := browser.run("return (window.seen.text - window.seen.began) / 1000")):
        if time.monotonic() > began + 120:
            raise Wrong(f"no text comes:\n{browser.text()[:500]}")
        time.sleep(0.5)
    used = browser.processor_seconds() - used
    browser.wants("#conferences .summary", f"{count * each - 1:,} unread texts", 120)
    counted = time.monotonic() - began
    began = time.monotonic()
    for number in range(20):
        before = browser.driver.current_url
        browser.keys("n")
        while browser.driver.current_url == before:
            time.sleep(0.005)
    a_text = (time.monotonic() - began) / 20
    told = f"the first text came {took:.2f} s after the login, for which the browser used {used:.2f} s of its processors"
    if took > FIRST_TEXT and not is_busy():
        raise Wrong(told)
    return f"{told}{', while others use them too' if is_busy() else ''}; all was counted after {counted:.1f} s; a next text in {a_text * 1000:.0f} ms"


def emacs(club):
    """An evening with the Emacs client: each writes, the other is told, and both read a store in the same order."""
    import clients_on_screen as on_screen  # pylint: disable=import-outside-toplevel

    if not (shutil.which("tmux") and on_screen.has_emacs()):
        return f"tmux, Emacs or {on_screen.LIBRARY} is not there: skipped"
    anna, bert = club.person("Anna Ek"), club.person("Bert", "sparrow")
    birds = club.conference("Birds", anna, bert)
    (club.folder / "start.el").write_text("(setq inhibit-startup-screen t)\n" + on_screen.lisp_of_page().replace("4894", str(club.server.port)),
                                          encoding="utf-8")
    screen = on_screen.Screen(club.folder, ["emacs", "-nw", "-q", "-l", str(club.folder / "start.el")], {})
    try:
        on_screen.enter(screen, club.server.port, True)
        browser = club.browser("Anna Ek")
        # The page writes, Emacs reads and comments, the page reads that.
        browser.go(f"write/text-{birds}")
        browser.fill("main input:not([type=search])", "Sparrows")
        browser.fill("textarea", "Grüße, and a € from the page")
        browser.click("main button.main", "Send")
        screen.wants("Read next text -")
        screen.keys("Space")
        screen.wants("Subject: Sparrows\n-*\nGrüße, and a € from the page\n[(]1[)] /Anna Ek/")
        screen.keys("c")
        screen.wants("Comment to text 1 by Anna Ek")
        screen.ask("send-keys", "-l", "Blå from Emacs")
        screen.keys("C-c", "C-c")
        screen.wants("Text 2 has been created")
        told = soon("the comment of Emacs", lambda: browser.wants("#next", "Go to Birds (1 unread)"))
        browser.keys("n")
        browser.wants("article .body", "Blå from Emacs")
        browser.wants("article .links", "Comment to text 1 by Anna Ek")
        # Messages both ways.
        on_screen.command(screen, "kom-send-message")
        screen.answers("Send message to whom", "Anna Ek")
        screen.answers("Message:", "är du där?")
        browser.wants(".toast .said", "är du där?")
        browser.go(f"messages/{bert}")
        browser.fill("main textarea", "ja, det är jag")
        browser.click("main button.main", "Send")
        screen.wants("ja, det är jag")
        # Both read the same trees of comments.
        dice, writer, texts = random.Random(3), club.person("Vera Dahl"), []
        club.join(birds, writer)
        session = club.session(writer)
        for number in range(12):
            above = [f"2 {dice.choice(texts)}"] if texts and dice.random() < 0.7 else []
            texts.append(write(session, f"Subject {number}\nbody {number}", f"0 {birds}", *above))
        browser.go("")
        browser.wants("main h1", "Conferences")
        page, terminal = [], []
        for _ in texts:
            page.append(read_on(browser, page))
        # Emacs has what Bert wrote himself unread, too.
        while len(terminal) < len(texts):
            screen.wants("Read next (text|comment) -")
            before = last_head(screen)
            screen.keys("Space")
            end = time.monotonic() + PATIENCE
            while (number := last_head(screen)) == before:
                if time.monotonic() > end:
                    raise Wrong(f"Emacs shows nothing more after {terminal}:\n{screen.shown()}")
                time.sleep(POLL)
            terminal += [number] if number in texts else []
        if page != terminal:
            raise Wrong(f"the page reads {page}, Emacs {terminal}")
        return f"told within {told:.2f} s, {len(page)} texts in the same order"
    finally:
        screen.end()


def last_head(screen):
    """The number of the last text on a screen of Emacs."""
    return int(re.findall(r"^([0-9]+) .*/[0-9]+ lines?/ ", screen.shown(), re.M)[-1])


PARTS = {"evening": evening, "order": order, "secrets": secrets, "letters": letters, "drafts": drafts, "return": back, "keys": keys, "views": views,
         "emacs": emacs, "large": large}


def main(given):
    words = argparse.ArgumentParser(add_help=False)
    words.add_argument("--front", type=pathlib.Path, default=ROOT / "contrib" / "komd-front")
    words.add_argument("--pictures", type=pathlib.Path)
    words.add_argument("--only", choices=PARTS, action="append")
    words.add_argument("komd", nargs="?", type=pathlib.Path, default=built("komd"))
    arg = words.parse_args(given)
    missing = browsers.missing() or next((f"{each} is not there" for each in (arg.front, arg.komd) if not each.exists()), "")
    if missing:
        print(f"{missing}: all is skipped")
        return 0
    if arg.pictures:
        arg.pictures.mkdir(parents=True, exist_ok=True)
    failed = 0
    for name, part in PARTS.items():
        if arg.only and name not in arg.only:
            continue
        with tempfile.TemporaryDirectory(dir=folder_in_memory()) as folder:
            club = Club(str(arg.komd.resolve()), str(arg.front.resolve()), pathlib.Path(folder))
            try:
                told = part(club, arg.pictures) if part is views else part(club)
                club.end()
                print(f"{name}: {told}", flush=True)
            except Wrong as fault:
                failed = 1
                print(f"{name}: {fault}", flush=True)
            finally:
                club.end_all()
    return failed


if __name__ == "__main__":
    script(main, __doc__)
