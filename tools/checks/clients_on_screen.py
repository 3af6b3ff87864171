#!/usr/bin/env python3
"""Uses the clients that people use, in a terminal, and looks at the screen: clients_on_screen.py [KOMD [KOMC [KOMT]]]

Each part makes a store, has `komd serve` serve it at a port of this machine, and types at a client under tmux:
1. `contrib/kom`, without rlwrap and with it: no password is seen, a text with control bytes neither steers the terminal nor forges a line,
   a text is read, commented on and told to be read, a message comes while a line is half typed, and where the server goes what was
   typed is kept;
2. the Emacs client lyskom-elisp-client as it comes: it logs in, writes, is told of a new text, reads it, comments on it, marks it,
   sends a message and is sent one, and leaves; and it goes wrong where docs/emacs.md says so;
3. the same client with the lines of lisp of docs/emacs.md, with which that goes right;
4. an evening of two members, one at `contrib/kom` and one at that client: they write, comment on each other and send messages, both are
   shown the texts in one order, and after a server that was killed comes back what is unread is shown.
It prints a line for each part, says which it skips since tmux, rlwrap, Emacs or the client is not there, and ends with 1 where one
of them fails. KOMD, KOMC and KOMT are the programs that `rt ci` leaves, unless they are named.
"""
import os
import pathlib
import re
import shlex
import shutil
import signal
import subprocess
import sys
import tempfile
import time

sys.path.insert(0, str(pathlib.Path(__file__).resolve().parents[1] / "common"))
from built import ROOT, Wrong, make_store, program_of, script
from protocol import string
from served import Server, Session

PATIENCE = 20
WHOLE_PATIENCE = 300
ZONE, HOURS_AHEAD = "Asia/Tokyo", 9
LIBRARY = "lyskom-elisp-client"


class Screen:
    """A terminal in which a command runs."""

    def __init__(self, folder, words, settings):
        self.tmux = ["tmux", "-S", tempfile.mkdtemp(dir=folder) + "/tmux", "-f", os.devnull, "-u"]
        given = {"HOME": str(folder), "LC_ALL": "C.UTF-8", "TZ": ZONE, **settings}
        command = shlex.join(["env", *(f"{name}={value}" for name, value in given.items()), *words])
        self.ask("new-session", "-d", "-x", "100", "-y", "60", f"{command}; echo It ended with $?.; sleep {WHOLE_PATIENCE}")

    def ask(self, *words):
        return subprocess.run([*self.tmux, *words], stdout=subprocess.PIPE, check=True, timeout=PATIENCE).stdout.decode()

    def shown(self):
        return "\n".join(line.rstrip() for line in self.ask("capture-pane", "-p").split("\n"))

    def has(self, pattern, seconds):
        """Waits so long for this pattern: whether it came on the screen."""
        until = time.monotonic() + seconds
        while not re.search(pattern, self.shown(), re.M):
            if time.monotonic() > until:
                return False
            time.sleep(0.05)
        return True

    def wants(self, pattern):
        if not self.has(pattern, PATIENCE):
            raise Wrong(f"{pattern!r} does not come on the screen:\n{self.shown().rstrip()}")

    def keys(self, *names):
        self.ask("send-keys", *names)

    def types(self, text):
        """Types a text, and Enter."""
        self.ask("send-keys", "-l", text)
        self.keys("Enter")

    def answers(self, question, text):
        """Answers a question of Emacs, which may forget keys that come with its question."""
        self.wants(question)
        for _ in range(PATIENCE):
            self.keys("C-a", "C-k")
            self.ask("send-keys", "-l", text)
            if self.has(f"{question}[^\n]* {re.escape(text)}$", 1):
                break
        self.keys("Enter")

    def end(self):
        subprocess.run([*self.tmux, "kill-server"], stderr=subprocess.DEVNULL, check=False, timeout=PATIENCE)


def served(komd, folder):
    return Server(komd, make_store(komd, folder / "store", "secret"), 8)


def club(komd, folder):
    """A server with Anna, who is a member of Birds, and a session of the administrator."""
    server = served(komd, folder)
    other = Session(server.port, "other")
    other.ask("62 5 6Hsecret 0")
    other.ask(f"89 {string('Anna Åberg')} 3Hjay {8 * '0'} 0 {{ }}")
    other.ask("88 5HBirds 00001000 0 { }")
    other.ask(f"100 7 6 100 0 {8 * '0'}")
    return server, other


def use_kom(komd, komc, komt, under_rlwrap):
    """Part 1: the client for people."""
    with tempfile.TemporaryDirectory() as name:
        folder = pathlib.Path(name)
        for tool in ["stty", "date"]:
            (folder / tool).symlink_to(shutil.which(tool))
        server, other = club(komd, folder)
        settings = {"KOMC": komc, "KOMT": komt} if under_rlwrap else {"KOMC": komc, "KOMT": komt, "PATH": name}
        words = [str(ROOT / "contrib/kom"), "--port", str(server.port)]
        screen = Screen(folder, words, settings)
        try:
            screen.wants("Name:")
            screen.types("anna")
            screen.wants("Password:")
            screen.ask("send-keys", "-l", "ja")
            screen.keys("C-c")
            screen.wants("It ended with 1[.]")
            if "ja\n" in screen.shown():
                raise Wrong(f"half a password is seen:\n{screen.shown()}")
            screen.end()
            hostile = "Red (wait for news)\n\x1b[31mred\x1b]0;steered\x07\x9b2J\x0e\n* Bert to you: hello"
            other.ask(f"86 {string(hostile)} 1 {{ 0 7 }} 0 {{ }}")
            screen = Screen(folder, [*words, "anna"], settings)
            screen.wants("Password:")
            screen.types("wren")
            screen.wants("The server refused: that is not the password")
            screen.types("jay")
            screen.wants("Welcome, Anna Åberg[.] 1 unread in 1 conference[.]")
            screen.wants(r"^[(]go to Birds, 1 unread[)]$")
            screen.keys("Enter")
            screen.wants(r"^[(]read next text[)]$")
            screen.keys("Enter")
            screen.wants(r"(?m)^Subject: Red [(]wait for news[)]\n-+\n [?]\[31mred[?]\]0;steered[?][?]2J[?]\n [*] Bert to you: hello$")
            screen.wants(r"^[(]wait for news[)]$")
            if other.ask("107 6 7 1 0").split("{")[1].split("}")[0] != " 1 1 ":
                raise Wrong("the text does not count as read")
            screen.types("comment")
            screen.types("Grüße an alle")
            screen.types("..")
            screen.types(".")
            screen.wants("^ Text 2 is written[.]$")
            if other.ask("25 2 0 99") != string("Red (wait for news)\nGrüße an alle\n."):
                raise Wrong("a text that is stored otherwise")
            screen.ask("send-keys", "-l", "half a l")
            other.ask(f"53 6 {string('are you there?')}")
            screen.wants("^[*] Administrator to you: are you there[?]$")
            if under_rlwrap:
                screen.wants(r"^[(]wait for news[)] half a l$")
                screen.keys("C-u")
                screen.keys("Up")
                screen.wants(r"[)] [.]$")
                screen.keys("C-u")
            else:
                screen.keys("C-u")
            screen.types("1")
            screen.wants("^Comment in text 2 by Anna Åberg$")
            if "\x1b[31m" in screen.ask("capture-pane", "-p", "-e") or "steered" in screen.ask("display-message", "-p", "#T"):
                raise Wrong("a text steers the terminal")
            screen.types("write birds")
            screen.types("Half")
            screen.types("a text")
            other.ask("42 255")
            other.ask("44 0")
            other.rest()
            screen.wants("^[*] The server has gone[.] Enter asks for it again[.]$")
            if (folder / ".komt-draft").read_text(encoding="utf-8") != "Half\na text":
                raise Wrong("what was typed is not kept")
            server.process.wait(PATIENCE)
            screen.keys("Enter")
            screen.wants("^[*] Nobody listens there[.] Enter tries again[.]$")
            for password in ["jay", "wren"]:
                if password in screen.shown():
                    raise Wrong(f"a password is on the screen:\n{screen.shown()}")
        finally:
            screen.end()
            server.process.kill()


def has_emacs():
    found = ["emacs", "--batch", "--eval", f'(kill-emacs (if (locate-library "{LIBRARY}") 0 1))']
    return shutil.which("emacs") and subprocess.run(found, stderr=subprocess.DEVNULL, check=False, timeout=PATIENCE).returncode == 0


def lisp_of_page():
    """The lines of lisp of docs/emacs.md, each block of which is tried here."""
    return "\n".join(re.findall(r"```elisp\n(.*?)```", (ROOT / "docs/emacs.md").read_text(encoding="utf-8"), re.S))


def use_emacs(komd, mended):
    """Part 2, or 3 with the lines of lisp of docs/emacs.md."""
    with tempfile.TemporaryDirectory() as name:
        folder = pathlib.Path(name)
        server = served(komd, folder)
        first, anna, bert = (Session(server.port, user) for user in ["first", "anna", "bert"])
        first.ask("62 5 6Hsecret 0")
        for call in [f"89 4HAnna 3Hjay {8 * '0'} 0 {{ }}", f"89 4HBert 7Hsparrow {8 * '0'} 0 {{ }}", "88 5HBirds 0000 0 { }"]:
            first.ask(call)
        first.ask("88 4HFish 0000 0 { }")
        anna.ask("62 6 3Hjay 0")
        bert.ask("62 7 7Hsparrow 0")
        for session, person, conference in [(anna, 6, 8), (bert, 7, 8), (bert, 7, 9)]:
            session.ask(f"100 {conference} {person} 100 0 {8 * '0'}")
        bert.ask("55 0")
        anna.ask("80 2 { 12 15 }")
        lisp = lisp_of_page().replace("4894", str(server.port)) if mended else "(setq kom-default-language '(en))"
        (folder / "start.el").write_text("(setq inhibit-startup-screen t)\n" + lisp, encoding="utf-8")
        screen = Screen(folder, ["emacs", "-nw", "-q", "-l", str(folder / "start.el")], {})
        try:
            enter(screen, server.port, mended)
            write_and_read(screen, first, anna, mended)
            mark_and_send(screen, server.port, anna)
            review(screen, mended)
            move(screen, first, mended)
            leave(screen, first)
        finally:
            screen.end()
            server.process.kill()


def enter(screen, port, mended):
    screen.wants("scratch")
    command(screen, "lyskom")
    if mended:
        screen.wants(f"LysKOM server[?] +localhost:{port}$")
        screen.keys("Enter")
    else:
        screen.answers("LysKOM server[?]", f"localhost:{port}")
    screen.answers("What is your name[?]", "Bert")
    screen.wants("assword")
    screen.types("sparrow")
    screen.wants("You have entered LysKOM")
    screen.wants("Go to next conference -|Review all marked|Read next")
    if "sparrow" in screen.shown():
        raise Wrong("the password is on the screen")
    screen.keys("g")
    screen.answers("Go to conf", "Birds")
    screen.wants("Birds - no unread texts")


def command(screen, name):
    screen.keys("M-x")
    screen.answers("M-x", name)


def write_and_read(screen, first, anna, mended):
    """A text, its comment by another, of which the reader is told, and a comment to that."""
    screen.keys("t")
    screen.wants("Send text to which conference[?] +Birds")
    screen.keys("Enter")
    screen.wants("Write below")
    screen.ask("send-keys", "-l", "Sparrows")
    screen.keys("M->")
    screen.ask("send-keys", "-l", "Grüße aus Emacs")
    screen.keys("C-c", "C-c")
    screen.wants("Text 1 has been created")
    want_message(anna, r":2 15 1 .*")
    if anna.ask("25 1 9 99") != string("Grüße aus Emacs"):
        raise Wrong("text 1 is another")
    screen.wants("Read next text -")
    screen.keys("Space")
    screen.wants("Grüße aus Emacs\n[(]1[)] /Bert/")
    screen.wants("Review all marked .*-")
    anna.ask(f"86 {string('Jays' + chr(10) + 'also many')} 2 {{ 0 8 2 1 }} 0 {{ }}")
    want_message(anna, ":2 15 2 .*")
    screen.wants("Read next (text|comment) -")
    screen.keys("Space")
    screen.wants("Comment to text 1 by Bert\nSubject: Jays\n-*\nalso many\n[(]2[)] /Anna/")
    shown = re.search(r"\n2 .* (\d\d):(\d\d) /1 line/ Anna\n", screen.shown())
    _, minutes, hours = anna.ask("90 2").split()[:3]
    hours = (int(hours) + (HOURS_AHEAD if mended else 0)) % 24
    if not shown or (int(shown[1]), int(shown[2])) != (hours, int(minutes)):
        raise Wrong(f"another time than {hours}:{minutes}:\n{screen.shown()}")
    screen.keys("c")
    screen.wants("Comment to text 2 by Anna")
    screen.ask("send-keys", "-l", "more than that")
    screen.keys("C-c", "C-c")
    screen.wants("Text 3 has been created")
    want_message(anna, r":2 15 3 .* [{] 0 8 6 3 2 2 [}] .*")


def want_message(session, pattern):
    message = session.message()
    if not re.fullmatch(pattern, message):
        raise Wrong(f"{message} in place of {pattern}")
    return message


def mark_and_send(screen, port, anna):
    screen.keys("M")
    screen.answers("Mark which text", "2")
    screen.answers("Set which mark type", "100")
    screen.wants("Marking text 2 .*done")
    bert = Session(port, "bert")
    bert.ask("62 7 7Hsparrow 0")
    if bert.ask("23") != "1 { 2 100 }":
        raise Wrong("the mark is another")
    if bert.ask("107 7 8 1 0").split("{")[1].split("}")[0] != " 1 2 ":
        raise Wrong("other texts are read")
    bert.ask("55 0")
    command(screen, "kom-send-message")
    screen.answers("Send message to whom", "Anna")
    screen.answers("Message:", "are you there?")
    want_message(anna, ":3 12 6 7 14Hare you there[?]")
    anna.ask(f"53 7 {string('yes, I am')}")
    screen.wants("yes, I am")


def review(screen, mended):
    """The last text of Anna in Birds is looked at again."""
    command(screen, "kom-review-by-to")
    screen.answers("Review how many", "1")
    screen.answers("by whom", "Anna")
    screen.answers("to conference", "Birds")
    if mended:
        screen.wants("Review next text -")
        screen.keys("Space")
        screen.wants("(?s)Review last 1 by Anna to Birds.*Subject: Jays\n-*\nalso many")
    else:
        screen.wants("You can't review texts to a closed conference")


def move(screen, first, mended):
    """Text 1 is moved from Birds to Fish, and is to keep a copy in Birds."""
    command(screen, "kom-move-text-tree")
    screen.answers("Which text is the root", "1")
    screen.answers("from where", "Birds")
    screen.wants("What do you want to do")
    screen.keys("m")
    screen.answers("to where", "Fish")
    screen.wants("Leave original recipient")
    screen.keys("y")
    screen.wants("Copy to Birds[.]+done" if mended else "Moving text 1 from Birds to Fish[.]+didn't work")
    screen.wants("What do you want to do")
    screen.keys("q")
    screen.wants(r"\w+ next \w+ -")
    recipients = re.findall(r"\b([01] [89]) 6 ", first.ask("90 1"))
    if recipients != (["0 9", "1 8"] if mended else ["0 9"]):
        raise Wrong(f"the recipients of text 1 are {recipients}")
    read = first.ask("107 7 8 1 0").split("{")[1].split("}")[0]
    if read != (" 1 2 4 4 " if mended else " 1 2 "):
        raise Wrong(f"of Birds{read}is read")


def leave(screen, first):
    screen.keys("q")
    screen.answers("Do you really want to quit", "yes")
    screen.wants("LysKOM session finished")
    if first.ask("83 1 1 0").split()[0] != "2":
        raise Wrong("the session is not ended")
    screen.keys("C-x", "C-c")
    screen.wants("It ended with 0[.]")


def spend_evening(komd, komc, komt):
    """Part 4."""
    with tempfile.TemporaryDirectory() as name:
        folder = pathlib.Path(name)
        server = served(komd, folder)
        first = Session(server.port, "first")
        first.ask("62 5 6Hsecret 0")
        for call in [f"89 4HAnna 3Hjay {8 * '0'} 0 {{ }}", f"89 4HBert 7Hsparrow {8 * '0'} 0 {{ }}", "88 5HBirds 0000 0 { }"]:
            first.ask(call)
        for person, password in [(6, "3Hjay"), (7, "7Hsparrow")]:
            # (whom others make a member is invited, and is asked)
            own = Session(server.port, "own")
            own.ask(f"62 {person} {password} 0")
            own.ask(f"100 8 {person} 100 0 {8 * '0'}")
            own.ask("55 0")
        lisp = lisp_of_page().replace("4894", str(server.port))
        (folder / "start.el").write_text("(setq inhibit-startup-screen t)\n" + lisp, encoding="utf-8")
        bert = Screen(folder, ["emacs", "-nw", "-q", "-l", str(folder / "start.el")], {})
        anna = Screen(folder, [str(ROOT / "contrib/kom"), "--port", str(server.port), "anna"], {"KOMC": komc, "KOMT": komt})
        try:
            enter(bert, server.port, True)
            anna.wants("Password:")
            anna.types("jay")
            anna.wants(r"^[(]wait for news[)]$")
            talk_of_birds(anna, bert)
            read_in_order(anna, bert, first)
            server.kill()
            anna.wants("^[*] The server has gone[.] Enter asks for it again[.]$")
            server = Server(komd, str(folder / "store"), 8, ports=[server.port])
            again = Session(server.port, "again")
            again.ask("62 5 6Hsecret 0")
            again.ask(f"86 {string('Six')} 1 {{ 0 8 }} 0 {{ }}")
            anna.keys("Enter")
            anna.wants("Welcome, Anna[.] 1 unread in 1 conference[.]")
        finally:
            anna.end()
            bert.end()
            server.kill()


def talk_of_birds(anna, bert):
    """A text of Anna's, a comment of Bert's, and messages."""
    anna.types("go birds")
    anna.wants("Birds: 0 unread")
    anna.types("write birds")
    anna.wants("^Subject:")
    for line in ["Sparrows", "how many?", "."]:
        anna.types(line)
    anna.wants("^ Text 1 is written[.]$")
    bert.wants("Read next text -")
    bert.keys("Space")
    bert.wants("Subject: Sparrows\n-*\nhow many[?]\n[(]1[)] /Anna/")
    bert.keys("c")
    bert.wants("Comment to text 1 by Anna")
    bert.ask("send-keys", "-l", "Sju på taket")
    bert.keys("C-c", "C-c")
    bert.wants("Text 2 has been created")
    anna.wants(r"^[(]read next (text|comment)[)]$")
    anna.keys("Enter")
    anna.wants("^Comment to text 1 by Anna\nSubject: Sparrows\n-+\n Sju på taket\n[(]2[)] -+$")
    anna.types("send bert: seven?")
    bert.wants("seven[?]")
    command(bert, "kom-send-message")
    bert.answers("Send message to whom", "Anna")
    bert.answers("Message:", "come and see")
    anna.wants("^[*] Bert to you: come and see$")


def read_in_order(anna, bert, first):
    """Comments are read after what they comment on, and before the next text: 3 and 5 before 4."""
    for subject, misc in [("Three", "2 { 0 8 2 2 }"), ("Four", "1 { 0 8 }"), ("Five", "2 { 0 8 2 3 }")]:
        first.ask(f"86 {string(subject + chr(10) + 'of it')} {misc} 0 {{ }}")
    anna.wants("^[*] Text 5 by Administrator in Birds$")
    for number in (3, 5, 4):
        anna.wants(r"^[(]read next (text|comment)[)]$")
        anna.keys("Enter")
        anna.wants(f"(?m)^[(]{number}[)] -+$")
    # (the client shows one's own text too)
    for number in (2, 3, 5, 4):
        bert.wants("Read next (text|comment) -")
        bert.keys("Space")
        bert.wants(f"^[(]{number}[)] /(Administrator|Bert)/")


def too_long(*_):
    raise Wrong(f"not done after {WHOLE_PATIENCE} seconds")


def main(words):
    komd, komc, komt = program_of(words), program_of(words, 1, "komc"), program_of(words, 2, "komt")
    if not shutil.which("tmux"):
        print("tmux is not there: all is skipped")
        return
    signal.signal(signal.SIGALRM, too_long)
    signal.alarm(WHOLE_PATIENCE)
    use_kom(komd, komc, komt, False)
    print("contrib/kom was used")
    if shutil.which("rlwrap"):
        use_kom(komd, komc, komt, True)
        print("and under rlwrap")
    else:
        print("rlwrap is not there: skipped")
    if not has_emacs():
        print(f"Emacs or {LIBRARY} is not there: skipped")
        return
    use_emacs(komd, False)
    print("the Emacs client did as docs/emacs.md says")
    use_emacs(komd, True)
    print("and with the lines of lisp of that page")
    spend_evening(komd, komc, komt)
    print("and two members spent an evening, one of them at contrib/kom")


if __name__ == "__main__":
    script(main, __doc__)
