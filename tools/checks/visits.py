#!/usr/bin/env python3
"""Has the client `komt` visit over sockets, with lines that come by a pipe: visits.py [KOMD [KOMT]]

It makes a store with two persons and a conference, has `komd serve` serve it at a port of this machine, and wants
1. that a visit shows what it has to, with keys that come at once and one byte at a time; that the text which it showed as the next one
   counts as read there, and one that was only looked at does not; and that what is typed is stored as typed;
2. that it ends with the status of its end: other words, nobody listens, nobody or several called so, another password or one with other
   letters, the keys' end, and call 44, where what was half typed is kept;
3. that Enter alone shows 1,000 unread texts, each once, of an author and in a conference whose names try to forge a line, and that all
   count as read then.
It prints a line for each part, and ends with 1 where one of them fails. KOMD and KOMT are the programs that `rt ci` leaves, unless they
are named.
"""
import os
import pathlib
import re
import socket
import subprocess
import sys
import tempfile

sys.path.insert(0, str(pathlib.Path(__file__).resolve().parents[1] / "common"))
from built import Wrong, make_store, program_of, script
from protocol import string
from served import PATIENCE, Server, Session, wants

NO_BITS = 8 * "0"
# (a name has no letter that steers a terminal)
FORGED, UNREAD = "* Bert: hej (wait for news)", 1000
HOSTILE = "Red (wait for news)\n\x1b[31mred\x9b2J\n* Bert to you: hello"
RULE = 60 * "-"
TYPED = [
    "jay", "", "", "2", "comment 1", "Grüße €", "..", ".", "l", "list bi", "go nowhere", "send bert: hej", "whereami", "xyzzy", "help who",
    "quit",
]
# What is shown for that, each time as TIME.
SHOWN = f"""Welcome, Anna Åberg. 2 unread in 1 conference. `help` lists the commands.
(go to Birds, 2 unread)  Birds: 2 unread
(read next text) 1 TIME /2 lines/ Bert Berg
Recipient: Birds
Subject: Red (wait for news)
{RULE}
 ?[31mred?2J
 * Bert to you: hello
(1) {RULE[1:]}
Comment in text 2 by Bert Berg
(read next comment) 2 TIME /1 lines/ Bert Berg
Recipient: Birds
Comment to text 1 by Bert Berg
Subject: Red
{RULE}
 again
(2) {RULE[1:]}
(read next comment) Subject: Red (wait for news)
 A dot alone ends the text, two dots begin a line with one, `.q` drops it.
 Text 3 is written.
(read next comment)  Which of these: letter, list, leave
(read next comment)       8 member      1 unread  Birds
(read next comment)  Nothing is called so: nowhere
(read next comment)  The server refused: nobody is there to hear it (error 53, 7).
(read next comment)  You are in Birds, where 1 are unread
(read next comment)  ? `help` lists the commands.
(read next comment)  who: lists who is logged in.
 Beside each stand the conference, for how long nothing was done, and what is.
(read next comment) """
TIME = re.compile(r"\d{4}-\d\d-\d\d \d\d:\d\d")
# The words and the keys of visits that are short, with their statuses and the end of what they show.
SHORT = [
    ("other words", ["--speed", "9", "anna"], "jay\n", 1, ""),
    ("nobody", ["nob"], "jay\n", 5, " Nothing is called so: nob\n"),
    ("several", ["a"], "jay\n", 5, " Several are called so:\n       5 Administrator\n       6 Anna Åberg\n"),
    ("another password", ["anna"], "wren\n", 4, " The server refused: that is not the password (error 4, 6).\n"),
    ("a password with other letters", ["anna"], "€\n", 4, " A password has letters of ISO 8859-1 alone.\n"),
    ("no password", ["anna"], "", 0, ""),
    ("a password alone", ["--zone", "-0130", "6"], "jay\n", 0, "(go to Birds, 2 unread) "),
]


class Visit:
    """A client at work, whose visit is to end in time."""

    def __init__(self, komt, *words, home="/nonexistent"):
        pipes = {"stdin": subprocess.PIPE, "stdout": subprocess.PIPE, "stderr": subprocess.DEVNULL}
        self.process = subprocess.Popen([komt, *words], **pipes, env={**os.environ, "HOME": home})

    def ends(self, keys=""):
        """Types the last keys and closes the input; the status, and all that was shown since."""
        shown, _ = self.process.communicate(keys.encode(), PATIENCE)
        return self.process.returncode, shown.decode()

    def types(self, keys):
        """Types these keys."""
        self.process.stdin.write(keys)
        self.process.stdin.flush()

    def wants(self, end):
        """Waits for what is shown to end so."""
        shown = b""
        while not shown.endswith(end):
            if not (byte := self.process.stdout.read(1)):
                raise Wrong(f"{shown!r:.200} does not come to {end!r}")
            shown += byte


def club(komd, folder):
    """A server with Anna (6) and Bert (7), who are members of Birds (8), and Bert's session. Two texts of his stand there."""
    server = Server(komd, make_store(komd, pathlib.Path(folder) / "store", "secret"), 4)
    anna, bert = Session(server.port, "anna"), Session(server.port, "bert")
    anna.ask(f"89 {string('Anna Åberg')} 3Hjay {NO_BITS} 0 {{ }}")
    bert.ask(f"89 {string('Bert Berg')} 4Hwren {NO_BITS} 0 {{ }}")
    anna.ask("62 6 3Hjay 0")
    bert.ask("62 7 4Hwren 0")
    bert.ask("88 5HBirds 00001000 0 { }")
    bert.ask(f"100 8 7 100 0 {NO_BITS}")
    anna.ask(f"100 8 6 100 0 {NO_BITS}")
    anna.ask("55 0")
    bert.ask(f"86 {string(HOSTILE)} 1 {{ 0 8 }} 0 {{ }}")
    bert.ask(f"86 {string('Red' + chr(10) + 'again')} 2 {{ 0 8 2 1 }} 0 {{ }}")
    return server, bert


def whole_visit(komd, komt, at_once):
    """Part 1."""
    with tempfile.TemporaryDirectory() as folder:
        server, bert = club(komd, folder)
        visit = Visit(komt, "--port", str(server.port), "anna")
        try:
            keys = "".join(line + "\n" for line in TYPED).encode()
            for piece in [keys] if at_once else [keys[place : place + 1] for place in range(len(keys))]:
                visit.types(piece)
            status, shown = visit.ends()
            wants("the visit", (status, TIME.sub("TIME", shown)), (0, SHOWN))
            wants("what is read", " { 1 1 3 3 } " in bert.ask("107 6 8 1 0"), True)
            wants("the text", bert.ask("25 3 0 99"), string("Red (wait for news)\nGrüße €\n.".encode().decode("latin-1")))
        finally:
            visit.process.kill()
            server.process.kill()


def ends(komd, komt):
    """Part 2."""
    with socket.socket() as probe:
        probe.bind(("127.0.0.1", 0))
        free = str(probe.getsockname()[1])
    wants("nobody listens", Visit(komt, "--port", free, "anna").ends(), (3, "* Nobody listens there. Enter tries again.\n"))
    with tempfile.TemporaryDirectory() as folder:
        server, _ = club(komd, folder)
        visit = Visit(komt, "--port", str(server.port), "anna", home=folder)
        try:
            for what, words, keys, status, shown in SHORT:
                told, all_shown = Visit(komt, "--port", str(server.port), *words).ends(keys)
                wants(what, (told, all_shown[len(all_shown) - len(shown) :]), (status, shown))
            visit.types(b"jay\nwrite birds\nHalf\na text\n")
            visit.wants(b"`.q` drops it.\n")
            administrator = Session(server.port, "administrator")
            for call in ["62 5 6Hsecret 0", "42 255", "44 0"]:
                administrator.ask(call)
            administrator.rest()
            visit.wants(b"* The server has gone. Enter asks for it again.\n")
            wants("the end of the server", visit.ends(), (3, ""))
            wants("what was half typed", (pathlib.Path(folder) / ".komt-draft").read_text(encoding="utf-8"), "Half\na text")
        finally:
            visit.process.kill()
            server.process.kill()


def reads_to_the_end(komd, komt):
    """Part 3."""
    with tempfile.TemporaryDirectory() as folder:
        server, bert = club(komd, folder)
        visit = Visit(komt, "--port", str(server.port), "--rows", "1000", "anna")
        try:
            bert.ask(f"3 7 {string(FORGED)}")
            bert.ask(f"3 8 {string(FORGED + '!')}")
            # (every third text comments on the one before it)
            bert.ask_all([f"86 {string(f'Text{chr(10)}{number}')} {f'2 {{ 0 8 2 {number - 1} }}' if number % 3 == 0 else '1 { 0 8 }'} 0 {{ }}"
                          for number in range(3, UNREAD + 1)])
            status, shown = visit.ends("jay\n" + (UNREAD + 2) * "\n" + "quit\n")
            wants("the end of the texts", (status, shown.endswith("(wait for news) ")), (0, True))
            wants("each text once", [int(number) for number in re.findall(r"^\((\d+)\) -", shown, re.M)], [*range(1, UNREAD + 1)])
            wants("what steers", [letter for letter in shown if letter != "\n" and not letter.isprintable()], [])
            wants("the lines that others begin", [line for line in shown.split("\n") if line.startswith(("* ", FORGED))], [])
            wants("how the author is called", len(re.findall(rf"/\d lines/ {re.escape(FORGED)}\n", shown)), UNREAD)
            wants("what is read", f" {{ 1 {UNREAD} }} " in bert.ask("107 6 8 1 0"), True)
        finally:
            visit.process.kill()
            server.process.kill()


def main(words):
    komd, komt = program_of(words), program_of(words, 1, "komt")
    whole_visit(komd, komt, True)
    whole_visit(komd, komt, False)
    print(f"{len(TYPED)} lines that are typed show what they have to, and a text counts as read that was shown")
    ends(komd, komt)
    print(f"visits end with their status: {len(SHORT)} short ones, where nobody listens, and after call 44, with what was typed kept")
    reads_to_the_end(komd, komt)
    print(f"{UNREAD} texts are read to the end by Enter")


if __name__ == "__main__":
    script(main, __doc__)
