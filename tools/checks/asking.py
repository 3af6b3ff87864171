#!/usr/bin/env python3
"""Tries contrib/komd-metrics, komd-log and komd-mbox with the built program: asking.py [PROGRAM]

What the measures are of a server that serves, one whose workers are used up, and none; what is told of who comes and goes; a mailbox
with each text of a person, its bytes, its letters and its tree, as Python's mailbox reads it and, where mutt is installed, as mutt shows
it; and that other words, wrong passwords, files that are there and interrupts leave nothing half done.

It prints a line for each thing that is otherwise, and a count, and ends with 1 if there is one, else with 0. PROGRAM is the built `komd`
unless it is named.
"""
import itertools
import mailbox
import os
import pathlib
import pty
import re
import select
import shutil
import signal
import socket
import subprocess
import sys
import tempfile
import time

TOP = pathlib.Path(__file__).resolve().parents[2]
sys.path.insert(0, str(TOP / "tools" / "common"))
from built import Wrong, make_store, program_of, script
from protocol import string
from served import PATIENCE, Server, Session, folder_in_memory
from tried import Tried

CONTRIB = TOP / "contrib"
SECRET = "a secret password"
UTF8, PICTURE = "1 { 1 00000000 0 24Htext/plain;charset=utf-8 }", "1 { 1 00000000 0 9Himage/png }"
TREE = [("the first", None), ("a comment", 1), ("another one", 1), ("a comment to a comment", 2)]


class Asking(Tried):
    """A server whose administrator has a password, and the tools that ask it."""

    def begin(self, tool, *words, given=SECRET):
        process = subprocess.Popen([str(CONTRIB / tool), *map(str, words)], stdin=subprocess.PIPE, stdout=subprocess.PIPE,
                                   stderr=subprocess.PIPE, text=True, env={**os.environ, "KOMD": self.program})
        process.stdin.write(f"{given}\n")
        process.stdin.flush()
        return process

    def ask(self, tool, *words, given=SECRET):
        """The status, what is printed, and what is complained of."""
        process = self.begin(tool, *words, given=given)
        said, complained = process.communicate(timeout=PATIENCE * 3)
        return process.returncode, said, complained

    def refused(self, what, tool, *words, status=1, given=SECRET):
        """A tool that is to end so, with a line of why."""
        returned, said, complained = self.ask(tool, *words, given=given)
        self.same(what, (status, "", True), (returned, said, complained.startswith(f"{tool}: ") or complained.startswith("usage: ")))

    def usages(self, tool):
        returned, said, _ = self.ask(tool, "--help")
        self.same(f"the usage of {tool}", (0, True), (returned, said.startswith(f"usage: {tool}")))
        self.refused(f"other words of {tool}", tool, "--what", status=2)


def measures(said):
    """The values by their names; each has a line of help and one of its kind before it."""
    found = dict(re.findall(r"^# HELP (\w+) .+\n# TYPE \1 (?:gauge|counter)\n\1 ([\d.]+)$", said, re.MULTILINE))
    if 3 * len(found) != len(said.splitlines()):
        raise Wrong(f"{said!r:.300} are no measures")
    return {name.removeprefix("komd_"): float(value) for name, value in found.items()}


def until(holds):
    """Waits for something, and fails where it does not come."""
    for _ in range(10 * PATIENCE):
        if holds():
            return
        time.sleep(0.1)
    raise Wrong("something does not come")


def try_metrics(tried):
    """Measures of a server, and of none."""
    store, copies = tried.folder / "store", tried.folder / "copies"
    make_store(tried.program, store, SECRET)
    server = Server(tried.program, store, 2)
    words = ["--port", server.port, "--store", store, "--copies", copies, "--seconds", 2]
    try:
        session = Session(server.port).login(5, SECRET)
        session.ask("86 4Htext 0 { } 0 { }")
        subprocess.run([CONTRIB / "komd-backup", "save", store, copies], env={**os.environ, "KOMD": tried.program}, check=True,
                       stdout=subprocess.DEVNULL)
        returned, said, _ = tried.ask("komd-metrics", *words)
        found = measures(said)
        tried.same("measures of a server", 0, returned)
        for name, value in (("up", 1), ("sessions", 2), ("conferences_made_total", 5), ("texts_made_total", 1), ("copies", 1),
                            ("waiting_connections", 0), ("store_bytes", store.stat().st_size)):
            tried.same(name, value, found.get(name))
        for name, least, most in (("answer_seconds", 0, 2), ("resident_bytes", 1e6, 1e8), ("threads", 1, 4), ("copy_age_seconds", 0, 60),
                                  ("store_free_bytes", 1, 1e15)):
            tried.same(name, True, least <= found.get(name, -1) <= most)
        tried.same("measures in a file", (0, "", ""), tried.ask("komd-metrics", *words, tried.folder / "komd.prom"))
        tried.same("its names", set(found), set(measures((tried.folder / "komd.prom").read_text())))
        other = Session(server.port)
        found = measures(tried.ask("komd-metrics", *words)[1])
        tried.same("where all workers have sessions", (0, True), (found["up"], found["waiting_connections"] >= 1))
        other.close()
        session.close()
    finally:
        server.kill()
    tried.same("where nobody listens", 0, measures(tried.ask("komd-metrics", *words)[1])["up"])
    tried.same("what may not be seen", {"up"}, set(measures(tried.ask("komd-metrics", "--port", 1, "--store", "/nowhere", "--copies", "/nowhere")[1])))
    tried.refused("a folder that is not there", "komd-metrics", *words, "/nowhere/komd.prom")
    tried.same("what else is there", ["copies", "komd.prom", "store"], sorted(path.name for path in tried.folder.iterdir()))
    tried.usages("komd-metrics")


def try_log(tried):
    """Who comes and goes."""
    store = tried.folder / "logged"
    make_store(tried.program, store, SECRET)
    server = Server(tried.program, store, 8)
    try:
        for what, *words in (("another password", "--port", server.port, 5), ("another person", "--port", server.port, 77)):
            tried.refused(what, "komd-log", *words, given="wrong")
        log = tried.begin("komd-log", "--port", server.port, 5)
        session = Session(server.port, "hanna")
        person = session.ask(f"89 {string('Anna Åä B')} 2Hpw 00000000 0 {{ }}")
        # (it tells of who comes once it has come in itself, invisibly, and asked for messages)
        until(lambda: re.search(r"{ \d+ 5 ", session.ask("83 0 1 0")))
        time.sleep(0.5)
        session.login(int(person), "pw")
        line = log.stdout.readline()
        tried.same("a login", True, re.fullmatch(rf"\d+-\d+-\d+T\d+:\d+:\d+Z login session \d+ person {person} Anna Åä B as hanna from .+\n", line) is not None)
        session.ask("1")
        line = log.stdout.readline()
        tried.same("a logout", True, re.fullmatch(rf"\S+Z logout session \d+ person {person} Anna Åä B\n", line) is not None)
        tried.same("whether the password is a word", False, SECRET in pathlib.Path(f"/proc/{log.pid}/cmdline").read_text())
    finally:
        server.kill()
    said, complained = log.communicate(timeout=PATIENCE)
    tried.same("the end of the server", (1, "", True), (log.returncode, said, complained.startswith("komd-log: ")))
    tried.refused("no server", "komd-log", "--port", server.port, 5)
    tried.usages("komd-log")


def club_of_texts(session):
    """Texts of each sort: their bodies as bytes of ISO 8859-1, their aux-items, and what they comment."""
    sorts = [(f"{subject}\nthe body of {subject}", "0 { }", parent) for subject, parent in TREE]
    sorts += [("", "0 { }", None), ("no body", "0 { }", 3), ("\xe5\xe4\xf6\nletters of ISO 8859-1: \xe9", "0 { }", None),
              ("Åäö 🐦\nletters of UTF-8: é".encode().decode("latin-1"), UTF8, 4), ("a picture\n\x89PNG\r\n\x1a\n\0\xff", PICTURE, None),
              ("steers\x1b[31m\x07\nFrom the left\n>From the right\n\x1b[0m", "0 { }", None), ("long " * 2000 + "\nend", "0 { }", None)]
    for body, items, parent in sorts:
        misc = [f"0 4"] + ([f"2 {parent}"] if parent else [])
        session.ask(f"86 {string(body)} {len(misc)} {{ {' '.join(misc)} }} {items}")
    return sorts


def try_mbox(tried):
    """Each text as a letter."""
    store, box = tried.folder / "read", tried.folder / "box"
    make_store(tried.program, store, SECRET)
    server = Server(tried.program, store, 4)
    words = ["--port", server.port, 5, box]
    try:
        session = Session(server.port, "writer").login(5, SECRET)
        sorts = club_of_texts(session)
        session.ask("86 4Hgone 0 { } 0 { }")
        session.ask(f"29 {len(sorts) + 1}")
        tried.same("a mailbox", (0, f"{len(sorts)} texts\n", ""), tried.ask("komd-mbox", *words))
        held = box.read_bytes()
        tried.refused("a mailbox that is there", "komd-mbox", *words)
        tried.refused("another password", "komd-mbox", "--port", server.port, 5, tried.folder / "none", given="wrong")
        tried.same("who may read it, and what it is", (0o600, held), (box.stat().st_mode & 0o777, box.read_bytes()))
        for number, (body, items, parent) in enumerate(sorts, 1):
            session.ask(f"86 {string(body)} 0 {{ }} {items}")
        for number, pause in itertools.product((signal.SIGKILL, signal.SIGINT, signal.SIGTERM), (0.05, 0.1, 0.2)):
            stopped = tried.folder / "stopped"
            process = tried.begin("komd-mbox", "--port", server.port, 5, stopped)
            time.sleep(pause)
            process.send_signal(number)
            process.communicate(timeout=PATIENCE)
            if number == signal.SIGKILL:
                # (what that leaves beside the mailbox, the next run takes away)
                stopped.unlink(missing_ok=True)
                continue
            if stopped.exists():
                # (it came once the mailbox had its name)
                tried.same("letters of a mailbox that was interrupted late", 2 * len(sorts), len(mailbox.mbox(stopped)))
                stopped.unlink()
            tried.same("what an interrupt leaves", [], list(tried.folder.glob("stopped*")))
        full_disk(tried, server.port)
    finally:
        server.kill()
    letters = list(mailbox.mbox(box))
    tried.same("the letters", list(range(1, len(sorts) + 1)), [int(letter["X-Kom-Text"]) for letter in letters])
    for letter, (body, items, parent) in zip(letters, sorts):
        what = f"letter {letter['X-Kom-Text']}"
        answered = (f"<{parent}@komd>",) * 2 if parent else (None, None)
        tried.same(f"what {what} answers", (f"<{letter['X-Kom-Text']}@komd>", *answered), (letter["Message-ID"], letter["In-Reply-To"], letter["References"]))
        tried.same(f"from whom {what} is, and to whom", ("Administrator <conference-5@komd>", "News <conference-4@komd>"), (letter["From"], letter["To"]))
        first, _, rest = body.partition("\n")
        data = rest.encode("latin-1") if "long" not in first else body.encode()
        got = letter.get_payload(decode=True)
        if items == PICTURE:
            tried.same(f"the bytes of {what}", ("image/png", data), (letter.get_content_type(), got))
            continue
        wanted = data.decode("utf-8" if items == UTF8 else "latin-1")
        tried.same(f"the letters of {what}", ("text/plain", wanted), (letter.get_content_type(), unquoted(got.decode()).removesuffix("\n") if wanted else ""))
        subject = str(mailbox.email.header.make_header(mailbox.email.header.decode_header(letter["Subject"] or "")))
        shown = first.encode("latin-1").decode("utf-8" if items == UTF8 else "latin-1")
        tried.same(f"the subject of {what}", re.sub("[\x00-\x1f]", "?", shown) if len(shown) <= 200 else shown[:200] + "...", subject)
    if shutil.which("mutt"):
        shows = mutt_shows(box)
        for wanted in (r"the first", r"->a comment", r"->a comment to a comment", r"->another one"):
            tried.same(f"whether mutt shows {wanted}", True, re.search(wanted, shows) is not None)
    tried.refused("no server", "komd-mbox", "--port", server.port, 5, tried.folder / "none")
    tried.same("files half done", [], [path.name for path in tried.folder.iterdir() if path.name.startswith("none")])
    tried.usages("komd-mbox")


def full_disk(tried, port):
    """A file system on which neither a mailbox nor measures have room; a file of measures that was there stays."""
    room = tried.folder / "room"
    room.mkdir()
    if subprocess.run(["mount", "-t", "tmpfs", "-o", "size=12k", "tmpfs", room], capture_output=True, check=False).returncode:
        print("no small file system can be made here, so none was filled")
        return
    try:
        (room / "komd.prom").write_text("komd_up 1\n")
        tried.refused("a mailbox on a full disk", "komd-mbox", "--port", port, 5, room / "box")
        (room / "filler").write_bytes(bytes(8192))
        tried.refused("measures on a full disk", "komd-metrics", "--port", port, room / "komd.prom")
        tried.same("what a full disk has", (["filler", "komd.prom"], "komd_up 1\n"),
                   (sorted(path.name for path in room.iterdir()), (room / "komd.prom").read_text()))
    finally:
        subprocess.run(["umount", room], check=True)
        room.rmdir()


def unquoted(text):
    """What stood in a mailbox in the form mboxrd. (The reader has taken one sign from `>From ` already.)"""
    return re.sub("(?m)^>(>*From )", r"\1", text)


def mutt_shows(box):
    """The letters that a mail reader shows as a tree, each screen that it writes."""
    main, other = pty.openpty()
    words = ["mutt", "-n", "-F", "/dev/null", "-R", "-f", box, "-e", "set sort=threads", "-e", "set ascii_chars folder=/tmp", "-e", "set index_format='%s'"]
    process = subprocess.Popen(words, stdin=other, stdout=other, stderr=other, env={**os.environ, "TERM": "xterm", "LINES": "40", "COLUMNS": "100"},
                               start_new_session=True)
    os.close(other)
    shown, end = b"", time.monotonic() + PATIENCE
    while b"comment to a comment" not in shown and time.monotonic() < end:
        if select.select([main], [], [], 0.5)[0]:
            shown += os.read(main, 65536)
    time.sleep(0.5)
    if select.select([main], [], [], 0)[0]:
        shown += os.read(main, 65536)
    process.kill()
    process.wait()
    os.close(main)
    return re.sub(rb"\x1b\[[0-9;?]*[A-Za-z]|\x1b[()][A-Z0-9]", b"", shown).decode(errors="replace")


def main(given):
    program = program_of(given)
    with tempfile.TemporaryDirectory(dir=folder_in_memory()) as folder:
        tried = Asking(program, None)
        for part in (try_metrics, try_log, try_mbox):
            tried.folder = pathlib.Path(folder) / part.__name__
            tried.folder.mkdir()
            part(tried)
    print(f"{tried.count} things looked at, {tried.failed} are otherwise")
    return 1 if tried.failed else 0


if __name__ == "__main__":
    script(main, __doc__)
