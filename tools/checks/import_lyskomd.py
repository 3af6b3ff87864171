#!/usr/bin/env python3
"""Tries contrib/komd-import with Debian's lyskom-server: import_lyskomd.py [PROGRAM [CHANGES]]

A lyskomd is started on a copy of the files that its package installs, and a club lives there by so many random changes (3000). It is
brought over as docs/moving.md says, and what both servers tell of each number is compared, as values: lyskomd spells a part of the texts
of a conference otherwise, counts marks otherwise, and still names recipients that are gone.

Only root may run it, since lyskomd listens on all addresses: so all is done in a network of its own (`unshare`), which has this machine
alone. It prints a line for each thing that is otherwise, and a count, and ends with 1 if there is one, else with 0. PROGRAM is the built
`komd` unless it is named.
"""
import os
import pathlib
import shutil
import socket
import subprocess
import sys
import tempfile
import threading
import time

TOP = pathlib.Path(__file__).resolve().parents[2]
sys.path[:0] = [str(TOP / "tools" / "common"), str(TOP / "contrib")]
import protocol_a
from built import program_of, script
from club import Club
from protocol_a import Refused, Reply
from served import Server
from tried import Tried

IMPORT = TOP / "contrib" / "komd-import"
INSTALLED, SETTINGS = pathlib.Path("/var/lib/lyskom-server"), pathlib.Path("/etc/lyskom-server/lyskomd.conf")
PORT, PASSWORD, INSIDE = 4894, "gazonk", "KOMD_IN_A_NETWORK_OF_ITS_OWN"


def start_lyskomd(folder):
    """A lyskomd on a copy of the files that were installed, whose moments are those of UTC."""
    for name in ("lyskomd-data", "lyskomd-texts", "number.txt"):
        shutil.copyfile(INSTALLED / name, folder / name)
    text = SETTINGS.read_text()
    for place in ("/var/lib", "/var/log", "/var/run"):
        text = text.replace(f"{place}/lyskom-server", str(folder))
    (folder / "conf").write_text(f"{text}\nGarb: no\n")
    for path in (folder, *folder.iterdir()):
        shutil.chown(path, "lyskom")
    process = subprocess.Popen(["setpriv", "--reuid", "lyskom", "--clear-groups", "lyskomd", "-f", folder / "conf"],
                               env={**os.environ, "TZ": "UTC"}, stdout=subprocess.DEVNULL, stderr=subprocess.DEVNULL)
    for _ in range(100):
        time.sleep(0.1)
        try:
            protocol_a.Session("127.0.0.1", PORT, b"waits").close()
            return process
        except OSError:
            pass
    sys.exit("lyskomd does not serve")


def know_no_name(folder):
    """A name server that knows no name, since lyskomd waits half a minute for one that does not answer, at each connection."""
    (folder / "resolv.conf").write_text("nameserver 127.0.0.1\n")
    subprocess.run(["mount", "--bind", folder / "resolv.conf", "/etc/resolv.conf"], check=True)
    server = socket.socket(socket.AF_INET, socket.SOCK_DGRAM)
    server.bind(("127.0.0.1", 53))

    def answer():
        while True:
            asked, asker = server.recvfrom(512)
            # (an answer, and the code that there is no such name)
            server.sendto(asked[:2] + b"\x81\x83" + asked[4:], asker)

    threading.Thread(target=answer, daemon=True).start()


def pairs(session, call, number):
    """The texts of a conference, or of a person, by their local numbers."""
    found, first, later = [], 1, True
    while later:
        reply = session.ask_all([(call, number, first, 255)])[0]
        if isinstance(reply, Refused):
            return found
        part, first, later = protocol_a.mapping(reply)
        found += [pair for pair in part if pair[1]]
    return found


def told(port):
    """What a server tells an administrator, as values."""
    values = {}
    with protocol_a.Session("127.0.0.1", port, b"looks") as session:
        session.login(5, PASSWORD.encode())
        session.ask(42, 255)
        conferences, texts = session.ask(114).number(), session.ask(115).number()
        values["next numbers"] = conferences, texts

        def note(call, number, element, *more):
            reply = session.ask_all([(call, number, *more)])[0]
            values[call, number] = (reply.code, reply.status) if isinstance(reply, Refused) else element(reply)
            return values[call, number]

        for number in range(1, conferences):
            note(91, number, protocol_a.conference)
            note(78, number, lambda reply: (reply.word(), reply.bits(8), reply.number(), reply.number()))
            note(101, number, lambda reply: reply.many(protocol_a.member), 0, 2000)
            note(108, number, lambda reply: reply.many(protocol_a.membership), 0, 2000, 1, 0)
            note(52, number, lambda reply: sorted(reply.many(Reply.number)))
            if number != 5:
                note(49, number, protocol_a.person)
            values["texts of", number] = pairs(session, 103, number)
            values["texts by", number] = pairs(session, 104, number)
        there = {number for number in range(1, conferences) if isinstance(values[91, number], protocol_a.Conference)}
        for number in range(1, texts):
            text = note(90, number, protocol_a.text)
            if isinstance(text, protocol_a.Text):
                kept = [to for to in text.recipients if to.conference in there]
                # (by whom a link was made is left out where that was the author)
                kept, parents = ([one._replace(sender=one.sender or text.author) if one.sent is not None else one for one in links]
                                 for links in (kept, text.parents))
                values[90, number] = text._replace(marks=0, recipients=kept, parents=sorted(parents, key=lambda one: one.footnote),
                                                   children=sorted(text.children, key=lambda one: one[0]))
            note(25, number, Reply.word, 0, 2**32 - 1)
    return values


def told_marks(port):
    """The marks of each person."""
    values = {}
    with protocol_a.Session("127.0.0.1", port, b"looks") as session:
        for number in range(1, session.ask(114).number()):
            session.login(5, PASSWORD.encode())
            session.ask(42, 255)
            if not isinstance(session.ask_all([(62, number, b"0H", 1)])[0], Refused):
                values["marks of", number] = sorted(session.ask(23).many(protocol_a.mark))
    return values


def main(given):
    program = program_of(given)
    if INSIDE not in os.environ:
        os.execvpe("unshare", ["unshare", "--net", "--mount", sys.executable, __file__, program, *given[1:]], {**os.environ, INSIDE: "1"})
    subprocess.run(["ip", "link", "set", "lo", "up"], check=True)
    with tempfile.TemporaryDirectory() as name:
        folder = pathlib.Path(name)
        folder.chmod(0o755)
        (folder / "old").mkdir()
        know_no_name(folder)
        tried, old = Tried(program, folder), start_lyskomd(folder / "old")
        try:
            club = Club(PORT, PASSWORD)
            club.live(int(given[1]) if given[1:] else 3000)
            club.close()
            wanted = told(PORT)
            done = subprocess.run([IMPORT, str(PORT), "5", folder / "new", folder / "passwords"], input=f"{PASSWORD}\n", text=True,
                                  capture_output=True, env={**os.environ, "KOMD": program}, check=False)
            print(done.stdout + done.stderr, end="")
            tried.same("bringing over", 0, done.returncode)
            wanted.update(told_marks(PORT))
        finally:
            old.terminate()
            old.wait()
        new = Server(program, folder / "new", 4)
        try:
            found = {**told(new.port), **told_marks(new.port)}
        finally:
            new.kill()
        for asked in wanted:
            tried.same(str(asked), wanted[asked], found.get(asked))
        subprocess.run(["umount", "/etc/resolv.conf"], check=True)
    print(f"{tried.count} things looked at, {tried.failed} are otherwise")
    return 1 if tried.failed else 0


if __name__ == "__main__":
    script(main, __doc__)
