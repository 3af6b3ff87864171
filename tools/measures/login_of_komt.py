#!/usr/bin/env python3
"""Measures how `komt` logs a member in who has much unread: login_of_komt.py [KOMD [KOMT [CONFERENCES [TEXTS]]]]

It serves a store in memory in which a member is in so many conferences (1,999), to which others wrote so many texts (20,000). Then
`komt` logs the member in by name, with its lines by a pipe, and reads the next text. Printed are the seconds to the first prompt and from
there to the text; the greatest memory that `komt` had resident; and, where there is strace, how often it sent something before the first
prompt. KOMD and KOMT are the built programs unless they are named.
"""
import pathlib
import re
import shutil
import subprocess
import sys
import tempfile
import time

sys.path.insert(0, str(pathlib.Path(__file__).resolve().parents[1] / "common"))
from built import Wrong, make_store, program_of, script
from protocol import string
from served import Server, Session, folder_in_memory

# (the letterbox is one more, and a person may be a member of 2,000)
CONFERENCES, TEXTS, TOGETHER = 1_999, 20_000, 500
NO_BITS = 8 * "0"
PROMPT, READ = re.compile(rb"\(go to [^\n]*\) $"), re.compile(rb"\(\d+\) -+\n")


def make_club(port, conferences, texts):
    """Conferences, a member of all, and texts of somebody else, spread over them."""
    session, member = Session(port), Session(port)
    member.ask(f"89 {string('Anna Berg')} 3Hjay {NO_BITS} 0 {{ }}")
    session.ask("62 5 6Hsecret 0")
    calls = [f"88 {string(f'Conference {number}')} 00001000 0 {{ }}" for number in range(conferences)]
    calls += [f"100 {7 + number} 6 100 {number} {NO_BITS}" for number in range(conferences)]
    calls += [f"86 {string(f'Text {number}' + chr(10) + 'a line of it. ' * 9)} 1 {{ 0 {7 + number % conferences} }} 0 {{ }}" for number in range(texts)]
    for first in range(0, len(calls), TOGETHER):
        session.ask_all(calls[first : first + TOGETHER])


def shown_until(process, pattern):
    """Reads what is shown until it ends so."""
    shown = b""
    while not pattern.search(shown):
        if not (some := process.stdout.read1(1 << 16)):
            raise Wrong(f"{shown[-300:]!r} does not come to {pattern.pattern!r}")
        shown += some
    return shown


def login(komt, port, before=()):
    """The seconds to the first prompt, from there to the first text, and the greatest memory, in KiB."""
    begin = time.monotonic()
    process = subprocess.Popen([*before, komt, "--port", str(port), "anna berg"], stdin=subprocess.PIPE, stdout=subprocess.PIPE)
    try:
        process.stdin.write(b"jay\n")
        process.stdin.flush()
        shown_until(process, PROMPT)
        prompt = time.monotonic()
        status = pathlib.Path(f"/proc/{process.pid}/status").read_text(encoding="ascii")
        process.stdin.write(b"\n\n")
        process.stdin.flush()
        shown_until(process, READ)
        return prompt - begin, time.monotonic() - prompt, int(re.search(r"VmHWM:\s*(\d+) kB", status)[1])
    finally:
        process.kill()
        process.communicate()


def sends(komt, port):
    """How often something was sent before the first prompt, by strace."""
    with tempfile.NamedTemporaryFile() as told:
        login(komt, port, ["strace", "-f", "-e", "trace=sendto,sendmsg,write,writev", "-o", told.name])
        lines = pathlib.Path(told.name).read_text(encoding="latin-1").splitlines()
    until = next(place for place, line in enumerate(lines) if "(go to " in line)
    # (what is shown is written to descriptor 1)
    return sum(not re.search(r"write\(1,", line) and "(" in line for line in lines[:until])


def main(words):
    komd, komt = program_of(words), program_of(words, 1, "komt")
    conferences, texts = (int(words[place]) if len(words) > place else usual for place, usual in ((2, CONFERENCES), (3, TEXTS)))
    with tempfile.TemporaryDirectory(dir=folder_in_memory()) as folder:
        server = Server(komd, make_store(komd, pathlib.Path(folder) / "store", "secret"), 4)
        try:
            make_club(server.port, conferences, texts)
            for _ in range(3):
                prompt, text, memory = login(komt, server.port)
                print(f"{prompt:.2f} s to the first prompt, {text:.2f} s to the first text, {memory} KiB")
            if shutil.which("strace"):
                print(f"{sends(komt, server.port)} times something was sent before the first prompt")
        finally:
            server.kill()


if __name__ == "__main__":
    script(main, __doc__)
