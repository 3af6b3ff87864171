#!/usr/bin/env python3
"""Tells what memory waits for clients that read nothing: unread_memory.py [PROGRAM [WORKERS [ROUNDS [NAME=VALUE..]]]]

`komd serve` has WORKERS (8) workers, and each of them a member who accepts message 15, new-text. In each of ROUNDS (5) another of them
writes texts to a conference of theirs, each with 100 aux-items of 16,384 bytes, while the others read nothing, until as much waits for
each as may; then they read it, and the texts are deleted. Each VALUE stands in the environment of the server, beside what
contrib/komd.service sets there for the C library.

It prints what is resident with all that waits, and after it, in millions of bytes; and ends with 1 if 500 or more are after the last
round, or if something is otherwise, else with 0. It takes some seconds for each round. By hand: the machine needs 1 GB of memory for 8
workers. PROGRAM is the built `komd` unless it is named.
"""
import pathlib
import re
import sys
import tempfile

sys.path.insert(0, str(pathlib.Path(__file__).resolve().parents[1] / "common"))
from built import ROOT, make_store, program_of, script
from protocol import string
from served import Server, Session, folder_in_memory, limit_seconds, stop, wants

ITEMS, ITEM = 100, 16_384
# What may wait for one session.
MOST_WAITING = 33_554_432
# Fewer than so many million bytes are to be left.
MOST_LEFT = 500
LIMIT_SECONDS = 600


def environment_of_unit():
    """What the unit sets for the C library."""
    text = (ROOT / "contrib" / "komd.service").read_text(encoding="utf-8")
    return dict(re.findall(r"^Environment=(MALLOC_\w+)=(\S+)$", text, re.MULTILINE))


def millions(server):
    """What is resident."""
    return server.resident() * 1_024 / 1_000_000


def join(port, count):
    """So many members of a conference, who accept message 15."""
    maker = Session(port, "maker").login()
    maker.ask("88 4HOpen 0000 0 { }")
    persons = [maker.ask(f"89 {string(f'M {place}')} 1Hp 00000000 0 {{ }}") for place in range(count)]
    maker.end()
    members = [Session(port, "member").login(person, "p") for person in persons]
    for person, member in zip(persons, members):
        member.ask_all([f"100 6 {person} 100 0 00000000", "80 1 { 15 }"])
    return members


def attack(server, writer, others):
    """One round: what is resident with all that waits, and after it."""
    items = " ".join(f"2 00000000 0 {string('x' * ITEM)}" for _ in range(ITEMS))
    writer.ask("80 0 { }")
    texts = [writer.ask(f"86 1Ha 1 {{ 0 6 }} {ITEMS} {{ {items} }}") for _ in range(MOST_WAITING // (ITEMS * ITEM))]
    most = millions(server)
    for other in others:
        other.ask("56")
        wants("how many messages a member is sent", len(other.messages), len(texts))
        other.messages.clear()
    writer.ask_all([*(f"29 {text}" for text in texts), "80 1 { 15 }"])
    return most, millions(server)


def main(words):
    program = program_of(words)
    workers, rounds = int(words[1]) if len(words) > 1 else 8, int(words[2]) if len(words) > 2 else 5
    environment = {**environment_of_unit(), **dict(word.split("=", 1) for word in words[3:])}
    limit_seconds(LIMIT_SECONDS)
    with tempfile.TemporaryDirectory(dir=folder_in_memory()) as folder:
        server = Server(program, make_store(program, pathlib.Path(folder) / "store"), workers, environment)
        try:
            members = join(server.port, workers)
            settings = ", ".join(f"{name}={value}" for name, value in environment.items()) or "nothing set"
            print(f"{workers} workers, with {settings}: {millions(server):.0f} before", flush=True)
            for number in range(rounds):
                writer = members[number % workers]
                most, left = attack(server, writer, [member for member in members if member is not writer])
                print(f"round {number + 1}: {most:.0f} while it waits, {left:.0f} after it", flush=True)
            for member in members:
                member.end()
            stop(server).rest()
            wants("the status", server.wait(), 0)
        finally:
            server.kill()
    return 0 if left < MOST_LEFT else 1


if __name__ == "__main__":
    script(main, __doc__)
