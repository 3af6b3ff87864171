#!/usr/bin/env python3
"""Drives the built program `komd` with its word `serve`, or `hub`, over loopback: serve_sessions.py [PROGRAM [hub] [CONNECTIONS [KILLS]]]

In a folder of its own it makes stores, serves them, and looks at
1. words that are refused, a port that is taken, a store that is served already, and both kinds of addresses;
2. two workers that serve side by side while each waits for the other's client, and a third client, who waits for one of them with
   `serve`, and with `hub` does not;
3. a session that is sent its messages while it makes no call;
4. with three workers, a session that takes nothing while texts are written to a conference of its person: with 4,000 messages
   waiting it goes on, with 4,161 more than its connection takes it has ended;
5. peers that reset, end what they send, send a byte a second, send nothing, or never read, beside sessions that go on meanwhile;
6. 64 connections, or as many as are named, with `serve` a worker for each, with `hub` two for all: each makes a person, logs in, joins a conference, writes a text and
   is told of those of all others, reads, marks it as read, adds an aux-item, sends a message, and disconnects itself, or is
   disconnected;
7. call 44 while connections are idle: the server ends with status 0 within a second;
8. signal 9 while all connections write texts, once, or so often as is said, at random moments: each text that was answered is there after
   the next start.

It prints a line for each part, takes half a minute and some seconds for each kill more, and ends with 1 at the first thing that is
otherwise, or after a minute and a quarter of one for each kill more, else with 0. It ends each server that it starts. PROGRAM is the built `komd` unless it is named.
"""
import pathlib
import random
import re
import select
import signal
import socket
import struct
import subprocess
import sys
import tempfile
import threading
import time

sys.path.insert(0, str(pathlib.Path(__file__).resolve().parents[1] / "common"))
from built import USAGE, Wrong, check_store, make_store, program_of, script
from protocol import TIME, string
from served import PATIENCE, Server, Session, folder_in_memory, has_ipv6, limit_seconds, side_by_side, stop, wants

LIMIT_SECONDS, LIMIT_OF_A_KILL = 60, 15
MOST_WAITING = 4_096
FEW_WAITING = 4_000
MOST_DRAINED = 64
STOP_SECONDS = 1.0
# What a connection of the system may hold of what was written to it is less than this many bytes.
HELD = 12_000_000
LONGEST_MESSAGE = 10_000
# A message is seen, and a call answered, in far less; the machine may be busy.
SOON = 5.0


# By which word the stores are served; with `hub` two workers have all connections.
word, HUB_WORKERS = "serve", 2


def serve(program, store, connections):
    """A store that is served to so many connections."""
    return Server(program, store, connections if word == "serve" else min(connections, HUB_WORKERS), word=word)


def words(program, folder):
    """Part 1: the words that are refused."""
    store = str(folder / "s")
    for line in ([], [word, store, "0", "4"], [word, store, "4894", "65"], [word, store, "65536", "4"],
                 [word, store, "4894", "0"], [word, store, "4894"], [word, "", "4894", "4"],
                 [word, store, "0004894", "4"], [word, store, "4894", "4", "4"], [word, store, "+4894", "4"]):
        done = subprocess.run([program, *line], capture_output=True, timeout=PATIENCE, check=False)
        wants(f"komd {' '.join(line)}", (done.returncode, done.stdout, done.stderr), (2, USAGE, b""))
    if pathlib.Path(store).exists():
        raise Wrong("refused words leave a file")
    done = subprocess.run([program, word, str(folder / "none" / "s"), "4894", "1"], capture_output=True, check=False)
    wants("the status where a store's folder is missing", (done.returncode, done.stdout, done.stderr), (3, b"", b""))


def ports(program, folder):
    """Part 1: a port that is taken, a store that is in use, and addresses."""
    first, other = make_store(program, folder / "first"), make_store(program, folder / "other")
    server = serve(program, first, 4)
    try:
        done = subprocess.run([program, word, other, str(server.port), "4"], capture_output=True, timeout=PATIENCE, check=False)
        wants("the status at a port that is taken", (done.returncode, done.stdout, done.stderr), (5, b"", b""))
        wants("the check of the store after that", check_store(program, other)[0], 0)
        done = subprocess.run([program, word, first, "19999", "4"], capture_output=True, timeout=PATIENCE, check=False)
        wants("the status over a store that is served", (done.returncode, done.stdout, done.stderr), (3, b"", b""))
        wants("the check of a store that is served", check_store(program, first)[0], 3)
        addresses = ["127.0.0.1"] + (["::1"] if has_ipv6() else [])
        for address in addresses:
            session = Session(server.port, "here", address)
            number = session.ask("56")
            told = session.ask(f"84 {number}")
            if not re.fullmatch(f"4Hhere {re.escape(string(address))} 0H {TIME}", told):
                raise Wrong(f"a session from {address} is told as {told!r}")
            wants("what comes after the end", session.end(), [])
        wants("what comes after call 44", stop(server).rest(), [])
        wants("the status after call 44", server.wait(), 0)
        wants("the check of the store after that", check_store(program, first)[0], 0)
    finally:
        server.kill()
    return addresses


def beside(program, folder):
    """Part 2: two workers, each of which waits for the other's client."""
    server = serve(program, make_store(program, folder / "beside"), 2)
    try:
        one = Session(server.port, "a")
        wants("the first session", one.ask("56"), "1")
        other = Session(server.port, "b")
        wants("the second session", other.ask("56"), "2")
        third = Session(server.port, None)
        third.write("A1Hc\n1 56\n")
        wants("a later call of the first session", one.ask("56"), "1")
        if word == "serve":
            third.socket.settimeout(0.4)
            try:
                raise Wrong(f"a third client has {third.socket.recv(100)!r} from two workers that are busy")
            except TimeoutError:
                third.socket.settimeout(PATIENCE)
            wants("what follows the end of the first session", one.end(), [])
        wants("what the third client reads then", (third.line(), third.line()), ("LysKOM", "=1 3"))
        if word == "hub":
            wants("what follows the end of the first session", one.end(), [])
        wants("what follows the end of the others", (other.end(), third.end()), ([], []))
        stop(server).rest()
        wants("the status", server.wait(), 0)
    finally:
        server.kill()


def idle(program, folder):
    """Part 3: a session that makes no call is sent its messages."""
    server = serve(program, make_store(program, folder / "idle"), 2)
    try:
        listener, sender = Session(server.port, None), Session(server.port, None)
        listener.write("A1Hb\n1 62 5 0H 0\n2 80 1 { 12 }\n")
        wants("what the listener reads", [listener.line() for _ in range(3)], ["LysKOM", "=1", "=2"])
        sender.write("A1Ha\n1 62 5 0H 0\n")
        wants("what the sender reads", [sender.line() for _ in range(2)], ["LysKOM", "=1"])
        start = time.monotonic()
        sender.write("2 53 0 2Hyo\n")
        wants("what the idle listener reads", listener.line(), ":3 12 0 5 2Hyo")
        took = time.monotonic() - start
        wants("what the sender reads then", sender.line(), "=2")
        sender.write("3 56\n")
        # (the first session was that of nobody: who looked whether the server listens sent no greeting)
        wants("the sender's last reply", sender.line(), "=3 2")
        wants("what follows the ends", (listener.end(), sender.end()), ([], []))
        if took > SOON:
            raise Wrong(f"a message to an idle session takes {took:.2f} s")
        stop(server).rest()
        wants("the status", server.wait(), 0)
    finally:
        server.kill()


def overrun(program, folder):
    """Part 4: a session that takes nothing, with three workers."""
    server = serve(program, make_store(program, folder / "overrun"), 3)
    try:
        writer = Session(server.port, "writer").login()
        made = writer.ask_all(["88 4HOpen 0000 0 { }", "89 2HBo 2Hbo 00000000 0 { }", "89 2HCy 2Hcy 00000000 0 { }"])
        wants("the numbers that are made", made, ["6", "7", "8"])
        third = Session(server.port, "third").login(8, "cy")
        third.ask("100 6 8 100 0 00000000")
        third_number = third.ask("56")
        fill = HELD // LONGEST_MESSAGE
        for texts in (FEW_WAITING - fill, MOST_WAITING + MOST_DRAINED + 1):
            silent = Session(server.port, "silent", receive=4_096).login(7, "bo")
            silent.ask("100 6 7 100 0 00000000")
            silent.ask("80 2 { 12 15 }")
            number = silent.ask("56")
            writer.ask_all([f"53 7 {string(f'{place:05} ' + 'x' * (LONGEST_MESSAGE - 6))}" for place in range(fill)])
            # (its worker has begun to send; the texts do not reach it, since the connection is full before all messages are sent)
            if not select.select([silent.socket], [], [], PATIENCE)[0]:
                raise Wrong("a session is sent none of its messages")
            first = int(writer.ask("115"))
            told = writer.ask_all(["86 1Ha 1 { 0 6 } 0 { }"] * texts)
            wants("the numbers of the texts", told, [str(first + place) for place in range(texts)])
            read = sum(1 for _ in until_end_or(silent, fill + texts, first, fill))
            if texts > MOST_WAITING:
                if not 1 <= read <= fill:
                    raise Wrong(f"a session with {texts} texts more than it takes was sent {read} messages of {fill + texts}")
                ended = read
                wants("call 84 of an overrun session that has ended", third.try_to(f"84 {number}"), f"%42 {number}")
                silent.close()
            else:
                wants("the messages that wait for a session that reads late", read, fill + texts)
                wants("its next call", silent.ask("56"), number)
                wants("what follows its end", silent.end(), [])
        wants("the third session's call", third.ask("56"), third_number)
        third.end()
        writer.end()
        stop(server).rest()
        wants("the status", server.wait(), 0)
        return FEW_WAITING, ended, fill + texts
    finally:
        server.kill()


def until_end_or(session, most, first, fill):
    """The messages of a session up to the end of its connection, so many at most: each is the next one that was sent."""
    for place in range(most):
        line = session.line()
        if line is None:
            return
        want = f":3 12 7 5 {LONGEST_MESSAGE}H{place:05} " if place < fill else f":2 15 {first + place - fill} "
        if not line.startswith(want):
            raise Wrong(f"message {place} begins {line[:40]!r}, not {want!r}")
        yield line


def peers(program, folder):
    """Part 5: peers that do not behave, and sessions beside them."""
    good, bad = 8, 6
    server = serve(program, make_store(program, folder / "peers"), good + 4 * bad + 2)
    try:
        before = server.resident()
        slow = Session(server.port, None)
        slow.write("A1Hs\n")
        wants("the slow peer's greeting", slow.line(), "LysKOM")
        slower = threading.Thread(target=lambda: [slow.write(byte) or time.sleep(1) for byte in "1 56\n"], daemon=True)
        slower.start()
        silent = Session(server.port, None)
        unread = []
        for number in range(bad):
            reset = Session(server.port, f"reset{number}").login()
            reset.write("2 56\n3 86 100Hhalf of it")
            cut_off(reset)
            unread.append(Session(server.port, f"unread{number}", receive=4_096))
            flood(unread[-1])
            again = Session(server.port, f"flood{number}", receive=4_096)
            flood(again)
            cut_off(again)
            halved = Session(server.port, f"halved{number}")
            halved.write("".join(f"{place} 56\n" for place in range(1, 501)) + "501 5")
            halved.socket.shutdown(socket.SHUT_WR)
            lines = halved.rest()
            if len(lines) != 500 or any(line.split()[0] != f"={place}" for place, line in enumerate(lines, 1)):
                raise Wrong(f"a peer that ended what it sends has {len(lines)} replies, last {lines[-1:]!r}")

        def work(number):
            session = Session(server.port, f"good{number}").login()
            for place in range(100):
                start = time.monotonic()
                body = f"{number} {place}"
                text = session.ask(f"86 {string(body)} 0 {{ }} 0 {{ }}")
                wants("a text beside such peers", session.ask(f"25 {text} 0 99"), string(body))
                if time.monotonic() - start > SOON:
                    raise Wrong(f"two calls beside such peers take {time.monotonic() - start:.1f} s")
            wants("what follows the end", session.end(), [])

        side_by_side(good, work)
        slower.join()
        wants("the slow peer's reply", re.sub(" .*", "", slow.line() or ""), "=1")
        grown = server.resident() - before
        if grown > 16_384:
            raise Wrong(f"the server has {grown} KiB more resident with such peers")
        for peer in [*unread, slow, silent]:
            cut_off(peer)
        seen = Session(server.port, "looker")
        end = time.monotonic() + SOON
        while (left := seen.ask("83 1 1 0").split(" ", 1)[0]) != "1":
            if time.monotonic() > end:
                raise Wrong(f"{left} sessions are left of peers that have gone")
            time.sleep(0.05)
        seen.end()
        stop(server).rest()
        wants("the status", server.wait(), 0)
        return 3 * bad + bad + 2, good, grown
    finally:
        server.kill()


def cut_off(session):
    """Closes a connection by a reset."""
    session.socket.setsockopt(socket.SOL_SOCKET, socket.SO_LINGER, struct.pack("ii", 1, 0))
    session.close()


def flood(session):
    """Sends calls with long replies until the server takes no more."""
    session.socket.settimeout(0.2)
    calls = "1 85\n" * 10_000
    try:
        for _ in range(200):
            session.write(calls)
    except TimeoutError:
        return
    raise Wrong("a peer that never reads is read without an end")


def talk(server, count):
    """Part 6: each of so many connections does what a person does."""
    first = Session(server.port, "first").login()
    conference = int(first.ask(f"88 {string('Open')} 0000 0 {{ }}"))
    wants("what follows call 55", (first.ask("55 0"), first.rest()), ("", []))
    persons, numbers = [0] * count, [0] * count
    made, written, ended = (threading.Barrier(count, timeout=PATIENCE) for _ in range(3))

    def one(number):
        session = Session(server.port, f"user{number}")
        person = persons[number] = int(session.ask(f"89 {string(f'Person {number}')} {string('secret')} 00000000 0 {{ }}"))
        session.login(person, "secret")
        numbers[number] = int(session.ask("56"))
        session.ask(f"100 {conference} {person} 100 0 00000000")
        session.ask("80 2 { 12 15 }")
        made.wait()
        body = f"text\nof {number}"
        text = int(session.ask(f"86 {string(body)} 1 {{ 0 {conference} }} 0 {{ }}"))
        wants("a text", session.ask(f"25 {text} 0 4294967295"), string(body))
        stat = session.ask(f"90 {text}")
        found = re.fullmatch(rf"{TIME} {person} 1 {len(body)} 0 2 {{ 0 {conference} 6 (\d+) }} 0 \*", stat)
        if not found:
            raise Wrong(f"a text's Text-Stat is {stat!r}")
        session.ask(f"27 {conference} 1 {{ {found[1]} }}")
        read = session.ask(f"107 {person} {conference} 1 0")
        if not re.search(rf" {conference} 100 1 {{ {found[1]} {found[1]} }} ", read):
            raise Wrong(f"what is read is {read!r}, not {found[1]} alone")
        session.ask(f"92 {text} 0 {{ }} 1 {{ 3 00000000 0 {string('seen')} }}")
        stat = session.ask(f"90 {text}")
        if not re.search(rf" 1 {{ 1 3 {person} {TIME} 00000000 0 4Hseen }}$", stat):
            raise Wrong(f"with an aux-item a text's Text-Stat is {stat!r}")
        told = [int(session.message().split(" ")[2]) for _ in range(count)]
        if told != sorted(set(told)):
            raise Wrong(f"the texts that are told do not rise: {told}")
        written.wait()
        session.ask(f"53 {persons[(number + 1) % count]} {string(f'from {number}')}")
        before = (number - 1) % count
        wants("a message", session.message(), f":3 12 {person} {persons[before]} {string(f'from {before}')}")
        ended.wait()
        if number % 2:
            session.ask("55 0")
        elif number == 0:
            strong = Session(server.port, "strong").login()
            strong.ask("42 255")
            for other in range(0, count, 2):
                strong.ask(f"55 {numbers[other]}")
            strong.end()
        wants("what follows the end", session.rest(), [])

    side_by_side(count, one)


def stop_idle(server, count):
    """Part 7: call 44 while connections are idle; how long the server takes to end."""
    logged_in = [Session(server.port, f"idle{number}").login() for number in range(count - 12)]
    half = [Session(server.port, f"half{number}") for number in range(4)]
    for session in half:
        session.write("1 86 10Hhalf")
    nobody = [Session(server.port, None) for _ in range(4)]
    greeting = [Session(server.port, None) for _ in range(2)]
    for session in greeting:
        session.write("A10Hhalf")
    session = Session(server.port, "stopper").login()
    session.ask("42 255")
    time.sleep(0.2)
    start = time.monotonic()
    wants("what call 44 is answered", session.try_to("44 0"), "=")
    for other in [*logged_in, *half, *nobody, *greeting, session]:
        wants("what an idle connection reads", other.rest(), [])
    status = server.wait()
    took = time.monotonic() - start
    wants("the status after call 44", status, 0)
    if took > STOP_SECONDS:
        raise Wrong(f"{took:.2f} s until the server ended")
    return took


def kill(program, store, count, seconds):
    """Part 8: signal 9 while so many connections write texts; how many were answered, and how many were made beside them."""
    server = serve(program, store, count)
    answered, sent = {}, set()

    def write(number):
        session = Session(server.port, f"writer{number}").login()
        for place in range(1_000_000):
            body = f"{number} writes\n{place}"
            sent.add(body)
            try:
                answered[int(session.ask(f"86 {string(body)} 0 {{ }} 0 {{ }}"))] = body
            except (Wrong, OSError):
                if not killed.is_set():
                    raise
                return

    killed = threading.Event()

    def end():
        killed.set()
        server.process.send_signal(signal.SIGKILL)

    try:
        looker = Session(server.port)
        first = int(looker.ask("115"))
        looker.end()
        threading.Timer(seconds, end).start()
        side_by_side(count, write)
        wants("the status after signal 9", server.wait(), -signal.SIGKILL)
    finally:
        server.kill()
    server = serve(program, store, count)
    try:
        session = Session(server.port, "reader").login()
        last = int(session.ask("115"))
        bodies = dict(zip(range(first, last), session.ask_all([f"25 {text} 0 4294967295" for text in range(first, last)])))
        lost = [text for text, body in answered.items() if bodies.get(text) != string(body)]
        if lost:
            raise Wrong(f"{len(lost)} of {len(answered)} answered texts are lost, first {min(lost)}, last {max(lost)}")
        more = [text for text in bodies if text not in answered]
        if len(more) > count or any(bodies[text].split("H", 1)[1] not in sent for text in more):
            raise Wrong(f"{len(more)} texts that were not answered are there, of {count} connections")
        session.end()
        stop(server).rest()
        wants("the status", server.wait(), 0)
    finally:
        server.kill()
    if len(answered) < count:
        raise Wrong(f"only {len(answered)} texts were answered before the server was killed")
    status, told = check_store(program, store)
    wants("the check of the store", (status, told.get("texts")), (0, last - 1))
    return len(answered), len(more)


def main(arguments):
    global word  # pylint: disable=global-statement
    program = program_of(arguments)
    if arguments[1:2] == ["hub"]:
        word = arguments.pop(1)
    count = int(arguments[1]) if len(arguments) > 1 else 64
    kills = int(arguments[2]) if len(arguments) > 2 else 1
    begun = time.monotonic()

    def tell(line):
        print(f"{time.monotonic() - begun:5.1f} s: {line}", flush=True)

    limit_seconds(LIMIT_SECONDS + (kills - 1) * LIMIT_OF_A_KILL)
    # What is killed lies on a disk, the rest in memory, if the system has such a folder: there a flush waits for nothing.
    with tempfile.TemporaryDirectory() as disk, tempfile.TemporaryDirectory(dir=folder_in_memory()) as memory:
        folder = pathlib.Path(memory)
        words(program, folder)
        addresses = ports(program, folder)
        tell(f"words are refused, a port is taken, a store is in use, sessions come from {' and '.join(addresses)}")
        beside(program, folder)
        tell("two workers serve side by side")
        idle(program, folder)
        tell("an idle session is sent its message")
        waiting, read, sent = overrun(program, folder)
        tell(f"with {waiting} messages a session that reads late goes on, and after {read} of {sent} an overrun one ended")
        bad, good, grown = peers(program, folder)
        tell(f"{bad} bad peers beside {good} sessions end alone, and the server has {grown} KiB more resident")
        store = make_store(program, folder / "store")
        server = serve(program, store, count)
        try:
            talk(server, count)
            tell(f"{count} connections talked side by side")
            took = stop_idle(server, count)
            tell(f"the server ended {took:.2f} s after call 44, with {count} connections")
        finally:
            server.kill()
        store = make_store(program, pathlib.Path(disk) / "store")
        for place in range(kills):
            answered, more = kill(program, store, count, 2.0 if place == 0 else random.uniform(1, 3))
            tell(f"{answered} texts were answered before signal 9 and are there, and {more} that were not")
    return 0


if __name__ == "__main__":
    script(main, __doc__)
