#!/usr/bin/env python3
"""Looks who gets in while one worker of `komd hub` has no place left: full_house.py [PROGRAM]

It makes a network of its own, which nobody else sees and which ends with it (`unshare --net`, as root or where users may), and gives that
two addresses beside loopback, so that clients are not those of the machine itself: friends come from one, a flood from the other. It sees that
1. 1,023 others have places, and one more waits, unanswered; a client from the machine itself gets in all the same, and another one after it;
2. who waits comes in within a second after a place is free;
3. with the 64 that wait before it, and more of them, a client from the machine itself does not get in either; the 1,023 are served on, and
   nothing spins;
4. once `ss -K` has ended all that the flood had it gets in within seconds, as docs/operating.md says, and the friends are answered as before.

It prints a line for each, takes half a minute, needs `unshare`, `ip` and `ss`, and ends with 1 at the first thing that is otherwise, else
with 0. It ends the server that it starts. PROGRAM is the built `komd` unless it is named.
"""
import os
import pathlib
import resource
import subprocess
import sys
import tempfile
import time

sys.path.insert(0, str(pathlib.Path(__file__).resolve().parents[1] / "common"))
from built import Wrong, make_store, program_of, script
from served import PATIENCE, Server, Session, folder_in_memory, limit_seconds, stop, wants

FRIENDS, FLOOD = "192.0.2.7", "198.51.100.66"
PLACES, WAITING = 1_023, 64
FRIENDS_INSIDE = 500
SOON, QUIET = 2.0, 0.5
LIMIT_SECONDS = 120
INSIDE = "KOMD_FULL_HOUSE"


def come(port, address, name="guest"):
    """A client at an address of the machine, as which it is seen, that has sent its greeting and a call."""
    session = Session(port, None, address)
    session.write(f"A{len(name)}H{name}\n1 56\n")
    session.reference = 1
    return session


def is_answered(session, seconds):
    """Whether a client that just came is answered in so many seconds."""
    session.socket.settimeout(seconds)
    try:
        wants("the answer to a greeting", session.line(), "LysKOM")
    except TimeoutError:
        # (what is read by a file after a time-out is another error)
        session.file = session.socket.makefile("rb")
        return False
    finally:
        session.socket.settimeout(PATIENCE)
    session.reply(1)
    return True


def fill(port, address, count):
    """So many clients, all of whom are inside."""
    sessions = [come(port, address) for _ in range(count)]
    if not all(is_answered(session, PATIENCE) for session in sessions):
        raise Wrong(f"not all of {count} clients get in")
    return sessions


def waits(session, who):
    if is_answered(session, QUIET):
        raise Wrong(f"{who} is answered while the house is full")


def gets_in(session, who):
    """How long it takes until this client is answered."""
    begun = time.monotonic()
    if not is_answered(session, 5 * SOON):
        raise Wrong(f"{who} does not get in")
    return time.monotonic() - begun


def last_place(server):
    """Parts 1 and 2: the last place, and a place that is free."""
    others = fill(server.port, FRIENDS, PLACES)
    late = come(server.port, FRIENDS)
    waits(late, "a client too many")
    for place in range(2):
        took = gets_in(own := come(server.port, "127.0.0.1", "root"), "a client from the machine itself")
        if place == 0:
            waits(second := come(server.port, "127.0.0.1", "root"), "a second client from the machine itself")
            second.close()
        wants("what follows its end", own.end(), [])
    print(f"{PLACES} others have places, one waits, and a client from the machine itself gets in after {took:.2f} s", flush=True)
    others.pop().end()
    took = gets_in(late, "who waited")
    if took > SOON:
        raise Wrong(f"who waits comes in {took:.2f} s after a place is free")
    print(f"who waits comes in {took:.2f} s after a place is free", flush=True)
    for session in [*others, late]:
        session.close()


def flood(server):
    """Parts 3 and 4: more wait than are accepted."""
    end = time.monotonic() + SOON
    looker = Session(server.port, "looker")
    while int(looker.ask("83 1 1 0").split(" ", 1)[0]) > 1:
        if time.monotonic() > end:
            raise Wrong("sessions are left of clients that have gone")
        time.sleep(0.05)
    looker.end()
    friends = fill(server.port, FRIENDS, FRIENDS_INSIDE)
    bad = fill(server.port, FLOOD, PLACES - FRIENDS_INSIDE)
    bad += [come(server.port, FLOOD) for _ in range(2 * WAITING)]
    time.sleep(2 * SOON)
    own = come(server.port, "127.0.0.1", "root")
    waits(own, "a client from the machine itself behind a flood")
    used, begun = server.processor_seconds(), time.monotonic()
    time.sleep(SOON)
    share = (server.processor_seconds() - used) / (time.monotonic() - begun)
    if share > 0.05:
        raise Wrong(f"a full house takes {share:.0%} of a processor")
    for session in friends[:10]:
        session.ask("56")
    print(f"behind {2 * WAITING} that wait it waits too; friends are answered, and the server takes {share:.1%} of a processor", flush=True)
    subprocess.run(["ss", "-HK", "dst", FLOOD, "sport", "=", f":{server.port}"], check=True, stdout=subprocess.DEVNULL, stderr=subprocess.DEVNULL)
    took = gets_in(own, "a client from the machine itself after the flood was ended")
    for session in friends:
        session.ask("56")
    print(f"once the flood is ended it gets in after {took:.2f} s, and {len(friends)} friends are answered as before", flush=True)
    for session in [*friends, *bad, own]:
        session.close()


def main(words):
    program = program_of(words)
    if INSIDE not in os.environ:
        alone = ["unshare", "--net"] + ([] if os.geteuid() == 0 else ["--map-root-user"])
        return subprocess.run([*alone, sys.executable, __file__, program], env={**os.environ, INSIDE: "1"}, check=False).returncode
    for command in ("link set lo up", f"address add {FRIENDS}/32 dev lo", f"address add {FLOOD}/32 dev lo"):
        subprocess.run(["ip", *command.split()], check=True)
    hard = resource.getrlimit(resource.RLIMIT_NOFILE)[1]
    resource.setrlimit(resource.RLIMIT_NOFILE, (hard, hard))
    limit_seconds(LIMIT_SECONDS)
    with tempfile.TemporaryDirectory(dir=folder_in_memory()) as folder:
        server = Server(program, make_store(program, pathlib.Path(folder) / "store"), 1, word="hub")
        try:
            last_place(server)
            flood(server)
            stop(server).rest()
            wants("the status", server.wait(), 0)
        finally:
            server.kill()
    return 0


if __name__ == "__main__":
    script(main, __doc__)
