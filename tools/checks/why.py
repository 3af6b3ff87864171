#!/usr/bin/env python3
"""Tries contrib/komd-why with the built program: why.py [PROGRAM]

The program is brought to each of its ends: by words, by files that are no store, by rights, locks, a full disk, ports, too little
memory, outputs that take nothing, signals and call 44. What komd-why says of that end has to name its cause, to the user that had it,
and leaves the file as it is. Then ends as systemd tells them.

It prints a line for each thing that is otherwise, and a count, and ends with 1 if there is one, else with 0. PROGRAM is the built `komd`
unless it is named. The cases of another user and of a full disk want root.
"""
import os
import pathlib
import re
import resource
import shutil
import signal
import socket
import subprocess
import sys
import tempfile

TOP = pathlib.Path(__file__).resolve().parents[2]
sys.path.insert(0, str(TOP / "tools" / "common"))
from built import make_store, program_of, script
from served import PATIENCE, Server, folder_in_memory, stop
from tried import Tried

WHY, SAMPLES = TOP / "contrib" / "komd-why", TOP / "tests" / "stores"
NOBODY = ["setpriv", "--reuid", "nobody", "--clear-groups"]
MANY_TEXTS = "".join(f"{number} 86 30000H{'x' * 30000} 0 {{ }} 0 {{ }}\n" for number in range(2, 40))


class Ends(Tried):
    """Ends of the program, and what is said of them."""

    def end(self, *words, given=b"", user=(), **more):
        """The status, or the name of the signal, with which a run ends."""
        more.setdefault("stdout", subprocess.DEVNULL)
        source = {} if "stdin" in more else {"input": given}
        done = subprocess.run([*user, self.program, *map(str, words)], stderr=subprocess.DEVNULL, timeout=PATIENCE, check=False, **source, **more)
        return name_of(done.returncode)

    def says(self, what, status, wanted, said, *words, user=()):
        """An end has this status, and komd-why says so of it."""
        environment = {name: value for name, value in os.environ.items() if name not in ("EXIT_STATUS", "SERVICE_RESULT")}
        done = subprocess.run([*user, WHY, said, *map(str, words)], capture_output=True, text=True, env=environment, check=False)
        sort = "status" if status.isdigit() else "signal"
        self.same(f"the end by {what}", status, said)
        fits = re.fullmatch(f"komd: {sort} {status}: .*{wanted}.*\n", done.stdout) is not None
        self.same(f"what is said of {what}", (0, wanted, ""), (done.returncode, wanted if fits else done.stdout, done.stderr))


def name_of(returned):
    return str(returned) if returned >= 0 else signal.Signals(-returned).name[3:]


def made(tried, name):
    return pathlib.Path(make_store(tried.program, tried.folder / name))


def written(tried, name, data):
    path = tried.folder / name
    path.write_bytes(data)
    return path


def try_files(tried):
    """Files that are no store, and stores that are not to be had."""
    store = made(tried, "store")
    held = store.read_bytes()
    for what, wanted, path in [
        ("no store", "there is no store", tried.folder / "nothing"),
        ("an empty file", "is empty", written(tried, "empty", b"")),
        ("a foreign file", "begins with the bytes 66 6f 72 65 69 67 6e 20", written(tried, "foreign", b"foreign and long enough to be none")),
        ("another version", "version 2,", written(tried, "newer", held[:8] + b"\2" + held[9:])),
        ("a short file", "breaks off in its first 17", written(tried, "short", held[:12])),
        ("a damaged store", f"damaged at byte 16 of {len(held) - 2}", written(tried, "damaged", held[:-2])),
        ("an effect that does not fit", "damaged in an effect", shutil.copy(SAMPLES / "text-twice.store", tried.folder / "unfit")),
    ]:
        before = pathlib.Path(path).read_bytes() if pathlib.Path(path).exists() else None
        tried.says(what, "4", wanted, tried.end("serve", path, 4894, 1), path)
        tried.same(f"the file of {what} after it", before, pathlib.Path(path).read_bytes() if pathlib.Path(path).exists() else None)
    tried.says("a store where one is to be made", "4", "stood there already", tried.end("init", store, ""), store)
    tried.says("a folder", "3", "is a folder", tried.end("check", tried.folder), tried.folder)
    server = Server(tried.program, store, 1)
    try:
        tried.says("a store that is open", "3", "another process has", tried.end("check", store), store)
    finally:
        server.kill()
    tried.same("the store after it all", held, store.read_bytes())


def try_rights(tried):
    """What another user may not do, which root may."""
    if os.geteuid():
        print("the cases of another user want root")
        return
    store = made(tried, "owned")
    tried.says("another's store", "3", "belongs to root with mode 600, and nobody may not", tried.end("check", store, user=NOBODY), store, user=NOBODY)
    closed = tried.folder / "closed"
    closed.mkdir(mode=0o700)
    tried.says("a closed folder", "3", "may not be entered by nobody", tried.end("check", closed / "store", user=NOBODY), closed / "store", user=NOBODY)
    if int(pathlib.Path("/proc/sys/net/ipv4/ip_unprivileged_port_start").read_text()) > 99:
        open_to_all = made(tried, "open")
        shutil.chown(open_to_all, "nobody")
        end = tried.end("serve", open_to_all, 99, 1, user=NOBODY)
        tried.says("a port below 1024", "5", "nobody may not listen at port 99, which is below 1024", end, store, 99, user=NOBODY)


def try_full_disk(tried):
    """A disk that gets full."""
    room = tried.folder / "room"
    room.mkdir()
    if subprocess.run(["mount", "-t", "tmpfs", "-o", "size=512k", "tmpfs", room], capture_output=True, check=False).returncode:
        print("no small file system can be made here, so none was filled")
        return
    try:
        store = make_store(tried.program, room / "store")
        tried.says("a full disk", "3", "the disk of .* is full", tried.end("once", store, given=f"A1Ha\n1 62 5 0H 0\n{MANY_TEXTS}".encode()), store)
    finally:
        subprocess.run(["umount", room], check=True)


def try_others(tried):
    """Words, ports, outputs, memory, signals and the stop."""
    store = made(tried, "other")
    tried.says("more workers than there may be", "2", "KOMD_WORKERS", tried.end("serve", store, 4894, 65))
    with socket.create_server(("", 0)) as taken:
        port = taken.getsockname()[1]
        tried.says("a port that is taken", "5", f"another program listens at port {port}", tried.end("serve", store, port, 1), store, port)
    end = tried.end("serve", store, port, 1, preexec_fn=lambda: resource.setrlimit(resource.RLIMIT_NOFILE, (9, 9)))
    tried.says("a limit on open files", "5", f"port {port}, which is free now, could not be served", end, store, port)
    with open("/dev/full", "wb") as full:
        tried.says("a report that is not taken", "7", "could not be written", tried.end("check", store, stdout=full))
    tried.says("a sweep by another password", "8", "could not log in", tried.end("sweep", store, 5, "another"), store)
    small = written(tried, "small", (SAMPLES / "lived-3.store").read_bytes())
    for limit in range(2 << 20, 40 << 20, 1 << 18):
        end = tried.end("check", small, preexec_fn=lambda most=limit: resource.setrlimit(resource.RLIMIT_AS, (most, most)))
        if end == "6":
            tried.says("too little memory", "6", "memory ran out", end, small)
            break
    length = store.stat().st_size
    end = tried.end("once", store, given=f"A1Ha\n1 62 5 0H 0\n{MANY_TEXTS}".encode(),
                    preexec_fn=lambda: resource.setrlimit(resource.RLIMIT_FSIZE, (length + 100, length + 100)))
    tried.says("a limit on the length of files", "XFSZ", "LimitFSIZE=infinity", end, store)
    for number, wanted in ((signal.SIGTERM, "stopped"), (signal.SIGKILL, "killed"), (signal.SIGSEGV, "signal SEGV ended it")):
        server = Server(tried.program, store, 2)
        server.process.send_signal(number)
        tried.says(number.name, number.name[3:], wanted, name_of(server.wait()), store)
    server = Server(tried.program, store, 2)
    stop(server).rest()
    tried.says("call 44", "0", "call 44", name_of(server.wait()), store)


def try_systemd(tried):
    """Ends as systemd tells them, in variables or when it is asked."""

    def said(*words, **told):
        environment = {name: value for name, value in os.environ.items() if name not in ("EXIT_STATUS", "SERVICE_RESULT")}
        done = subprocess.run([WHY, *words], capture_output=True, text=True, env={**environment, **told}, check=False)
        return done.returncode, (done.stdout + done.stderr).strip()

    nothing = str(tried.folder / "nothing")
    tried.same("a status in a variable", (0, True), matched(said(EXIT_STATUS="4", KOMD_STORE=nothing), f"komd: status 4: there is no store at {nothing}:"))
    tried.same("a signal in a variable", (0, True), matched(said(EXIT_STATUS="TERM", SERVICE_RESULT="success"), "komd: signal TERM: it was stopped"))
    tried.same("want of memory", (0, True), matched(said(EXIT_STATUS="KILL", SERVICE_RESULT="oom-kill"), "komd: signal KILL: the system ended it"))
    tried.same("a signal as a shell has it", (0, True), matched(said("137"), "komd: signal KILL"))
    asked = written(tried, "systemctl", b"")
    asked.chmod(0o755)
    path = f"{tried.folder}:{os.environ['PATH']}"
    for code, status, wanted in (("1", "4", "komd: status 4: there is no store"), ("2", "9", "komd: signal KILL")):
        asked.write_text(f"#!/bin/sh\nprintf 'Result=x\\nExecMainCode={code}\\nExecMainStatus={status}\\nEnvironment=KOMD_STORE={nothing} KOMD_PORT=1\\n'\n")
        tried.same(f"systemd asked of {status}", (0, True), matched(said(PATH=path), wanted))
    asked.write_text("#!/bin/sh\nprintf 'Result=success\\nExecMainCode=0\\nExecMainStatus=0\\n'\n")
    journal = written(tried, "journalctl", b"#!/bin/sh\necho 2026-12-01T02:00:00+0000 club komd-why[7]: komd: signal KILL: it was killed\n")
    journal.chmod(0o755)
    tried.same("an end in the journal", (0, True), matched(said(PATH=path), "2026-12-01T02:00:00+0000 club komd-why[7]: komd: signal KILL"))
    journal.write_text("#!/bin/sh\n")
    tried.same("no end", (1, True), matched(said(PATH=path), "komd-why: systemd tells of no end"))
    for words in (["four"], ["4", "store", "port"], ["4", "store", "1", "more"], ["-x"]):
        tried.same(f"the words {words}", (2, True), matched(said(*words), "usage: komd-why"))
    tried.same("its usage", (0, True), matched(said("--help"), "Says in a sentence"))


def matched(done, wanted):
    return done[0], done[1].startswith(wanted)


def main(given):
    with tempfile.TemporaryDirectory(dir=folder_in_memory()) as folder:
        os.chmod(folder, 0o755)
        tried = Ends(program_of(given), pathlib.Path(folder))
        for part in (try_files, try_rights, try_full_disk, try_others, try_systemd):
            part(tried)
    print(f"{tried.count} things looked at, {tried.failed} are otherwise")
    return 1 if tried.failed else 0


if __name__ == "__main__":
    script(main, __doc__)
