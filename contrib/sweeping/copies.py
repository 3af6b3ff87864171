"""A server over a copy of a store that nobody serves; both go when they are no longer wanted."""
import contextlib
import fcntl
import os
import shutil
import signal
import socket
import subprocess
import tempfile
import time

from tool import Trouble

THIS_MACHINE = "127.0.0.1"
STORE_OPEN, PORT_FAILED, TRIES = 3, 5, 5
# The signals that end the tool.
ENDS = (signal.SIGINT, signal.SIGTERM, signal.SIGHUP)


@contextlib.contextmanager
def uninterrupted():
    """Has signals that end the tool wait until something is done."""
    before = signal.pthread_sigmask(signal.SIG_BLOCK, ())
    try:
        # (one that came just before is told here)
        signal.pthread_sigmask(signal.SIG_BLOCK, ENDS)
        yield
    finally:
        signal.pthread_sigmask(signal.SIG_SETMASK, before)


def serve_copy(store, work):
    """Serves a copy of a store, and does a work with the port. It is no context: a signal could come before the block of that begins."""
    folders, processes = [], []
    try:
        try:
            with uninterrupted():
                folders.append(tempfile.mkdtemp(prefix="komd-sweep.", dir=os.environ.get("TMPDIR", "/var/tmp")))
            copy = os.path.join(folders[0], "store")
            with open(store, "rb") as file, open(copy, "xb") as new:
                wants_unserved(file, store)
                # (from the first byte to the last, so that each batch is whole, whoever begins to write meanwhile)
                shutil.copyfileobj(file, new, 1 << 20)
            work(serve(copy, store, processes))
        finally:
            take_away(processes, folders)
    finally:
        # (again, since a signal may come just before signals are made to wait)
        take_away(processes, folders)


def take_away(processes, folders):
    """Ends what was begun, and removes what was made, if that is not done yet."""
    with uninterrupted():
        while processes:
            processes[-1].kill()
            processes.pop().wait()
        while folders:
            shutil.rmtree(folders.pop())


def wants_unserved(file, store):
    """Fails where a server has a store open."""
    try:
        fcntl.flock(file, fcntl.LOCK_SH | fcntl.LOCK_NB)
        fcntl.flock(file, fcntl.LOCK_UN)
    except BlockingIOError:
        raise Trouble(f"a komd has {store} open: ask that one, at its port", STORE_OPEN) from None


def serve(copy, store, processes):
    """The port of a server over a copy, of one session at a time, once it listens. What is begun for it is added to the processes."""
    for _ in range(TRIES):
        with socket.create_server((THIS_MACHINE, 0)) as free:
            port = free.getsockname()[1]
        with uninterrupted():
            processes.append(subprocess.Popen([os.environ.get("KOMD", "komd"), "hub", copy, str(port), "1"], stdin=subprocess.DEVNULL,
                                              preexec_fn=lambda: signal.pthread_sigmask(signal.SIG_UNBLOCK, ENDS)))
        while processes[-1].poll() is None:
            with contextlib.suppress(ConnectionRefusedError):
                socket.create_connection((THIS_MACHINE, port)).close()
                return port
            time.sleep(0.02)
        status = processes[-1].returncode
        if status != PORT_FAILED:
            raise Trouble(f"komd hub ends with {status} on a copy of {store}", max(status, 1))
    raise Trouble("no port is free")
