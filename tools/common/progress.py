"""Runs commands that take long: on a terminal a last line says which one runs and for how long, in a log nothing does."""
import os
import selectors
import subprocess
import sys
import time

CLEAR = "\r\x1b[K"


def run(words, what, **more):
    """Runs a command, and returns its status as a shell has it. `what` is said of it while it runs."""
    if not sys.stdout.isatty():
        sys.stdout.flush()
        return status_of(subprocess.call(words, **more))
    more["env"] = {**more.get("env", os.environ), "PYTHONUNBUFFERED": "1"}
    with subprocess.Popen(words, stdout=subprocess.PIPE, stderr=subprocess.STDOUT, **more) as command:
        try:
            relay(command.stdout, what)
        except KeyboardInterrupt:
            # (the terminal told the command too, which may say more before it ends)
            relay(command.stdout, what)
            command.wait()
            raise
    return status_of(command.returncode)


def relay(pipe, what):
    """Prints the whole lines that come, above the line that says where this is, until they end."""
    begun, rest = time.monotonic(), b""
    with selectors.DefaultSelector() as selector:
        selector.register(pipe, selectors.EVENT_READ)
        while True:
            show(f"{CLEAR}{what}, {time.monotonic() - begun:.0f} s")
            if not selector.select(1):
                continue
            came = os.read(pipe.fileno(), 65536)
            rest += came
            if not came:
                show(CLEAR + rest.decode(errors="replace"))
                return
            lines, feed, rest = rest.rpartition(b"\n")
            show(CLEAR + (lines + feed).decode(errors="replace"))


def show(text):
    sys.stdout.write(text)
    sys.stdout.flush()


def status_of(returned):
    """The status as a shell has it, of a command that ended by itself or by a signal."""
    return returned if returned >= 0 else 128 - returned
