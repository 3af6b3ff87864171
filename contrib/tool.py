"""What the tools beside this file have in common: passwords that are asked for, files that come whole or not at all, progress."""
import argparse
import contextlib
import getpass
import os
import signal
import sys
import time


class Trouble(Exception):
    """Why a tool ends, in words for people, and its status."""

    def __init__(self, words, status=1):
        super().__init__(words)
        self.status = status


class Ended(BaseException):
    """A signal came that ends the program, once what it has begun is taken away."""


def end(number, _frame):
    raise Ended(number)


def run(main, name):
    """Ends the program with the status of its main function, or with the reason for which that was left."""
    for number in (signal.SIGTERM, signal.SIGHUP):
        signal.signal(number, end)
    try:
        sys.exit(main())
    except Trouble as trouble:
        print(f"{name}: {trouble}", file=sys.stderr)
        sys.exit(trouble.status)
    except BrokenPipeError:
        os.dup2(os.open(os.devnull, os.O_WRONLY), sys.stdout.fileno())
        sys.exit(1)
    except OSError as fault:
        print(f"{name}: {fault}", file=sys.stderr)
        sys.exit(1)
    except KeyboardInterrupt:
        print(f"{name}: interrupted", file=sys.stderr)
        sys.exit(1)
    except Ended as ended:
        signal.signal(ended.args[0], signal.SIG_DFL)
        os.kill(os.getpid(), ended.args[0])


def words_of_server(description, page):
    """A reader of the words of a tool that asks a server, which is told where that is."""
    words = argparse.ArgumentParser(description=description, epilog=f"See {page}.")
    words.add_argument("--host", default="127.0.0.1", help="where the server is, if not on this machine")
    words.add_argument("--port", type=int, default=4894, help="its port, if not 4894")
    return words


def shown(name):
    """Bytes of a name or a text's first line as they are shown: letters of ISO 8859-1, and `?` for what steers a terminal."""
    letters = name.decode("latin-1")
    return letters if letters.isprintable() else "".join(letter if letter.isprintable() else "?" for letter in letters)


def password(prompt):
    """A password: typed on the terminal, where it is not shown, or else a line of standard input. No word of a process has it."""
    if not sys.stdin.isatty():
        return sys.stdin.buffer.readline().rstrip(b"\r\n")
    try:
        return getpass.getpass(prompt).encode("latin-1")
    except UnicodeEncodeError:
        raise Trouble("a password has letters of ISO 8859-1 alone") from None


@contextlib.contextmanager
def whole_file(path, beside):
    """A file to write, readable for its owner alone, which stands at `beside` until all is written and then at `path`, where none was."""
    if os.path.lexists(path):
        raise Trouble(f"{path} is there already, and stays as it is")
    with contextlib.suppress(FileNotFoundError):
        os.unlink(beside)
    try:
        with os.fdopen(os.open(beside, os.O_WRONLY | os.O_CREAT | os.O_EXCL, 0o600), "wb") as file:
            yield file
            file.flush()
            os.fsync(file.fileno())
        os.link(beside, path)
        sync_folder(path)
    finally:
        with contextlib.suppress(FileNotFoundError):
            os.unlink(beside)


def sync_folder(path):
    """Stores that a file has its name."""
    folder = os.open(os.path.dirname(os.path.abspath(path)), os.O_RDONLY)
    try:
        os.fsync(folder)
    finally:
        os.close(folder)


class Progress:
    """How far a long work has come, in a line of the terminal; nothing where standard error is none."""

    def __init__(self, what):
        self.what, self.is_shown = what, sys.stderr.isatty()
        self.start = self.told = time.monotonic()
        self.first = None

    def tell(self, done, total):
        """Tells it, at most twice a second."""
        now = time.monotonic()
        if not self.is_shown or now - self.told < 0.5:
            return
        if self.first is None:
            self.first, self.start = done, now
        self.told, rate = now, (done - self.first) / max(now - self.start, 0.1)
        left = f", {(total - done) / rate / 60:.0f} minutes left" if rate > 0 else ""
        print(f"\r{self.what}: {done:,} of {total:,}{left}\x1b[K", end="", file=sys.stderr, flush=True)

    def over(self, rows, total):
        """The same rows, told of while they are taken."""
        for done, row in enumerate(rows):
            yield row
            if done % 1000 == 0:
                self.tell(done, total)
        self.end()

    def end(self):
        if self.is_shown:
            print("\r\x1b[K", end="", file=sys.stderr, flush=True)
