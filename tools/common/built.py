"""The built programs, and where they lie; a store that they make or check; and what every script does with its command line."""
import pathlib
import subprocess
import sys

ROOT = pathlib.Path(__file__).resolve().parents[2]
USAGE = (
    b"usage: komd once [STORE] | serve STORE PORT WORKERS | hub STORE PORT WORKERS | init STORE PASSWORD "
    b"| check STORE | load N | sweep STORE PERSON PASSWORD\n"
)


class Wrong(Exception):
    """Something is otherwise than it should be."""


def script(main, text):
    """Runs a script's main function with the words of the command line, and ends with what it returns. Where the first word is --help the
    script's text is printed and nothing is run; where something is otherwise than it should be, that is printed, and the status is 1."""
    if sys.argv[1:2] == ["--help"]:
        print(text.strip())
        sys.exit(0)
    try:
        sys.exit(main(sys.argv[1:]))
    except (Wrong, OSError, subprocess.SubprocessError) as fault:
        print(fault if isinstance(fault, Wrong) else repr(fault))
        sys.exit(1)
    except KeyboardInterrupt:
        sys.exit(130)


def built(name):
    """The place of a program that `rt ci` leaves, or `rt check` in its crate."""
    return ROOT / "crates" / name / "out" / name


def program_of(words, place=0, name="komd"):
    """The path of the program that a word names, or else of the built one."""
    program = pathlib.Path(words[place]).resolve() if len(words) > place else built(name)
    if not program.is_file():
        sys.exit(f"there is no program {program}; `rt ci` leaves it there, proved, and `tools/unproved {name} FILE` builds it without proof")
    return str(program)


def make_store(program, path, password=""):
    """Makes a store, and returns its path."""
    done = subprocess.run([program, "init", path, password], capture_output=True, check=False)
    if (done.returncode, done.stdout, done.stderr) != (0, b"store made\n", b""):
        raise Wrong(f"init ends with status {done.returncode}, {done.stdout!r:.80}, {done.stderr!r:.80}")
    return str(path)


def check_store(program, path):
    """The status of `check` with a store, and the numbers that it reports."""
    done = subprocess.run([program, "check", path], capture_output=True, check=False, text=True)
    lines = (line.split() for line in done.stdout.splitlines())
    return done.returncode, {words[0]: int(words[1]) for words in lines}


def compile_c(source, program, *flags):
    """Compiles a program, or with flags a library, of C."""
    subprocess.run(["cc", "-O2", *flags, "-o", program, source, "-lpthread", "-ldl"], check=True)
    return str(program)
