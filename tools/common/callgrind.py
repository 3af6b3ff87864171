"""Counts the instructions of runs of `komd` by callgrind: nearly the same in each run, whatever else the machine does."""
import re
import subprocess

CALLS = 500
# The first conference, or person, that a stream makes.
FIRST = 6


def login(person):
    """The line of a login with an empty password."""
    return b"1 62 %d 0H 0" % person


def collected(words, **given):
    """The instructions of a run, which is given its input."""
    run = ["valgrind", "--tool=callgrind", "--callgrind-out-file=/dev/null", *words]
    done = subprocess.run(run, stdout=subprocess.DEVNULL, stderr=subprocess.PIPE, check=True, **given)
    return int(re.search(rb"Collected : (\d+)", done.stderr).group(1))


def instructions(program, lines):
    """The instructions of a session with these lines."""
    return collected([program, "once"], input=b"\n".join(lines) + b"\n")


def by_function(file, words, given):
    """What a run prints, and the instructions of each function and what it calls."""
    run = ["valgrind", "--tool=callgrind", f"--callgrind-out-file={file}", *words]
    done = subprocess.run(run, input=given, capture_output=True, check=True)
    told = subprocess.run(["callgrind_annotate", "--inclusive=yes", file], capture_output=True, check=True, text=True).stdout
    return done.stdout, [(int(one.replace(",", "")), name) for one, name in re.findall(r"^ *([\d,]+) \([\d. ]+%\)  (.*)", told, re.M)]


class Prepared:
    """A stream after which calls are counted; what it takes itself is counted once."""

    def __init__(self, program, lines):
        self.program, self.lines = program, lines
        self.before = instructions(program, lines)

    def each_of(self, calls):
        return (instructions(self.program, self.lines + calls) - self.before) / len(calls)

    def each(self, call):
        return self.each_of([call] * CALLS)


def tell(name, few, many, counts):
    """Prints what something takes at a few and at many, and how often the one is the other."""
    print(f"{name}: {few:.0f} instructions with {counts[0]}, {many:.0f} with {counts[1]}, {many / few:.2f} times", flush=True)
