"""What the door tells its log, a line each: from which address, and what happened."""
import contextlib
import os
import sys
import time

# A journal has the time of each line itself.
HAS_TIMES = "JOURNAL_STREAM" in os.environ
# What strangers can cause at will is told once in so many seconds, and so many lines of it at most.
SECONDS, MOST = 60, 1_000
told = {}


def tell(*words):
    """Writes a line. Where the log takes none, the door serves on."""
    moment = () if HAS_TIMES else (time.strftime("%FT%TZ", time.gmtime()),)
    with contextlib.suppress(OSError, ValueError):
        print(*moment, *words, file=sys.stderr, flush=True)


def tell_now_and_then(*words):
    """Writes a line, unless the same one was written a moment ago."""
    now, line = time.monotonic(), " ".join(map(str, words))
    if len(told) >= MOST:
        for old in [old for old, moment in told.items() if moment < now - SECONDS]:
            del told[old]
    if len(told) < MOST and told.get(line, -SECONDS) < now - SECONDS:
        told[line] = now
        tell(line)
