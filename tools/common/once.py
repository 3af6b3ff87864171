"""A session of `komd once`, at its standard input and output."""
import os
import subprocess


def in_pieces(program, store, pieces, environment=()):
    """What a session on a store is answered, and the status. A piece is its bytes and how many lines it is to get: the next one is sent
    once these have come."""
    given = {**os.environ, **dict(environment)}
    process = subprocess.Popen([program, "once", store], stdin=subprocess.PIPE, stdout=subprocess.PIPE, env=given)
    answered = b""
    try:
        for sent, count in pieces:
            process.stdin.write(sent)
            process.stdin.flush()
            for _ in range(count):
                answered += process.stdout.readline()
        process.stdin.close()
    except BrokenPipeError:
        pass
    answered += process.stdout.read()
    return answered, process.wait()
