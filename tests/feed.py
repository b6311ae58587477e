"""A program run on given bytes, at once or in small pieces with pauses: for the runners of the vectors."""

import itertools
import subprocess
import time

LIMIT = 10  # seconds for one run
START = 0.2  # seconds before the first piece of input, so that the program waits for it
PAUSE = 0.01  # seconds between two pieces


def pieces(given):
    """The bytes cut small, the last one alone."""
    at = 0
    for size in itertools.cycle((1, 2, 3, 500, 4000)):
        if at >= len(given) - 1:
            break
        yield given[at : min(at + size, len(given) - 1)]
        at += size
    yield given[-1:]


def feed(stream, given):
    time.sleep(START)
    try:
        for piece in pieces(given):
            stream.write(piece)
            stream.flush()
            time.sleep(PAUSE)
    except BrokenPipeError:
        pass  # A program may stop reading once it knows that the input is too long.


def run(program, given, in_pieces, errors=None, words=()):
    """Standard output, standard error where `errors` is a pipe, and the status; None if it does not end in time."""
    process = subprocess.Popen([program, *words], stdin=subprocess.PIPE, stdout=subprocess.PIPE, stderr=errors)
    try:
        if in_pieces:
            feed(process.stdin, given)
            given = b""
        printed, told = process.communicate(given, timeout=LIMIT)
    except subprocess.TimeoutExpired:
        process.kill()
        process.communicate()
        return None
    return printed, told, process.returncode
