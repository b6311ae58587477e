"""Vectors of a program that writes bytes to standard output and a line to standard error: for the runners of them.

In a file of vectors a line `<` holds bytes of standard input, a line `>` bytes of standard output, both in the form
that `bin/pack` reads; `> same` is the bytes given. A line `$` holds the program and its words, as in a shell, and
`\\xFF` in a word is that byte. `NAME = BYTES` names bytes for the lines below it; `#` opens a comment. Any other line
is the one on standard error, and ends the vector.
"""

import os.path
import re
import runpy
import shlex
import sys
from concurrent.futures import ThreadPoolExecutor
from pathlib import Path

ROOT = Path(__file__).resolve().parent.parent
bytes_of_text = runpy.run_path(str(ROOT / "bin" / "pack"))["bytes_of_text"]
LIMIT = runpy.run_path(str(ROOT / "tests" / "feed.py"))["LIMIT"]
NAMED = re.compile(r"(\w+) = (.*)")
AT_ONCE = 8  # vectors, for the pauses between pieces are most of the time


def blocks(file):
    """Each vector as it stands: where it ends, its words, its lines of bytes in and out, and its line."""
    names, words, given, written = {}, None, [], []

    def spelled(text):
        return " ".join(names.get(word, word) for word in text.split())

    for number, line in enumerate(file.read_text().splitlines(), 1):
        if line.startswith("$"):
            words = [word.encode().decode("unicode_escape").encode("latin-1") for word in shlex.split(line)[2:]]
        elif line.startswith("<"):
            given.append(spelled(line[1:]))
        elif line.startswith(">"):
            written.append(spelled(line[1:]))
        elif named := NAMED.fullmatch(line):
            names[named[1]] = spelled(named[2])
        elif line and not line.startswith("#"):
            name = f"{file.relative_to(ROOT)}:{number}"
            if words is None and not given:
                sys.exit(f"{name}: a line without its bytes")
            yield name, words or [], given, written, line + "\n"
            words, given, written = None, [], []
    if words is not None or given or written:
        sys.exit(f"{file}: bytes without their line")


def vectors(file):
    """Each vector's name, its words, its bytes in, its bytes out and its line."""
    for name, words, given, written, line in blocks(file):
        given = bytes_of_text("\n".join(given), name)
        written = given if written == ["same"] else bytes_of_text("\n".join(written), name)
        yield name, words, given, written, line


def shown(printed, place):
    """How many bytes there are, and some of them from this place on."""
    return f"{len(printed)} bytes, {printed[place : place + 12].hex(' ').upper() or 'none'} from byte {place} on"


def difference(ended, written, line):
    """What differs first, or None."""
    if ended is None:
        return f"no end within {LIMIT} seconds"
    printed, told, status = ended
    if told != line.encode():
        return f"{line!r} expected, {told.decode('latin-1')!r} told"
    if printed != written:
        place = len(os.path.commonprefix([printed, written]))
        return f"{shown(written, place)} expected; {shown(printed, place)} written"
    return None if status == 0 else f"ended with status {status}"


def alike(program, name, runs):
    """Whether all vectors of a program are alike in each of their runs; tells those that are not."""

    def differences(vector):
        where, words, given, written, line = vector
        ways = runs(program, words, given, written, line)
        found = ((how, difference(ended, written, due)) for how, ended, due in ways)
        return [f"{where}, {how}: {what}" for how, what in found if what is not None]

    every = list(vectors(ROOT / "tests" / name / "vectors"))
    with ThreadPoolExecutor(AT_ONCE) as pool:
        found = list(pool.map(differences, every))
    for what in sum(found, []):
        print(what)
    different = sum(map(bool, found))
    print(f"{name}: {len(every) - different} vectors alike, {different} different")
    return every and not different


def program_of(name, arguments):
    """The program that is tested: the one given, or the one built."""
    if len(arguments) > 1:
        sys.exit(f"usage: tests/{name}/run [PROGRAM]")
    program = Path(arguments[0]) if arguments else ROOT / "bin" / name
    if not program.is_file():
        sys.exit(f"{program} is not there")
    return str(program.resolve())
