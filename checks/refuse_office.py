#!/usr/bin/env python3
"""Makes the calls of an office's seats with each growth of memory refused in turn.

    refuse_office.py PROGRAM INPUT

PROGRAM is stored_office, and makes the calls that INPUT lists; a call that is answered want of memory it makes once more.
A run in which a growth is refused must end in one of three ways. A call, or the opening of the office, was answered want
of memory: the program writes what it writes with ample memory, and one line `out of memory` more, above what the same
call was answered when it was made again. Or a seat got no place to read from, and the office was opened anew: the program
says so on standard error, and writes what it writes with ample memory. Or the program itself, which reads calls and
writes text, found no memory: it ends with status 1, writes nothing to standard output, and says so on standard error. So
a call that is refused memory says so; it changes nothing, does without it nowhere, and doesn't wait for good. Each kind
of call that takes memory must have been refused it. The status is 0 where all of that is so. It needs Linux, Python 3.8
or later and a C compiler, `cc` or the one that CC names.
"""
import pathlib
import subprocess
import sys

from lib.refusals import PROGRAM_ENDED, lacking, library_that_refuses, swept

# What the line above `out of memory` begins with: that of the opening, and of each call that takes memory.
CALLS = ("office", "prepare", "commit", "perform", "show")
REFUSED = b"out of memory\n"
NO_READER = b"a seat got no place to read from\n"


def refused_call(output, wanted):
    """The call under whose line `out of memory` stands, where that line alone is more than is wanted."""
    lines, wanted = output.splitlines(keepends=True), wanted.splitlines(keepends=True)
    for place, line in enumerate(lines):
        if line == REFUSED and lines[:place] + lines[place + 1:] == wanted:
            return lines[place - 1].split()[0].decode()
    return None


def who_was_refused(ended, wanted):
    """Which call was refused memory, or that a reader or the program itself was; None where a run didn't end as it must."""
    status, output, errors = ended
    if (status, errors) == (0, b""):
        return refused_call(output, wanted)
    if ended == (0, wanted, NO_READER):
        return "a seat's reader"
    return "the program itself" if ended in PROGRAM_ENDED else None


def refuse_each(program, path, library):
    """Whether each run on that input ended as it must."""
    text = path.read_bytes()
    wanted = subprocess.run([program], input=text, stdout=subprocess.PIPE, check=True).stdout
    counts = swept(library, path, [program], text, lambda ended: who_was_refused(ended, wanted),
                   lambda ended: ended == (0, wanted, b""))
    return counts is not None and not lacking(path, counts, CALLS)


def main(program, path):
    with library_that_refuses() as library:
        sys.exit(0 if refuse_each(program, pathlib.Path(path), library) else 1)


if __name__ == "__main__":
    if len(sys.argv) != 3:
        sys.exit("usage: refuse_office.py PROGRAM INPUT")
    main(*sys.argv[1:])
