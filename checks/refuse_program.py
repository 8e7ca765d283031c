#!/usr/bin/env python3
"""Runs the program with each growth of its memory, and each of its threads, refused in turn.

    refuse_program.py PROGRAM INPUT..

A run in which a growth is refused must end with status 5, write nothing to standard output and `out of memory` to
standard error; or it could do without that growth, and writes what it would have written with it. The run without a
refusal must write what the file beside INPUT with the ending `.out` has. Where there is one with the ending `.words`, the
program is called with the words of that line. Clerks in threads of their own don't ask for memory in the same order in
each run, so that with several clerks it is chance whose growth is refused. Threads are refused in the same way: a
clerk's thread that can't be had ends the run as a growth does, and a reader's the run can do without. The status is 0
where all of that is so. It needs Linux, Python 3.8 or later and a C compiler, `cc` or the one that CC names.
"""
import pathlib
import sys

from lib.refusals import lacking, library_that_refuses, swept

REFUSED = (5, b"", b"out of memory\n")
ENDED, DONE_WITHOUT = "ended the run", "the run could do without"


def kept_input(path):
    """The input of that file, the words of its run, and how it must end."""
    line = path.with_suffix(".words")
    words = line.read_text().split() if line.exists() else []
    return path.read_bytes(), words, (0, path.with_suffix(".out").read_bytes(), b"")


def refuse_each(program, path, library, kind):
    """Whether each run with that input ended as it must where one of that kind was refused."""
    text, words, wanted = kept_input(path)

    def who_was_refused(ended):
        return {REFUSED: ENDED, wanted: DONE_WITHOUT}.get(ended)

    counts = swept(library, path, [program, *words], text, who_was_refused, lambda ended: ended == wanted, kind)
    # one clerk has no thread
    must = [] if kind == "thread" and not words else [ENDED]
    return counts is not None and not lacking(path, counts, must, kind)


def main(program, *inputs):
    with library_that_refuses() as library:
        ended = [refuse_each(program, pathlib.Path(path), library, kind) for path in inputs for kind in ("growth", "thread")]
    sys.exit(0 if ended and all(ended) else 1)


if __name__ == "__main__":
    if len(sys.argv) < 3:
        sys.exit("usage: refuse_program.py PROGRAM INPUT..")
    main(*sys.argv[1:])
