#!/usr/bin/env python3
"""Runs clerks in threads of their own with each growth of memory refused in turn.

    refuse_clerks.py PROGRAM INPUT

PROGRAM is stored_office, and INPUT a court's file and one schedule `clerks SEATS LIMIT` with its rows. A run in which a
growth is refused must end in one of these ways, or it could do without that growth and writes what it writes with ample
memory. The opening of the office was answered want of memory, once, and succeeded when it was tried again.
Or the run of the clerks wasn't started, and succeeded with the seats that came back. Or it was stopped: the tallies
closed the office, and the journal has of each clerk the first commands of its rows, in their order. Or a seat got no
place to read from, and the office was opened anew. Or the program itself, which reads rows and writes text, found no
memory, and says so with status 1. Each of the first three must come up, for which all growths are refused again, a few
times at most. The clerks don't ask for memory in the same order in each run, so it is chance whose growth is refused.
The status is 0 where all of that is so. It needs Linux, Python 3.8 or later and a C compiler, `cc` or the one that CC
names.
"""
import collections
import pathlib
import re
import subprocess
import sys

from lib.refusals import PROGRAM_ENDED, lacking, library_that_refuses, swept
from refuse_office import NO_READER

# What a line that is there because memory was refused says, by that line and the word before it.
TOLD = {
    (b"out of memory", b"clerks"): "opening",
    (b"not started", b"clerks"): "not started",
}
STOPPED = "stopped"
# It is chance whose growth is refused. So a way that didn't come up is looked for again, this often at most.
SWEEPS = 8
FINISHED = re.compile(rb"clerk (\d+): (\d+) of (\d+)")


def stopped_with_beginnings(lines, wanted):
    """Whether these are the lines of a run that was stopped, in whose journal each clerk has its first commands."""
    if len(lines) != len(wanted) or b"done" not in wanted:
        return False
    for line, other in zip(lines, wanted):
        parts, others = FINISHED.fullmatch(line), FINISHED.fullmatch(other)
        if parts and others:
            (clerk, count, commands), (of, _, all_commands) = map(int, parts.groups()), map(int, others.groups())
            if (clerk, commands) != (of, all_commands) or count > commands:
                return False
        elif line != (b"stopped" if other == b"done" else other):
            return False
    return True


def who_was_refused(ended, wanted):
    """Who was refused memory; None where the run didn't end as it must."""
    status, output, errors = ended
    if ended in PROGRAM_ENDED:
        return "the program itself"
    if ended == (0, wanted, NO_READER):
        return "a seat's reader"
    if (status, errors) != (0, b""):
        return None
    if output == wanted:
        return "done without"
    lines, wanted = output.splitlines(), wanted.splitlines()
    for place, line in enumerate(lines[1:], 1):
        if lines[:place] + lines[place + 1:] == wanted:
            return TOLD.get((line, lines[place - 1].partition(b" ")[0]))
    return STOPPED if stopped_with_beginnings(lines, wanted) else None


def refuse_each(program, path, library):
    """Whether each run on that input ended as it must, and each way came up."""
    text, counts, ways = path.read_bytes(), collections.Counter(), [*TOLD.values(), STOPPED]
    wanted = subprocess.run([program], input=text, stdout=subprocess.PIPE, check=True).stdout
    for _sweep in range(SWEEPS):
        more = swept(library, path, [program], text, lambda ended: who_was_refused(ended, wanted),
                     lambda ended: ended == (0, wanted, b""))
        if more is None:
            return False
        counts.update(more)
        if all(way in counts for way in ways):
            break
    return not lacking(path, counts, ways)


def main(program, path):
    with library_that_refuses() as library:
        sys.exit(0 if refuse_each(program, pathlib.Path(path), library) else 1)


if __name__ == "__main__":
    if len(sys.argv) != 3:
        sys.exit("usage: refuse_clerks.py PROGRAM INPUT")
    main(*sys.argv[1:])
