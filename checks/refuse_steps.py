#!/usr/bin/env python3
"""Makes the steps of clerks who share a docket with each growth of memory refused in turn.

    refuse_steps.py PROGRAM INPUT [SEED]

PROGRAM is stored_steps, and reads INPUT, and then lists of steps that are made at random from SEED (by default 1), as
steps_compare.py makes them. A run in which a growth is refused may end in three ways. With status 1 it writes nothing to
standard output, and to standard error one line that says so. With status 0 one step is answered `no memory`: it would
have taken memory, and changes nothing, so that all others are answered as the replay answers them where that step isn't
made. Or it could do without that growth, and all is answered as the replay answers it, as it must be in the run without
a refusal. The second must come up. The status is 0 where all of that is so. It needs Linux, Python 3.8 or later and a C
compiler, `cc` or the one that CC names.
"""
import pathlib
import random
import sys

from lib.refusals import PROGRAM_ENDED, lacking, library_that_refuses, swept
from lib.steps_reference import made, opening_world
from reference.court_file import court_of
from reference.rows_in import rows_of
from steps_compare import random_lists

# The outcomes of steps that take memory.
TAKE_MEMORY = ("began", "read", "finished")
MADE = 40
# What came of a growth that was refused.
LOST, ENDED, DONE_WITHOUT = "lost one step", "ended the run", "the run could do without"


class Schedules:
    """A court, commands, and lists of steps: for each its line, how many clerks there are, and the words of its steps."""

    def __init__(self, text):
        head, lines = text.split("%%%%\n")
        file, rows = head.split("\n%%\n")
        self.court = court_of(file.encode())
        self.commands = [row.work for row in rows_of(rows.encode(), 64, self.court)]
        self.lists = [(line, *line.split(" ", 1)) for line in lines.splitlines()]

    def after(self, world, word):
        """The world after the step of a word, and its outcome."""
        at = word.index(word.strip("0123456789")[0])
        number = word[at + 1:]
        return made(self.court, world, int(word[:at]), word[at], self.commands[int(number) - 1] if number else None)

    def refusals(self, text):
        """How many steps the text answers `no memory`, or None where it isn't what the replay allows."""
        lines, count = iter(text.splitlines()), 0
        for line, clerks, words in self.lists:
            if next(lines, None) != line:
                return None
            world = opening_world(self.court, int(clerks))
            for word in words.split(" "):
                after, outcome = self.after(world, word)
                answer = next(lines, None)
                if answer == outcome:
                    world = after
                elif answer == "no memory" and outcome.split(" ")[0] in TAKE_MEMORY:
                    count += 1
                else:
                    return None
        return count if next(lines, None) is None else None


def refuse_each(program, name, text, library):
    """Whether each run on that input ended as it must."""
    schedules = Schedules(text)

    def refusals(ended):
        status, output, errors = ended
        return schedules.refusals(output.decode()) if (status, errors) == (0, b"") else None

    def who_was_refused(ended):
        return ENDED if ended in PROGRAM_ENDED else {0: DONE_WITHOUT, 1: LOST}.get(refusals(ended))

    counts = swept(library, name, [program], text.encode(), who_was_refused, lambda ended: refusals(ended) == 0)
    return counts is not None and not lacking(name, counts, [LOST])


def texts(path, seed):
    yield path, pathlib.Path(path).read_text()
    for chunk in random_lists(random.Random(seed), MADE):
        yield f"{MADE} lists of seed {seed}", chunk.head.decode() + "".join(line + "\n" for line, _ in chunk.lists)


def main(program, path, seed=1):
    with library_that_refuses() as library:
        ended = [refuse_each(program, name, text, library) for name, text in texts(path, seed)]
    sys.exit(0 if all(ended) else 1)


if __name__ == "__main__":
    if not 3 <= len(sys.argv) <= 4:
        sys.exit("usage: refuse_steps.py PROGRAM INPUT [SEED]")
    main(sys.argv[1], sys.argv[2], *map(int, sys.argv[3:]))
