#!/usr/bin/env python3
"""Compares the steps of clerks who share a docket, as stored_steps makes them, with a replay in plain Python.

    steps_compare.py PROGRAM [SEED] [COUNT]

Every list of five steps of two clerks is made, by each of the beginnings below: a list of fewer is the beginning of one
of them. Then COUNT lists (by default 20000) of up to 60 steps of up to four clerks are made from SEED (by default 1), in
courts and over commands that are made at random. Each line that PROGRAM writes must be that of the replay. The last lines
say how many lists there were and how often each outcome came up; the status is 0 where no line differs and each outcome
came up but want of memory. It needs Python 3.8 or later.
"""
import random
import subprocess
import sys
from collections import Counter

from lib.made_inputs import ROWS, made_court
from lib.steps_reference import made, next_part, opening_world
from reference.court_file import court_of
from reference.rows_in import rows_of

OUTCOMES = ["began", "busy", "idle", "no clerk", "read", "ready", "not read", "finished", "stale", "discarded"]
MOST_DIFFERING = 5
LONGEST = 60
# How many lists a chunk of random ones has, which share a court and commands, and how many commands.
CHUNK = 250
COMMANDS = 24

SMALL_COURT = """zone = "EST5EDT,M3.2.0/2,M11.1.0/2"
opens = "08:30"
closes = "17:00"
from = "2007-01-01"
to = "2026-12-31"
federal = ["2025-09-01"]
state = []
judges = ["Ames"]
rooms = ["R1"]"""
SMALL_ROWS = ["open,1,2025-03-03", "motion,1,2025-08-29,14", "book,1,1,Ames,R1,2025-09-15,10:00,1,2025-08-29",
              "holiday,2025-09-15,federal", "cancel,1,1", "move,1,1,Ames,R1,2025-09-16,10:00,1,2025-08-29"]
OPENED = "0b1 0r 0c 0b2 0r 0c"
BOOKED = OPENED + " 0b3 0r 0r 0r 0r 0c"
# What stands before the five steps, and the commands of which they may begin each.
BEGINNINGS = [
    ("", [1, 2, 4]),
    ("0b1 0r 1b1 1r", [1, 2, 4]),
    (OPENED + " 0b3 0r 0r 0r 1b4 1r", [2, 3, 4]),
    (OPENED + " 0b3 0r 0r 0r 0r 1b4 1r 1r", [1, 3, 4]),
    (BOOKED + " 0b5 0r 1b6 1r 1r 1r", [3, 5, 6]),
    (BOOKED + " 0b4 0r 1b5 1r 1r 1r", [4, 5, 6]),
]


class Schedules:
    """A chunk of lists of steps in one court over the same commands."""

    def __init__(self, court, rows):
        self.head = (court + "\n%%\n" + "".join("1," + row + "\n" for row in rows) + "%%%%\n").encode()
        self.court = court_of(court.encode())
        text = "".join("1," + row + "\n" for row in rows).encode()
        self.commands = [row.work for row in rows_of(text, 1, self.court)]
        self.lists = []

    def made(self, world, word):
        """The world after the step of a word, and its outcome."""
        clerk, number = word[0], word[2:]
        command = self.commands[int(number) - 1] if number else None
        return made(self.court, world, int(clerk), word[1], command)

    def add(self, clerks, words, outcomes):
        self.lists.append((" ".join([str(clerks)] + words), outcomes))

    def differing(self, program):
        """The lists on which the program says something else, each with what it says."""
        data = self.head + "".join(line + "\n" for line, outcomes in self.lists).encode()
        ran = subprocess.run([program], input=data, stdout=subprocess.PIPE, stderr=subprocess.PIPE, check=False)
        if ran.returncode != 0 or ran.stderr:
            yield "", [], ["status {}: {}".format(ran.returncode, ran.stderr.decode("utf-8", "replace").strip())]
            return
        lines, at = ran.stdout.decode("utf-8", "replace").splitlines(), 0
        for line, outcomes in self.lists:
            end = at + 1 + len(outcomes)
            if lines[at:end] != [line] + outcomes:
                yield line, outcomes, lines[at:end]
            at = end
        if len(lines) != at:
            yield "", [], ["{} lines and not {}".format(len(lines), at)]


def every_list(beginning, numbers):
    """Chunks of every list of five steps of two clerks after a beginning, with the first of the five the same."""
    letters = ["b{}".format(number) for number in numbers] + ["r", "c", "d"]
    words = [clerk + letter for clerk in "01" for letter in letters]
    for first in words:
        chunk = Schedules(SMALL_COURT, SMALL_ROWS)
        world, begun, outcomes = opening_world(chunk.court, 2), beginning.split() + [first], []
        for word in begun:
            world, outcome = chunk.made(world, word)
            outcomes.append(outcome)
        add_longer(chunk, world, words, begun, outcomes, 4)
        yield chunk


def add_longer(chunk, world, words, begun, outcomes, more):
    """Adds every list with that beginning and that many steps more."""
    if more == 0:
        chunk.add(2, begun, outcomes)
        return
    for word in words:
        after, outcome = chunk.made(world, word)
        add_longer(chunk, after, words, begun + [word], outcomes + [outcome], more - 1)


def random_lists(chance, count):
    """Chunks of lists that are made at random, that many in all."""
    for at in range(0, count, CHUNK):
        kind = chance.choice(["mixed", "hearings", "hearings"])
        court, world = made_court(chance, kind)
        chunk = Schedules("\n".join(court), list(random_rows(chance, world)))
        for _ in range(min(CHUNK, count - at)):
            add_random(chance, chunk)
        yield chunk


def random_rows(chance, world):
    """The rows of commands: first what the others need, then any."""
    for case in world.cases[:2]:
        yield "open,{},2025-08-25".format(case)
        yield "motion,{},2025-08-26,7".format(case)
        yield "start,{},14d/after/filing/event/plain,2025-08-25,,,".format(case)
    words = ["open", "motion", "start", "file", "extend", "book", "move", "cancel", "holiday", "inaccessible"]
    for _ in range(COMMANDS - 6):
        word = chance.choices(words, [1, 2, 1, 1, 1, 8, 5, 3, 3, 1])[0]
        yield word + "," + ROWS[word](chance, world)


def add_random(chance, chunk):
    """Adds a list of steps, most of which bring their clerk on; most lists begin with an open case and its motion."""
    clerks = chance.randrange(1, 5)
    world, words, outcomes = opening_world(chunk.court, clerks), [], []
    first = OPENED.split() if chance.random() < 0.8 else []
    for at in range(chance.randrange(1, LONGEST + 1)):
        word = first[at] if at < len(first) else any_word(chance, chunk, world)
        world, outcome = chunk.made(world, word)
        words.append(word)
        outcomes.append(outcome)
    chunk.add(clerks, words, outcomes)


def any_word(chance, chunk, world):
    clerks = len(world.hands)
    if chance.random() < 0.1:
        return str(chance.randrange(clerks + 1)) + chance.choice([any_begin(chance), "r", "c", "d"])
    clerk = chance.randrange(clerks)
    return str(clerk) + bringing_on(chance, chunk, world.hands[clerk])


def bringing_on(chance, chunk, hand):
    if hand is None:
        return any_begin(chance)
    return "r" if next_part(chunk.court, hand) else "c"


def any_begin(chance):
    """A begin, half of the time of one of the commands that the others need."""
    return "b{}".format(chance.choice([chance.randrange(1, 7), chance.randrange(1, COMMANDS + 1)]))


def counted(outcomes, seen):
    for outcome in outcomes:
        word = outcome.split(" ")[0]
        seen[word if word in ("read", "finished", "stale") else outcome] += 1
        if word == "finished":
            seen["refused" if " refused " in outcome else "not refused"] += 1


def chunks(seed, count):
    for beginning, numbers in BEGINNINGS:
        yield from every_list(beginning, numbers)
    yield from random_lists(random.Random(seed), count)


def main(program, seed=1, count=20000):
    seen, lists, differ = Counter(), 0, 0
    for chunk in chunks(seed, count):
        lists += len(chunk.lists)
        for line, outcomes in chunk.lists:
            counted(outcomes, seen)
        for line, wanted, got in chunk.differing(program):
            differ += 1
            if differ <= MOST_DIFFERING:
                print(chunk.head.decode() + line)
                print("-- replay\n" + "\n".join(wanted))
                print("-- program\n" + "\n".join(got))
    missing = [name for name in OUTCOMES if not seen[name]]
    for name in missing:
        print(name + " never came up")
    print(", ".join("{} {}".format(seen[name], name) for name in OUTCOMES))
    print("of the finished {} were refused".format(seen["refused"]))
    print("{} lists of steps, those at random of seed {}; {} differ".format(lists, seed, differ))
    sys.exit(1 if differ or missing else 0)


if __name__ == "__main__":
    if not 2 <= len(sys.argv) <= 4:
        sys.exit("usage: steps_compare.py PROGRAM [SEED] [COUNT]")
    main(sys.argv[1], *map(int, sys.argv[2:]))
