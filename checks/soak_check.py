#!/usr/bin/env python3
"""A week of a district in an hour: ten programs enter rows into its folder as fast as they are answered, and are killed all the time.

    soak_check.py DOCKET [SEED [COUNT]]

The rows of a made district (bench/district.py, as large as a folder takes) are entered first. Then come COUNT rounds of a minute (60
without it), with rows drawn from SEED. In a round ten programs have the folder at a time; nine are killed by SIGKILL after a while, and
others begin in their places; the tenth stays to the end. After each round the journal must have the rows of each program, in their order
and as far as it came, with the answers that it wrote, and `docket check` must pass. Nothing may grow but by its rows: the journal by
about as much a row as in the first round, the memory of the tenth by less than a kilobyte a row that is kept, and no files are left but
what was cut off at a kill. A line for each round says what was kept. It needs Linux and Python 3.8 or later.
"""
import itertools
import random
import sys
import tempfile
import threading
import time
from typing import NamedTuple

from lib.desk import Desk
from lib.journal import rows_of
from lib.programs import TOP, programs_of, seed_and_count
from lib.sessions import ENDED, Session, TO_THE_END, explained, sound
from many_kill import memory_of

sys.path.insert(0, str(TOP / "bench"))
from district import FIRST_YEAR, Shape, district  # noqa: E402

# How many programs there are at a time, how many clerks' numbers each place has in a round, and for how many seconds one lives at most.
PLACES, CLERKS, SECONDS, LIFE = 10, 6, 60, 25
# How many bytes of memory a row may take, and by which part the bytes of a row in the journal may differ from the first round's.
A_ROW, PART = 1024, 0.5
# The rows that are drawn: their words, with a case and a day.
FORMS = ("start,{case},59e,{day},,,", "start,{case},30d/after/filing/event/plain,{day},,,", "motion,{case},{day},14", "title,{case},Doe v. Acme {number}",
         "file,{case},1,{day},10:00,electronic", "compute,59e,{day},,,", "compute,4m,{day},,,", "sheet,{case}", "assign,{case},{judge},,{day}")


class Place:
    """One of the places of a round: the programs that have it one after another, each with a clerk's number of its own."""

    def __init__(self, desk, cases, seed, clerks, until):
        self.desk, self.cases, self.draw, self.until = desk, cases, random.Random(seed), until
        self.sessions, self.memory = [], []
        self.thread = threading.Thread(target=self.go, args=(clerks,), daemon=True)
        self.thread.start()

    def rows(self, clerk):
        """Rows without an end."""
        for number in itertools.count(1):
            day = "{}-{:02}-{:02}".format(FIRST_YEAR + 9, self.draw.randint(1, 12), self.draw.randint(1, 28))
            row = self.draw.choice(FORMS).format(case=self.draw.choice(self.cases), day=day, number=number, judge="J{}".format(self.draw.randint(1, 9)))
            yield ["{},{}\n".format(clerk, row).encode()]

    def pauses(self):
        """No pause, until the round is over."""
        while time.monotonic() < self.until:
            yield 0

    def go(self, clerks):
        """One program after another, each of which is killed after a while, unless the round is over before."""
        for clerk in clerks:
            life = self.draw.random() * LIFE
            session = Session(self.desk, clerk)
            self.sessions.append(session)
            session.start(self.rows(clerk), self.pauses(), waits=True)
            if len(clerks) == 1:
                self.watch(session)
            elif clerk != clerks[-1] and time.monotonic() + life < self.until:
                time.sleep(life)
                session.process.kill()
                session.end()
                continue
            session.end()
            return

    def watch(self, session):
        """Notes the memory of a program that lives through the round, from its first answer on."""
        session.wait_for(1)
        while time.monotonic() < self.until - 1:
            self.memory.append(memory_of(session))
            time.sleep(0.5)


class Size(NamedTuple):
    """How much there is after a round: rows, bytes of the journal, and files beside those that were cut off."""
    rows: int
    journal: int
    files: int


def size_of(desk):
    return Size(len(rows_of(desk.read())), desk.journal.stat().st_size,
                sum(not path.name.startswith("cut-") for path in desk.folder.iterdir()))


def check_round(desk, cases, seed, before):
    """A round: the size after it, how many programs there were and were killed, and the memory of the tenth, at first and at last."""
    until = time.monotonic() + SECONDS
    # The tenth place has one clerk, and so a program that lives through the round.
    clerks = [range(1 + place * CLERKS, 1 + (place + 1) * CLERKS) for place in range(PLACES - 1)] + [[64]]
    places = [Place(desk, cases, seed * PLACES + place, list(numbers), until) for place, numbers in enumerate(clerks)]
    for place in places:
        place.thread.join()
    sessions = [session for place in places for session in place.sessions]
    for session in sessions:
        assert session.process.returncode in (*TO_THE_END, *ENDED), (session.process.returncode, session.errors)
    after = size_of(desk)
    kept, unanswered = explained(sessions, rows_of(desk.read()), before.rows)
    sound(desk, after.rows)
    first, *_, last = places[-1].memory
    assert (last - first) * 1024 < kept * A_ROW, ("memory grows", first, last, kept)
    return after, sessions, unanswered, (first, last)


def soaked(programs, seed, count):
    court, rows = district(Shape(seed=seed))
    # Its cases have the desk's own numbers too, in the order in which they are opened.
    cases = range(1, sum(",open," in row for row in rows) + 1)
    with tempfile.TemporaryDirectory() as parent:
        desk = Desk(programs, parent, court.encode())
        ended = desk.call("enter", given="".join(row + "\n" for row in rows).encode())
        assert ended.status == 0, ended
        size, a_row = size_of(desk), None
        for number in range(1, count + 1):
            after, sessions, unanswered, (first, last) = check_round(desk, cases, seed * 1000 + number, size)
            kept = after.rows - size.rows
            bytes_a_row = (after.journal - size.journal) / kept
            a_row = a_row or bytes_a_row
            assert abs(bytes_a_row - a_row) < PART * a_row, ("the journal grows", bytes_a_row, a_row)
            assert after.files <= size.files + 1, ("files are left", sorted(desk.folder.iterdir()))
            killed = sum(session.process.returncode < 0 for session in sessions)
            print("round {}: {:,} rows by {} programs, {} of them killed, {} rows not answered any more; {:.0f} bytes a row; "
                  "memory {:,} to {:,} kB".format(number, kept, len(sessions), killed, unanswered, bytes_a_row, first, last), flush=True)
            size = after
    return "{:,} rows are kept, and none is lost that was answered".format(size.rows)


def main(words):
    seed, count = seed_and_count(words[1:], 60)
    print(soaked(programs_of(words[:1]), seed, count))


if __name__ == "__main__":
    if not 2 <= len(sys.argv) <= 4:
        sys.exit("usage: soak_check.py DOCKET [SEED [COUNT]]")
    main(sys.argv[1:])
