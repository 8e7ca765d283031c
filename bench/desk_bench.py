#!/usr/bin/env python3
"""Measures the desk: rows that wait, a row alone, and how long a full journal takes to open; and SQLite beside it.

    desk_bench.py DOCKET [FOLDER [ENTRIES]]

All files are made in a new folder inside FOLDER (the folder of this repository without it), since what a sync costs is
the disk's business; say on which kind of disk you measured. Each figure is the median of several turns, with the least and
the greatest beside it.

- Rows that wait: an input of rows, whole, for each number of rows. What one read gives is made durable together.
- A row alone: the next row is sent when the answer to the one before has come. A row takes two writes and two syncs.
- Bare: what the same bytes cost without a desk, written at the end of a file and synced, once and twice.
- SQLite: a table of numbers, rows and answers, in WAL mode with synchronous=FULL, with one row and with 100 a commit.
- Opening: `check` on a journal of ENTRIES entries (1,000,000 without it).
- Several: some processes at the same time, each of which sends the next row when the answer to the one before has come, for some
  seconds: how many rows all of them had answered a second, and how long an answer took, as the median and the slowest hundredth.
  Beside it SQLite by as many processes, with one row a commit, and one session beside nine that wait for rows.

Nothing is asserted and no time is limited. It needs Linux and Python 3.8 or later.
"""
import multiprocessing
import os
import pathlib
import random
import sqlite3
import statistics
import subprocess
import sys
import tempfile
import time

from rows import EXAMPLE, SEED, Draw, rows_of

TOP = pathlib.Path(__file__).resolve().parent.parent
TURNS = 5
WAITING = (1000, 10_000, 100_000)
ALONE = 2000
KINDS = ("rule periods", "docket")
# How many processes enter rows at the same time, for how many seconds, and how many wait beside one.
SEVERAL, SECONDS, WAITERS = (1, 2, 4, 10), 3, 9
# About what a row and its answer take in the journal, with their frame.
ENTRY = bytes(110)


def told(name, figures, form="{:>11,.0f}"):
    """A line: the median of figures, the least and the greatest."""
    shown = [form.format(figure) for figure in (statistics.median(figures), min(figures), max(figures))]
    print("{:<52}{}".format(name, " ".join(shown)), flush=True)


def timed(call):
    began = time.perf_counter()
    call()
    return time.perf_counter() - began


def entering(docket, folder, rows, start, results):
    """A process that enters rows into a folder, one after the answer to the other: how long each took, in microseconds."""
    with subprocess.Popen([docket, "enter", folder], stdin=subprocess.PIPE, stdout=subprocess.PIPE, bufsize=0) as session:
        def enter(row):
            session.stdin.write(row.encode() + b"\n")
            session.stdout.readline()
        repeated(enter, rows, start, results)


def inserting(path, rows, start, results):
    """A process that puts rows into a table of SQLite, one a commit: how long each took, in microseconds."""
    base = opened_base(path, 30)

    def insert(row):
        base.execute("BEGIN IMMEDIATE")
        base.execute("INSERT INTO kept (row, answer) VALUES (?, ?)", (row, "1 1 last 2025-09-02"))
        base.execute("COMMIT")
    repeated(insert, rows, start, results)


def repeated(call, rows, start, results):
    """Calls it with one row after the other, from the common start on until the time is over."""
    call(rows[0])
    start.wait()
    taken, end = [], time.perf_counter() + SECONDS
    while time.perf_counter() < end:
        row = rows[len(taken) % len(rows)]
        taken.append(timed(lambda: call(row)) * 1e6)
    results.put(taken)


def opened_base(path, wait):
    """A connection with a database of SQLite, in which a commit is on the disk. It waits that many seconds for other programs."""
    base = sqlite3.connect(path, timeout=wait, isolation_level=None)
    base.execute("PRAGMA journal_mode=WAL")
    base.execute("PRAGMA synchronous=FULL")
    base.execute("CREATE TABLE IF NOT EXISTS kept (number INTEGER PRIMARY KEY, row TEXT, answer TEXT)")
    return base


def at_once(count, call, *words):
    """How long each row took, with that many processes of this kind."""
    start, results = multiprocessing.Barrier(count), multiprocessing.Queue()
    processes = [multiprocessing.Process(target=call, args=(*words, start, results)) for _ in range(count)]
    for process in processes:
        process.start()
    taken = [each for _ in processes for each in results.get()]
    for process in processes:
        process.join()
    return sorted(taken)


def told_several(name, taken):
    """A line: rows a second, and of the answers' microseconds the median and the slowest hundredth."""
    figures = len(taken) / SECONDS, statistics.median(taken), taken[len(taken) * 99 // 100]
    print("{:<52}{}".format(name, " ".join("{:>11,.0f}".format(figure) for figure in figures)), flush=True)


class Bench:
    """The built program, and a folder for its files."""

    def __init__(self, docket, parent):
        self.docket, self.parent, self.made = docket, pathlib.Path(parent), 0

    def opened(self):
        """A new folder with the example's court."""
        self.made += 1
        folder = self.parent / "desk{}".format(self.made)
        subprocess.run([self.docket, "init", folder, "--court", EXAMPLE], check=True)
        return folder

    def enter(self, folder, path):
        with open(path, "rb") as rows:
            subprocess.run([self.docket, "enter", folder], stdin=rows, stdout=subprocess.DEVNULL, check=True)

    def waiting(self, rows):
        """Rows per second of rows that wait, without the start of the program."""
        path, empty = self.parent / "rows", self.parent / "empty"
        path.write_text("".join(row + "\n" for row in rows))
        empty.write_text("")
        folder = self.opened()
        start = min(timed(lambda: self.enter(folder, empty)) for _ in range(3))
        return len(rows) / max(timed(lambda: self.enter(folder, path)) - start, 1e-6)

    def alone(self, rows):
        """The microseconds that each row takes when each waits for the answer to the one before."""
        with subprocess.Popen([self.docket, "enter", self.opened()], stdin=subprocess.PIPE, stdout=subprocess.PIPE,
                              bufsize=0) as session:
            answers, taken = os.fdopen(os.dup(session.stdout.fileno()), "rb"), []
            for row in rows:
                began = time.perf_counter()
                session.stdin.write(row.encode() + b"\n")
                answers.readline()
                taken.append((time.perf_counter() - began) * 1e6)
            session.stdin.close()
            answers.close()
        return taken[len(taken) // 10:]

    def bare(self, syncs):
        """The microseconds that a write at the end of a file and this many syncs take, each sync after a write."""
        file = os.open(self.parent / "bare", os.O_RDWR | os.O_CREAT | os.O_TRUNC)
        taken, at = [], 0
        for _ in range(ALONE):
            began = time.perf_counter()
            os.pwrite(file, ENTRY, at)
            os.fdatasync(file)
            if syncs == 2:
                os.pwrite(file, b"+", max(at - 1, 0))
                os.fdatasync(file)
            taken.append((time.perf_counter() - began) * 1e6)
            at += len(ENTRY)
        os.close(file)
        return taken[len(taken) // 10:]

    def sqlite(self, rows, each):
        """Rows per second into a table of SQLite, with this many in a commit."""
        self.made += 1
        base = opened_base(str(self.parent / "base{}".format(self.made)), 30)
        began = time.perf_counter()
        for first in range(0, len(rows), each):
            base.execute("BEGIN")
            base.executemany("INSERT INTO kept (row, answer) VALUES (?, ?)",
                             [(row, "1 1 last 2025-09-02") for row in rows[first:first + each]])
            base.execute("COMMIT")
        seconds = time.perf_counter() - began
        base.close()
        return len(rows) / seconds

    def several(self, rows, count):
        """How long each row takes that this number of processes enter into one folder."""
        return at_once(count, entering, self.docket, self.opened(), rows)

    def several_in_base(self, rows, count):
        """How long each row takes that this number of processes put into one table of SQLite."""
        self.made += 1
        path = str(self.parent / "base{}".format(self.made))
        opened_base(path, 30).close()
        return at_once(count, inserting, path, rows)

    def beside_waiters(self, rows):
        """The times of rows that one process enters while others have sessions in which nothing is entered."""
        folder = self.opened()
        waiters = [subprocess.Popen([self.docket, "enter", folder], stdin=subprocess.PIPE, stdout=subprocess.PIPE) for _ in range(WAITERS)]
        for waiter in waiters:
            waiter.stdin.write(rows[0].encode() + b"\n")
            waiter.stdin.flush()
            waiter.stdout.readline()
        taken = at_once(1, entering, self.docket, folder, rows)
        for waiter in waiters:
            waiter.communicate()
        return taken

    def opening(self, rows, count):
        """The seconds that `check` takes on a journal of this many entries."""
        path = self.parent / "many"
        path.write_text("".join(rows[at % len(rows)] + "\n" for at in range(count - 1)))
        folder = self.opened()
        self.enter(folder, path)
        call = [self.docket, "check", folder]
        return [timed(lambda: subprocess.run(call, stdout=subprocess.DEVNULL, check=True)) for _ in range(TURNS)]


def drawn(kind, count):
    court = EXAMPLE.read_text()
    return list(rows_of(kind, Draw(random.Random(SEED), court), count))


def measure(bench, entries):
    print("{:<52}{:>11} {:>11} {:>11}".format("", "median", "least", "greatest"))
    for kind in KINDS:
        for count in WAITING:
            rows = drawn(kind, count)
            told("rows that wait, a second: {:,} of {}".format(count, kind), [bench.waiting(rows) for _ in range(TURNS)])
    rows = drawn("rule periods", ALONE)
    told("a row alone, microseconds", bench.alone(rows))
    for syncs, name in ((1, "once"), (2, "twice")):
        told("bare: written and synced {}, microseconds".format(name), bench.bare(syncs))
    for each in (1, 100):
        told("SQLite, rows a second: {} a commit".format(each), [bench.sqlite(rows, each) for _ in range(TURNS)])
    measure_several(bench)
    many = drawn("rule periods", 1000)
    told("opening {:,} entries, seconds".format(entries), bench.opening(many, entries), "{:>11.2f}")


def measure_several(bench):
    rows = drawn("rule periods", 1000)
    print("{:<52}{:>11} {:>11} {:>11}".format("", "rows a s", "median us", "slowest 1%"))
    for count in SEVERAL:
        told_several("rows alone, by {} at the same time".format(count), bench.several(rows, count))
    for count in SEVERAL:
        told_several("SQLite, by {} at the same time".format(count), bench.several_in_base(rows, count))
    told_several("rows alone, beside {} that wait".format(WAITERS), bench.beside_waiters(rows))
    print("{:<52}{:>11} {:>11} {:>11}".format("", "median", "least", "greatest"))


def main(words):
    parent = words[1] if len(words) > 1 else str(TOP)
    with tempfile.TemporaryDirectory(dir=parent) as folder:
        measure(Bench(pathlib.Path(words[0]).resolve(), folder), int(words[2]) if len(words) > 2 else 1_000_000)


if __name__ == "__main__":
    if not 2 <= len(sys.argv) <= 4:
        sys.exit("usage: desk_bench.py DOCKET [FOLDER [ENTRIES]]")
    main(sys.argv[1:])
