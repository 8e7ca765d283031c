#!/usr/bin/env python3
"""Measures the program on growing numbers of rows: seconds, rows per second and peak memory.

    bench.py PROGRAM

Each input is a court's file, a line '%%', and rows of one kind, drawn from a fixed seed, so that two runs of the
benchmark measure the same inputs. 'example' is the court of examples/district.toml. 'full' is one with all that a
court's file may have: 100 years, and 4,096 dates in each list of holidays, which make 8,192 closed days in a row, so that
most of the rows' last days are moved over many years. Both courts get the same rows, and the last line of their table
compares them. Others are the example with 1 or 32 judges and rooms. 'in order' and 'at random' book one judge's hearings:
half of the rows are bookings, each later than all before it, or anywhere between them.

Then rows are dealt to 1, 2 and 4 clerks in turn; 'of one' is the time as a part of that which one clerk takes. With more
than one clerk each works in a thread of its own, and each command copies what it changes. 'disjoint' has hearings in
cases and before judges of each clerk's own, 'contended' the hearings of all before one judge, where each hearing is
cancelled again, 'growing' the hearings of all before one judge in one room, of which few are cancelled, and 'mostly
reading' asks for sheets and the ends of periods, with one command in 20 rows.

Each input is run once. Seconds are by the wall clock, with about a millisecond for the start of a shell; a megabyte is
1,000,000 bytes. For a run that doesn't end with status 0, the first line that it wrote to standard error is shown and no
rows per second. Nothing is asserted and no time is limited. It needs Linux.
"""
import ctypes
import os
import random
import subprocess
import sys
import tempfile
import time

from rows import BENCHES, CLERK_KINDS, EXAMPLE, MIXED, MOST_ROWS, PARTS, SEED, Draw, court_of, full_court, of_clerks, rows_of

# What is run with which court.
RUNS = (
    ("example", ("days", "rule periods", "hours", MIXED, "docket", "hearings", "sheets")),
    ("full", ("hours", MIXED)),
    ("1 judge", ("hearings", "in order", "at random")),
    ("32 judges", ("hearings",)),
)
SIZES = (1000, 10000, MOST_ROWS)
# How many clerks there are in turn.
CLERKS = (1, 2, 4)
# The same where calendars grow.
GROWING_SIZES = (3000, 10000, 30000, MOST_ROWS)
GROWING_CLERKS = (1, 4)

LINE = "{:<14}{:<10}{:>9}{:>10}{:>13}{:>9}  {}"
CLERKS_LINE = "{:<16}{:>7}{:>9}{:>10}{:>8}{:>13}{:>9}  {}"


def write_input(path, court, rows):
    with open(path, "w") as file:
        file.write(court)
        file.write("%%\n")
        file.writelines(row + "\n" for row in rows)


def adopt_orphans():
    """Makes what a child of this process leaves running a child of this process."""
    pr_set_child_subreaper = 36
    ctypes.CDLL(None).prctl(pr_set_child_subreaper, 1, 0, 0, 0)


def measure(command, rows, errors):
    """Runs the command, a program and its arguments, once: its status, the seconds it took and its peak memory in megabytes.

    Linux counts to a process's peak that of the process it was forked from, and this one is larger than most of what
    it measures. So a shell, which is small, starts the program and ends, and the program is waited for here.
    """
    script = 'rows=$1; errors=$2; shift 2; "$@" < "$rows" > /dev/null 2> "$errors" &'
    start = time.perf_counter()
    subprocess.run(["sh", "-c", script, "sh", rows, errors] + command, check=True)
    _, ended, used = os.wait4(-1, 0)
    seconds = time.perf_counter() - start
    status = os.WEXITSTATUS(ended) if os.WIFEXITED(ended) else -os.WTERMSIG(ended)
    return status, seconds, used.ru_maxrss * 1024 / 1e6


def ending_of(status, errors):
    """How a run ended: its status, and the first line that it wrote to standard error."""
    with open(errors, errors="replace") as file:
        return "{} {}".format(status, file.readline()).strip()


def rate_of(status, count, seconds):
    return "{:,.0f}".format(count / seconds) if status == 0 else "-"


def measure_rows(program, folder):
    """Runs each kind of row with each court."""
    courts = {"example": EXAMPLE.read_text(), "full": full_court()}
    courts.update((name, court_of(judges)) for name, judges in BENCHES.items())
    path, errors = os.path.join(folder, "rows"), os.path.join(folder, "errors")
    taken = {}
    print(LINE.format("kind", "court", "rows", "seconds", "rows/second", "peak MB", "status"))
    for court, kinds in RUNS:
        for kind in kinds:
            for count in SIZES:
                write_input(path, courts[court], rows_of(kind, Draw(random.Random(SEED), courts[court]), count))
                status, seconds, peak = measure([program], path, errors)
                taken[court, kind, count] = seconds
                print(LINE.format(kind, court, "{:,}".format(count), "%.3f" % seconds, rate_of(status, count, seconds),
                                  "%.1f" % peak, ending_of(status, errors)), flush=True)
    ratio = taken["full", MIXED, MOST_ROWS] / taken["example", MIXED, MOST_ROWS]
    print("{:,} {} rows: the full court takes {:.2f} times the example's time".format(MOST_ROWS, MIXED, ratio), flush=True)


def measure_clerks(program, folder):
    """Runs each kind of rows of clerks with each number of them."""
    court = court_of(PARTS)
    path, errors = os.path.join(folder, "rows"), os.path.join(folder, "errors")
    print(CLERKS_LINE.format("kind", "clerks", "rows", "seconds", "of one", "rows/second", "peak MB", "status"))
    for kind in CLERK_KINDS:
        sizes, numbers = (GROWING_SIZES, GROWING_CLERKS) if kind == "growing" else (SIZES, CLERKS)
        for count in sizes:
            alone = None
            for clerks in numbers:
                write_input(path, court, of_clerks(kind, Draw(random.Random(SEED), court), clerks, count))
                command = [program, "--clerks", str(clerks), "--journal", "1000000"]
                status, seconds, peak = measure(command, path, errors)
                alone = alone or seconds
                print(CLERKS_LINE.format(kind, clerks, "{:,}".format(count), "%.3f" % seconds, "%.2f" % (seconds / alone),
                                         rate_of(status, count, seconds), "%.1f" % peak, ending_of(status, errors)),
                      flush=True)


def main(program):
    adopt_orphans()
    with tempfile.TemporaryDirectory() as folder:
        measure_rows(os.path.abspath(program), folder)
        measure_clerks(os.path.abspath(program), folder)


if __name__ == "__main__":
    if len(sys.argv) != 2:
        sys.exit("usage: bench.py PROGRAM")
    main(sys.argv[1])
