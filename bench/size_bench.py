#!/usr/bin/env python3
"""Measures how a district's docket grows: entering, opening, asking and reporting, and SQLite beside it with the same rows.

    size_bench.py DOCKET [--folder FOLDER] [--parts N,N,..] [options of district.py]

bench/district.py makes the district; of its cases a quarter, a half and all are measured, so that growth shows (--parts 4,2,1 are
the parts of one). All files are made in a new folder inside FOLDER (the folder of this repository without it). For each figure there is
what `docket` took and what SQLite took for the same, in seconds, and the greatest memory of `docket` in megabytes.

- Entering: all rows, from a file. SQLite takes them with 100 in a commit (WAL, synchronous=FULL), with what the desk answered: a table
  of rows and answers, and tables of cases, deadlines, motions and hearings with indexes for the questions below. It counts no period
  and refuses nothing.
- One row more: a program is started, the folder is opened, and one row is entered.
- One sheet, what is due in a week, a judge's week, a case's page, what is pending: a program each, and the same by a query.
- An outage: it lists what it moves. The page, iCalendar, JSON and SQL of all. Of these SQLite has none.
- Last, how much memory a session has for a case with four deadlines and a motion, in a folder with MANY of them and one with none.

Nothing is asserted and no time is limited. It needs Linux and Python 3.8 or later.
"""
import argparse
import os
import pathlib
import sqlite3
import subprocess
import tempfile
import time

from district import FIRST_YEAR, district, shape_of, with_options
from rows import court_of

TOP = pathlib.Path(__file__).resolve().parent.parent
TABLES = """
CREATE TABLE kept (number INTEGER PRIMARY KEY, row TEXT, answer TEXT);
CREATE TABLE cases (number INTEGER PRIMARY KEY, name TEXT UNIQUE, filed TEXT, judge TEXT, closed TEXT);
CREATE TABLE deadlines (case_name TEXT, number INTEGER, period TEXT, ends TEXT, filed TEXT, PRIMARY KEY (case_name, number));
CREATE TABLE motions (case_name TEXT, number INTEGER, served TEXT, ruled TEXT, PRIMARY KEY (case_name, number));
CREATE TABLE hearings (case_name TEXT, motion INTEGER, judge TEXT, room TEXT, day TEXT, first TEXT, PRIMARY KEY (case_name, motion));
CREATE INDEX due ON deadlines (ends);
CREATE INDEX pending ON motions (served) WHERE ruled IS NULL;
CREATE INDEX days ON hearings (day);
CREATE INDEX weeks ON hearings (judge, day);
"""
DUE = "SELECT case_name, number, period, ends FROM deadlines WHERE ends BETWEEN ? AND ? AND filed IS NULL AND case_name NOT IN (SELECT name FROM cases WHERE closed IS NOT NULL)"
WEEK = "SELECT day, first, case_name, motion, room FROM hearings WHERE judge = ? AND day BETWEEN ? AND ? ORDER BY day, first"
# How many cases are entered to see how much memory one takes.
MANY = 4000
PENDING = "SELECT judge, case_name, motions.number, served FROM motions JOIN cases ON name = case_name WHERE ruled IS NULL AND served < ? AND closed IS NULL ORDER BY judge"
SHEET = "SELECT * FROM deadlines WHERE case_name = ?", "SELECT * FROM motions WHERE case_name = ?", "SELECT * FROM hearings WHERE case_name = ?"


def changes(row, answer):
    """What a row changes in the tables of SQLite, by the answer that the desk gave."""
    word, name, fields, said = row[1], row[2], row[3:], answer.split()
    if said[2] in ("refused", "fault"):
        return
    if word == "open":
        yield "INSERT INTO cases (name, filed) VALUES (?, ?)", (name, fields[0])
    elif word == "assign":
        yield "UPDATE cases SET judge = ? WHERE name = ?", (fields[0], name)
    elif word == "close":
        yield "UPDATE cases SET closed = ? WHERE name = ?", (fields[1], name)
    elif word == "start":
        yield "INSERT INTO deadlines (case_name, number, period, ends) VALUES (?, ?, ?, ?)", (name, said[3], fields[0], said[-1])
    elif word == "file":
        yield "UPDATE deadlines SET filed = ? WHERE case_name = ? AND number = ?", (fields[1], name, fields[0])
    elif word == "extend":
        yield "UPDATE deadlines SET ends = ? WHERE case_name = ? AND number = ?", (said[-1], name, fields[0])
    elif word == "motion":
        yield "INSERT INTO motions (case_name, number, served) VALUES (?, ?, ?)", (name, said[3], fields[0])
    elif word == "book":
        yield "INSERT INTO hearings VALUES (?, ?, ?, ?, ?, ?)", (name, *fields[:5])
    elif word == "rule":
        yield "UPDATE motions SET ruled = ? WHERE case_name = ? AND number = ?", (fields[2], name, fields[0])
        if "cancelled" in said:
            yield "DELETE FROM hearings WHERE case_name = ? AND motion = ?", (name, fields[0])


class Base:
    """The same rows in SQLite."""

    def __init__(self, path):
        self.path = path
        self.base = sqlite3.connect(str(path), isolation_level=None)
        self.base.execute("PRAGMA journal_mode=WAL")
        self.base.execute("PRAGMA synchronous=FULL")
        self.base.executescript(TABLES)

    def enter(self, rows, answers):
        for first in range(0, len(rows), 100):
            self.base.execute("BEGIN")
            for row, answer in zip(rows[first:first + 100], answers[first:first + 100]):
                self.base.execute("INSERT INTO kept (row, answer) VALUES (?, ?)", (row, answer))
                for statement, values in changes(row.split(","), answer):
                    self.base.execute(statement, values)
            self.base.execute("COMMIT")

    def one_more(self):
        """A connection of its own, a row and a commit."""
        base = sqlite3.connect(str(self.path), isolation_level=None)
        base.execute("PRAGMA synchronous=FULL")
        base.execute("INSERT INTO kept (row, answer) VALUES ('1,compute,59e,2025-08-04,,,', '1 1 last 2025-09-02')")
        base.close()

    def asked(self, *queries):
        """A connection of its own, and all that these queries find."""
        base = sqlite3.connect(str(self.path))
        for query, values in queries:
            base.execute(query, values).fetchall()
        base.close()


class Folder:
    """The same rows in a folder of docket."""

    def __init__(self, docket, parent, court):
        self.docket, self.folder, self.parent = docket, parent / "folder", parent
        (parent / "court.toml").write_text(court)
        self.ran(["init", self.folder, "--court", parent / "court.toml"])

    def ran(self, words, lines=""):
        """How many seconds a call took, its greatest memory in megabytes, and where its output is."""
        given, written = self.parent / "input", self.parent / "output"
        given.write_text(lines)
        with open(given, "rb") as reader, open(written, "wb") as writer:
            began = time.perf_counter()
            process = subprocess.Popen([self.docket, *map(str, words)], stdin=reader, stdout=writer, stderr=subprocess.DEVNULL)
            _, _, used = os.wait4(process.pid, 0)
            seconds = time.perf_counter() - began
            # It was waited for above.
            process.returncode = 0
        return seconds, used.ru_maxrss / 1024, written

    def call(self, word, *more, lines=""):
        return self.ran([word, self.folder, *more], lines)


def timed(call):
    began = time.perf_counter()
    call()
    return time.perf_counter() - began


def told(name, ran, beside=None):
    print("{:<42}{:>12.3f}{:>10.0f}{:>12}".format(name, ran[0], ran[1], "" if beside is None else "{:.4f}".format(beside)), flush=True)


def answered(written):
    """The answers, one to each row: lines below an answer begin with a blank."""
    return [line for line in written.read_text().splitlines() if line[:1].isdigit()]


def measure(docket, parent, shape):
    court, rows = district(shape)
    # The week and the days that are asked for come after the last row.
    year = FIRST_YEAR + shape.years
    first, last, day = "{}-01-12".format(year), "{}-01-16".format(year), "{}-03-31".format(year)
    case = next(row.split(",")[2] for row in reversed(rows) if ",open," in row)
    print("\n{:,} cases, {:,} rows, {} judges".format(shape.cases * shape.years, len(rows), shape.judges))
    print("{:<42}{:>12}{:>10}{:>12}".format("", "seconds", "MB", "SQLite"))
    folder, base = Folder(docket, parent, court), Base(parent / "base")
    ran = folder.call("enter", lines="".join(row + "\n" for row in rows))
    answers = answered(ran[2])
    if len(answers) != len(rows):
        raise SystemExit("of {:,} rows {:,} were answered".format(len(rows), len(answers)))
    told("entering all rows", ran, timed(lambda: base.enter(rows, answers)))
    told("one row more", folder.call("enter", lines="1,compute,59e,2025-08-04,,,\n"), timed(base.one_more))
    sheet = timed(lambda: base.asked(*((query, (case,)) for query in SHEET)))
    told("a sheet", folder.call("ask", lines="1,sheet,{}\n".format(case)), sheet)
    told("what is due in a week", folder.call("due", "--from", first, "--to", last), timed(lambda: base.asked((DUE, (first, last)))))
    told("a judge's week", folder.call("week", "--judge", "J1", "--of", first), timed(lambda: base.asked((WEEK, ("J1", first, last)))))
    told("a case's page", folder.call("case", case), sheet)
    told("what is pending", folder.call("pending", "--on", day), timed(lambda: base.asked((PENDING, ("{}-09-30".format(year - 1),)))))
    for word in ("page", "ics", "json", "sql"):
        told("all: " + word, folder.call(word))
    told("an outage", folder.call("enter", lines="1,inaccessible,{},08:30,17:00\n".format(last)))
    sizes = [sum(file.stat().st_size for file in files) / 1e6 for files in (folder.folder.iterdir(), parent.glob("base*"))]
    print("{:<42}{:>12.1f}{:>10}{:>12.1f}".format("megabytes on the disk", sizes[0], "", sizes[1]))


def memory_of(docket, parent, count):
    """The memory of a session in a folder with this number of cases, in kilobytes."""
    folder = Folder(docket, parent, court_of(2))
    rows = [["1,open,{},2025-01-02", *["1,start,{},12a1Ai,2025-01-03,,,"] * 4, "1,motion,{},2025-02-03,14"] for _ in range(count)]
    folder.call("enter", lines="".join(row.format(case) + "\n" for case, of_case in enumerate(rows, 1) for row in of_case))
    with subprocess.Popen([docket, "enter", folder.folder], stdin=subprocess.PIPE, stdout=subprocess.PIPE) as session:
        session.stdin.write(b"1,compute,59e,2025-08-04,,,\n")
        session.stdin.flush()
        session.stdout.readline()
        status = pathlib.Path("/proc/{}/status".format(session.pid)).read_text()
        session.stdin.close()
    return int(status.split("VmRSS:")[1].split()[0])


def memory_of_a_case(docket, folder):
    """How many bytes of memory a case takes that has four deadlines and a motion."""
    sizes = []
    for count in (0, MANY):
        with tempfile.TemporaryDirectory(dir=folder) as parent:
            sizes.append(memory_of(docket, pathlib.Path(parent), count))
    return (sizes[1] - sizes[0]) * 1024 / MANY


def main():
    parser = with_options(argparse.ArgumentParser(description="Measures how a district's docket grows."))
    parser.add_argument("docket", type=pathlib.Path)
    parser.add_argument("--folder", type=pathlib.Path, default=TOP)
    parser.add_argument("--parts", default="4,2,1")
    words = parser.parse_args()
    shape = shape_of(words)
    for part in map(int, words.parts.split(",")):
        with tempfile.TemporaryDirectory(dir=words.folder) as folder:
            measure(words.docket.resolve(), pathlib.Path(folder), shape._replace(cases=shape.cases // part))
    print("\na case with four deadlines and a motion: {:,.0f} bytes of memory".format(memory_of_a_case(words.docket.resolve(), words.folder)))


if __name__ == "__main__":
    main()
