#!/usr/bin/env python3
"""Compares the reports of a folder, beside a program that enters rows, with those of an input that has the same rows.

    folder_check.py DOCKET [SEED [COUNT]]

COUNT dockets (30 without it) are drawn from SEED, of clerks 1 to 64. Some rows are entered in a session, and once they are
answered each report is asked of the folder; then more rows, and again; and again when the session has ended. What a report of the
folder says must be what it says of the court's file and these rows as an input, byte by byte, but for the day on which a memo is made,
which no input says; and the journal must be as it was. Where the desk alone takes one of the rows, it must be what is said of another
folder into which they are entered at once.
The page of a case must be what its sheet says, in parts, and the last ten entries of its log.
As of the last row that there was then, each report must at the end be what it was then, byte by byte, and so must the rows, the
cases, the rows that are struck and the answers to questions; also once a row is struck.
What rows call cases, deadlines and motions is in each report, whole and as text alone, also where it has markup, a formula, quotes or
characters from right to left; the last text counts, and texts with control characters are refused.
It needs Python 3.8 or later.
"""
import random
import re
import sys
import tempfile

from lib.called_texts import check_called
from lib.desk import Desk, SHORT_COURT, report_of
from lib.journal import rows_of
from lib.memo_head import without_made
from lib.programs import programs_of, seed_and_count
from strike_check import drawn_row, opened

# A row whose answer no other row has: once it is there, all before it are kept.
LAST, ANSWER = b"64,compute,59e,2025-08-04,,,\n", re.compile(rb"\d+ 64 last ")
MOST_CLERKS = 64
# What is asked of a folder, and the statuses with which a call ends that asks for what isn't there, or strikes a row that is none.
QUESTIONS, ABSENT, FAULT = b"1,sheet,1\n1,sheet,2\n1,calendar,Ames,2025-05-05\n", 6, 3


def of_clerks(draw, rows):
    """The rows of clerk 1 given to clerks at random."""
    return [b"%d," % draw.randint(1, MOST_CLERKS) + row.partition(b",")[2] for row in rows]


def reports(draw):
    """Each report, some with words at random."""
    case, day = str(draw.randint(1, 3)), "2025-{:02}-{:02}".format(draw.randint(3, 9), draw.randint(1, 28))
    yield from (["due"], ["due", "--from", day, "--judge", "Ames"], ["due", "--case", case], ["week", "--judge", "Ames", "--of", day],
                ["page"], ["page", "--case", case], ["ics", "--stamp", "20250901T120000Z"], ["ics", "--stamp", "20250901T120000Z", "--judge", "Ames"],
                ["json"], ["json", "--lines"], ["json", "--to", day], ["sql"], ["pending", "--on", day],
                ["pending", "--on", day, "--page"], ["memo"], ["memo", "--case", case, "--today", day],
                ["memo", "--case", case, "--today", day, "--html"])


def undated(words, ended):
    """What a call ended with, without the day on which a memo is made where its words don't say it."""
    is_dated = words[0] == "memo" and "--today" not in words
    return ended._replace(output=without_made(ended.output.decode()).encode()) if is_dated else ended


def compare(desk, draw):
    """Compares each report of the folder with that of its rows."""
    before = desk.journal.read_bytes()
    rows = [row for row, _ in rows_of(desk.read())]
    for words in reports(draw):
        of_folder = undated(words, desk.call(*words))
        of_input = undated(words, report_of(desk.programs, words, desk.input_of(rows)))
        assert of_folder == of_input, (words, rows, of_folder, of_input)
        assert desk.journal.read_bytes() == before, words
    return len(rows)


def page_of(desk, case):
    """The page of a case, made of its sheet and of its log."""
    sheet = desk.call("sheet", case).output.decode().splitlines()[1:]
    motions = next((at for at, line in enumerate(sheet) if line.startswith("motion ")), len(sheet))
    deadlines = next((at for at, line in enumerate(sheet) if line.startswith("deadline ")), motions)
    entries = re.findall(r"^\S.*\n(?:  .*\n)*", desk.call("log", "--case", case).output.decode(), re.MULTILINE)
    lines = sheet[:deadlines] + [""] + (["Deadlines", *sheet[deadlines:motions]] if deadlines < motions else ["No deadlines."]) + [""] + \
        (["Motions", *sheet[motions:]] if motions < len(sheet) else ["No motions."]) + ["", "Last entries"]
    return "".join(line + "\n" for line in lines) + "".join(entries[-10:])


def compare_pages(desk):
    """Compares the page of each of the first cases with its sheet and its log."""
    for case in (1, 2, 3):
        ended, sheet = desk.call("case", case), desk.call("sheet", case)
        assert (ended.status, ended.errors) == (sheet.status, sheet.errors), (case, ended, sheet)
        assert ended.output.decode() == (page_of(desk, case) if sheet.status == 0 else ""), (case, ended)


def told_then(desk, calls, *as_of):
    """What each of these calls writes."""
    for words in calls:
        ended = undated(words, desk.call(*words, *as_of, given=QUESTIONS if words == ["ask"] else b""))
        assert ended.status in (0, ABSENT), (words, as_of, ended)
        yield ended.status, ended.output, ended.errors


def seen(desk, draw):
    """The last row that there is, and what calls write now."""
    calls = [*reports(draw), ["rows"], ["cases"], ["struck"], ["ask"]]
    return len(rows_of(desk.read())), calls, list(told_then(desk, calls))


def compare_then(desk, moments):
    """Compares what was written then with what is written as of that row."""
    for row, calls, told in moments:
        assert list(told_then(desk, calls, "--as-of", row)) == told, (row, calls)
        ended = desk.call("rows", "--as-of", "today")
        assert ended == desk.call("rows"), ended


def check_docket(programs, draw):
    """One docket. How many rows it has."""
    with tempfile.TemporaryDirectory() as parent:
        desk = Desk(programs, parent, SHORT_COURT)
        compare(desk, draw)
        moments = []
        with desk.session() as session:
            for _ in range(2):
                rows = of_clerks(draw, opened(draw) + [drawn_row(draw) for _ in range(draw.randint(1, 60))]) + [LAST]
                session.stdin.write(b"".join(rows))
                session.stdin.flush()
                while not ANSWER.match(session.stdout.readline()):
                    pass
                compare(desk, draw)
                moments.append(seen(desk, draw))
            session.stdin.close()
        count = compare(desk, draw)
        compare_pages(desk)
        compare_then(desk, moments[:1])
        desk.enter([LAST])
        assert desk.call("strike", count + 1, "--reason", "twice").status == FAULT
        ended = desk.call("strike", 1, "--accept", "--reason", "twice")
        assert ended.status in (0, FAULT), ended
        compare_pages(desk)
        compare_then(desk, moments)
        return count


def main(words):
    programs, (seed, count) = programs_of(words[:1]), seed_and_count(words[1:], 30)
    draw = random.Random(seed)
    rows = sum(check_docket(programs, draw) for _ in range(count))
    print("{} texts: what rows call cases, deadlines and motions is in each report as it is".format(check_called(programs)))
    print("{} folders with {} rows: each report is that of the rows, also beside a session".format(count, rows))


if __name__ == "__main__":
    if not 2 <= len(sys.argv) <= 4:
        sys.exit("usage: folder_check.py DOCKET [SEED [COUNT]]")
    main(sys.argv[1:])
