#!/usr/bin/env python3
"""Sends one large docket through the desk and through every report of the folder.

    large_check.py DOCKET [SEED [COUNT]]

lib/large_docket.py makes it, of a seed, and COUNT of them (1 without it). Its rows are entered at the desk, with the names of
their cases, and 200 of the first are struck before the others come, one of them for a reason of 5,000 bytes. The answers must
be those of the reference in plain Python, since a number that was given isn't given again. The journal must have all its
entries, each strike must say the numbers that rows gave since the one before it, and the rows that the desk writes must be the
others, in which deadlines and motions are named by their places. Of the folder what is due, a week, a page, iCalendar, JSON and
SQL must say what the reference and `docket memo` say of these rows (lib/calendar_faults.py), with the numbers and names that the
desk answered. It needs Python 3.8 or later, sqlite3 and python3-icalendar; the status is 0 where all is alike.
"""
import itertools
import re
import sys
import tempfile

from lib.calendar_faults import fault_of
from lib.desk import Desk
from lib.given_docket import Given, names_in
from lib.ics_wanted import lost_of
from lib.journal import corrections_in, said_in
from lib.kept_numbers import Numbers, said_wanted
from lib.large_docket import large_docket
from lib.programs import CHECKS, Programs, programs_of, seed_and_count
from office_reference import answers_of

# The reference, which answers as clerk_office does.
REFERENCE = CHECKS / "office_reference.py"
REASONS = ["entered twice", "x" * 5000]
# What a row names by its number, and what one gives a number to.
NAMES = {"file": "deadline", "extend": "deadline", "book": "motion", "move": "motion", "cancel": "motion"}
GIVES = {"start": "deadline", "motion": "motion"}


def with_names(names, rows):
    """The rows in which cases have names."""
    found = []
    for row in rows:
        fields = row.split(",")
        if fields[1] in ("open", "sheet") or fields[1] in NAMES or fields[1] in GIVES:
            fields[2] = names[int(fields[2])]
        found.append(",".join(fields))
    return found


def named_text(names, answers):
    """The text of answers in which cases have names."""
    lines = (line for answer in answers for line in answer)
    return "".join(re.sub(r"(^| )case (\d+) ", lambda found: "{}case {} ".format(found[1], names[int(found[2])]), line) + "\n"
                   for line in lines)


def numbers_given(rows, answers):
    """Of each row that gives a deadline or a motion: its case and the number."""
    given = {}
    for at, (row, answer) in enumerate(zip(rows, answers), 1):
        fields, words = row.split(","), answer[0].split(" ")
        if GIVES.get(fields[1]) == words[2]:
            given[at] = GIVES[fields[1]], int(fields[2]), int(words[3])
    return given


def lost_by(rows, answers, strikes):
    """The deadlines that struck rows had started, by the rows."""
    given = numbers_given(rows, answers)
    return [lost_of(rows[at - 1], given[at][2]) for at in sorted(strikes) if given.get(at, [None])[0] == "deadline"]


def numbers_that_moved(rows, answers, strikes):
    """The table of numbers that aren't places: of deadlines and of motions, the number by the case and the place."""
    places, table = {}, {"deadline": {}, "motion": {}}
    for at, (kind, case, number) in sorted(numbers_given(rows, answers).items()):
        if at not in strikes:
            places[kind, case] = place = places.get((kind, case), 0) + 1
            if place != number:
                table[kind][case, place] = number
    return table


def place_of(moved, case, number):
    """The place of what has the number; none where another thing that moved is there."""
    found = [place for (of, place), kept in moved.items() if (of, kept) == (case, number)]
    return found[0] if found else None if (case, number) in moved else number


def standing(rows, strikes, table):
    """The rows that aren't struck, by their numbers, with places in place of numbers. A row that names a number that nothing has is
    left out."""
    found = {}
    for at, row in enumerate(rows, 1):
        fields = row.split(",")
        if at in strikes:
            continue
        if fields[1] in NAMES:
            place = place_of(table[NAMES[fields[1]]], int(fields[2]), int(fields[3]))
            if place is None:
                continue
            fields[3] = str(place)
        found[at] = ",".join(fields)
    return found


def entered(programs, parent, docket, answers):
    """A folder with the rows, of which some are struck once the first were entered."""
    desk, rows = Desk(programs, parent, docket.court), [row.encode() + b"\n" for row in with_names(docket.names, docket.rows)]
    told = desk.enter(rows[:docket.before])
    for at, row in enumerate(docket.strikes):
        struck = desk.call("strike", str(row), "--reason", REASONS[at == 0], "--accept")
        assert struck.status == 0, (row, struck)
    told += desk.enter(rows[docket.before:])
    assert told.decode() == named_text(docket.names, answers), "other answers"
    kept = desk.call("check")
    assert kept.output == "rows kept: {}, and each is answered as it was\n".format(len(docket.rows)).encode(), kept
    assert len(desk.call("struck").output.splitlines()) == len(docket.strikes)
    journal = desk.read()
    assert [said_in(entry) for _, entry in corrections_in(journal)] == said_wanted(journal, itertools.repeat(b"")), "other numbers are said"
    assert names_in(desk) == docket.names, "other names of cases"
    return desk


def check(seed, programs):
    docket = large_docket(seed)
    answers = answers_of(docket.court + b"%%\n" + "".join(row + "\n" for row in docket.rows).encode())
    table = numbers_that_moved(docket.rows, answers, docket.strikes)
    rows = standing(docket.rows, docket.strikes, table)
    with tempfile.TemporaryDirectory() as parent:
        desk = entered(programs, parent, docket, answers)
        plain = docket.court + b"%%\n" + "".join(row + "\n" for row in rows.values()).encode()
        for got, wanted in zip(desk.rows().splitlines() + [None], plain.splitlines() + [None]):
            assert got == wanted, ("another row", got, wanted)
        given = Given(Programs(programs.docket, REFERENCE), [str(desk.folder)], b"", plain, docket.names, None,
                      Numbers(list(rows), table, docket.before, len(docket.strikes)),
                      lost_by(docket.rows, answers, docket.strikes))
        fault = fault_of(given, range(3 * seed, 3 * seed + 3))
    assert fault is None, fault
    return len(docket.rows) + len(docket.strikes) + 1, sum(map(len, table.values()))


def main(words):
    programs, (seed, count) = programs_of(words[:1]), seed_and_count(words[1:], 1)
    for number in range(seed, seed + count):
        entries, moved = check(number, programs)
        print("seed {}: {} entries, {} numbers that aren't places, and each format says what the reference says".format(
            number, entries, moved), flush=True)


if __name__ == "__main__":
    main(sys.argv[1:])
