#!/usr/bin/env python3
"""Compares docket with the second program in Python, row by row, on a made district.

    district_check.py DOCKET [SEED [COUNT]]

bench/district.py makes COUNT cases (2,000 without it) of ten years from SEED. All rows are entered by their cases' numbers as the court
writes them, in sessions that one after another go on with the folder, and half of them while an earlier one still holds it. Then the
sheet of each case is asked for. Each answer must be the second program's, with that number in the place of the desk's own. It needs
Python 3.8 or later.
"""
import sys
import tempfile
from collections import Counter

from lib.case_names import named_text
from lib.desk import Desk
from lib.programs import TOP, programs_of, run, seed_and_count
from office_reference import answered
from reference.court_file import court_of
from reference.rows_in import rows_of

sys.path.insert(0, str(TOP / "bench"))
from district import Shape, district  # noqa: E402

YEARS, PARTS = 10, 8


def named(row):
    """The fields of a row, and the name of the case that it is about."""
    fields = row.split(",")
    return fields, fields[2]


def numbers_of(rows):
    """The desk's number of each case, by its name: the cases are numbered as they are opened."""
    opened = [name for fields, name in map(named, rows) if fields[1] == "open"]
    return {name: number for number, name in enumerate(opened, 1)}


def numbered(rows, numbers):
    """The rows, with the desk's own number of each case in the place of its name."""
    for fields, name in map(named, rows):
        yield ",".join([*fields[:2], str(numbers[name]), *fields[3:]])


def wanted_of(court, rows, numbers):
    """What the second program answers to each row, by the names of cases."""
    names = {number: name for name, number in numbers.items()}
    read = court_of(court.encode(), True)
    text = "".join(row + "\n" for row in numbered(rows, numbers)).encode()
    answers, _ = answered(read, rows_of(text, 1, read, True), None, None)
    return [named_text(names, "\n".join(answer)).split("\n") for answer in answers]


def entered(desk, rows):
    """What the sessions answer: one by one, half of them beside one that was begun before and has answered a row of its own kind."""
    said, size = [], -(-len(rows) // PARTS)
    for place in range(0, len(rows), size):
        part = "".join(row + "\n" for row in rows[place:place + size]).encode()
        beside = desk.session() if place // size % 2 else None
        said += desk.call("enter", given=part).output.decode().splitlines()
        if beside is not None:
            out, errors = beside.communicate(b"")
            assert (beside.returncode, out, errors) == (0, b"", b""), (beside.returncode, out, errors)
    return said


def differences(wanted, said):
    """The first line that differs, if one does."""
    for place, (want, line) in enumerate(zip(wanted, said)):
        if want != line:
            return "line {}: '{}' and not '{}'".format(place + 1, line, want)
    return None if len(wanted) == len(said) else "{} lines and not {}".format(len(said), len(wanted))


def check(programs, seed, count):
    court, rows = district(Shape(cases=count // YEARS, years=YEARS, seed=seed))
    numbers = numbers_of(rows)
    sheets = ["1,sheet," + name for name in numbers]
    answers = wanted_of(court, rows + sheets, numbers)
    with tempfile.TemporaryDirectory() as parent:
        desk = Desk(programs, parent, court.encode())
        said = entered(desk, rows)
        asked = desk.call("ask", given="".join(row + "\n" for row in sheets).encode()).output.decode().splitlines()
    # Each question has the number that the next row would have.
    of_sheets = [["{} {}".format(len(rows) + 1, first.split(" ", 1)[1]), *more] for first, *more in answers[len(rows):]]
    for what, of, lines in (("rows", answers[:len(rows)], said), ("sheets", of_sheets, asked)):
        found = differences([line for answer in of for line in answer], lines)
        assert found is None, (what, found)
    kinds = Counter(answer[0].split(" ")[2] for answer in answers[:len(rows)])
    return "{:,} cases, {:,} rows ({:,} refused), and the sheet of each case: as the second program has them".format(
        len(numbers), len(rows), kinds["refused"])


def main():
    programs = programs_of(sys.argv[1:2])
    seed, count = seed_and_count(sys.argv[2:], 2000)
    assert run([programs.docket, "--version"]).status == 0
    print(check(programs, seed, count))


if __name__ == "__main__":
    main()
