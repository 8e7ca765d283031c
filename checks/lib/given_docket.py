"""A docket of which a check asks reports: an input of clerk_office, or a folder into which its rows were entered.

In the folder some cases are opened by a number of the court, as 1:25-cv-01234, and rows are given to several clerks; in some,
orders set deadlines, or other ends for them, deadlines are ended and resumed, motions are ruled on, and cases assigned and closed, by
rows that the desk alone takes. What the reports say of it is compared with what clerk_office says of the same rows, all of clerk 1 and
with cases by their numbers, which is the check's to translate; where it doesn't take all rows, the second program in Python speaks in
its place.
"""
import re
from typing import NamedTuple

from lib.case_names import made_name
from lib.desk import Desk, FAULTY, desk_rows, divided, has_rows_of_desk, report_of
from lib.kept_numbers import Numbers
from lib.memo_head import below_head
from lib.programs import Ended, Programs, run
from lib.several_clerks import with_clerks
from office_reference import ended as ended_by_reference

# A row at the end that is answered by one line: what follows it are the sheets and the calendars.
LAST_ROW = b"1,compute,59e,2025-08-04,,,\n"
OF_CASE = re.compile(rb"^(\d+,(?:open|start|file|extend|motion|book|move|cancel|sheet|set|reset|end|resume|close|reopen|rule|assign|title|label),)(\d+)(?=,|\r?\n)")
CLERK = re.compile(rb'(?m)^"?([0-9]+)"?,')


class Given(NamedTuple):
    """The docket: the words by which a report finds it and what that reads, what clerk_office reads in its place, the names of
    cases by their numbers, the clerk of each row (None where all are clerk 1), its own numbers where rows were struck, and
    the deadlines that struck rows had started."""
    programs: Programs
    place: list
    data: bytes
    plain: bytes
    names: dict
    clerks: list
    numbers: Numbers = None
    lost: list = []

    def report(self, words):
        """What docket says: the name of the report comes first."""
        name, *others = words
        return run([self.programs.docket, name, *self.place, *others], self.data)

    def read_by_office(self, last=b""):
        """What clerk_office reads, with a row after all others."""
        return self.plain + (b"" if self.plain.endswith(b"\n") or not last else b"\n") + last

    def office(self, last=b""):
        """What clerk_office says, with the numbers of the folder."""
        data = self.read_by_office(last)
        ended = Ended(*ended_by_reference(data, at_desk=True)) if has_rows_of_desk(data) else self.programs.office(data)
        if ended.status != 0 or self.numbers is None:
            return ended
        return Ended(0, self.numbers.text(data, ended.output.decode()).encode(), ended.errors)

    def memo(self, last=b""):
        """What clerk_office says, with its reasons and the numbers of the folder: the memo without its head."""
        data = self.read_by_office(last)
        ended = report_of(self.programs, ["memo"], data)
        if ended.status != 0:
            return ended
        text = below_head(ended.output.decode())
        return Ended(0, (text if self.numbers is None else self.numbers.text(data, text)).encode(), ended.errors)

    def as_several(self):
        """What clerk_office says of the input as it is, with all clerks that there may be."""
        return self.programs.office(self.data, "--clerks", "64")


def input_of(programs, data, clerks=None, plain=None):
    """An input as it is. Where its rows are of several clerks, `plain` has them as those of clerk 1."""
    return Given(programs, ["--input", "-"], data, data if plain is None else plain, {}, clerks)


def with_names(chance, rows):
    """Rows in which some cases have names, in different spellings."""
    names = {number: made_name(chance).encode() for number in list(range(1, 9)) + [4096] if chance.random() < 0.6}

    def named(found):
        return found[1] + names.get(int(found[2]), found[2])
    return [OF_CASE.sub(named, row) for row in rows]


def names_in(desk):
    """The names of a folder's cases, by their numbers."""
    ended = desk.call("cases")
    assert ended.status == 0, ended
    return {int(number): name for number, name in (line.split(" ") for line in ended.output.decode().splitlines())}


def folder_of(programs, desk):
    """The docket of a folder, as it is after its rows."""
    rows = desk.rows()
    clerks = [int(clerk) for clerk in CLERK.findall(rows[rows.index(b"%%\n"):])]
    front, divider, behind = rows.partition(b"%%\n")
    return Given(programs, [str(desk.folder)], b"", front + divider + CLERK.sub(b"1,", behind), names_in(desk), clerks)


def given_docket(programs, chance, data, parent):
    """A docket of an input of clerk 1: the input itself, or a folder inside `parent`. A court's file with a fault makes none."""
    several, clerks = with_clerks(chance, data)
    court, rows = divided(several)
    if chance.random() < 0.5 or programs.office(court + b"%%\n").status != 0:
        return input_of(programs, several, clerks, data)
    desk = Desk(programs, parent, court)
    if chance.random() < 0.4:
        rows = desk_rows(chance, rows, [1, 2])
    lines = [row if row.endswith(b"\n") else row + b"\n" for row in with_names(chance, rows)]
    ended = desk.call("enter", given=b"".join(lines))
    assert ended.status in (0, FAULTY), ended
    return folder_of(programs, desk)
